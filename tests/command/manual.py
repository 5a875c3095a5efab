"""The manual page of the command, which packaging/hunk-manual prints: what the help of each command prints, line by line."""

import subprocess
import sys

import files
from compared import same

MACROS = {".TH", ".SH", ".SS", ".TP", ".PP", ".B", ".I", ".BR", ".IR", ".RI", ".nf", ".fi"}
# What is not printed as it stands.
SPELLED = (("\\&", ""), ("\\-", "-"), ("\\e", "\\"))


def printed(*words):
    """What a script prints on a terminal of 78 columns; it says nothing, and its status is 0."""
    ran = subprocess.run([sys.executable, *words], env={**files.ENVIRONMENT, "COLUMNS": "78"}, capture_output=True, text=True,
                         timeout=120)
    same(f"{words}: what it says, and its status", (ran.stderr, ran.returncode), ("", 0))
    return ran.stdout


def tried():
    from hunk import command

    page = printed(str(files.TOP / "packaging/hunk-manual"))
    begun = {it.split(" ")[0] for it in page.splitlines() if it[:1] in (".", "'")}
    same("the manual: macros", begun - MACROS, set())
    for spelling, text in SPELLED:
        page = page.replace(spelling, text)
    for name in command.NAMES:
        told = printed("-m", "hunk", name, "--help").rstrip()
        same(f"the manual of {name}", f"\n.SS {name}\n.nf\n{told}\n.fi\n" in page, True)
        line = command.module_of(name).HELP
        same(f"the manual: the line of {name}", f"\n.TP\n.B {name}\n{line}\n" in page, True)
