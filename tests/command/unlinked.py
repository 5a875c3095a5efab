"""The command where the library is not there: what needs it says so in a line, and all else is as it is with it."""

import json
import subprocess
import sys

import building
import files
from compared import same

NOWHERE = "/nowhere/libhunk.so"
SAID = (f"hunk: {NOWHERE}: cannot open shared object file: No such file or directory. In a clone `./build library` and then "
        "packaging/install.sh make the library; a wheel has it; LIBHUNK may name one\n")
# Words for each command that needs the library.
CALLED = {
    **{it: [it, "sum"] for it in ("show", "size", "nm", "relocs", "dump", "json", "map")},
    **{it: [it, "sum"] for it in ("validate", "lint", "survey", "find")},
    **{it: [it, "sum", "symbol"] for it in ("diff", "same")},
    "relocate": ["relocate", "--base", "1000", "sum"],
    "strip": ["strip", "sum", "unmade"], "convert": ["convert", "--to", "elf", "sum", "unmade"], "edit": ["edit", "sum", "unmade"],
    "build": ["build", "parts.json", "unmade"],
}


def without(words, home):
    """What is printed and said without a library, and the status."""
    ran = subprocess.run([sys.executable, "-W", "error", *words], cwd=home, env={**files.ENVIRONMENT, "LIBHUNK": NOWHERE},
                         capture_output=True, text=True, timeout=120)
    return ran.stdout, ran.stderr, ran.returncode


def tried(home):
    from hunk import command

    same("commands that need the library", {*CALLED, "explain"}, {*command.NAMES})
    (home / "parts.json").write_text(json.dumps({"parts": building.PROGRAM}), encoding="utf-8")
    for name, words in CALLED.items():
        _, said, status = without(["-m", "hunk", *words], home)
        same(f"without a library: {' '.join(words)}", (said, status, (home / "unmade").exists()), (SAID, 2, False))
    for words in (["--help"], ["--version"], ["explain", "Budget"], ["dump", "--help"], ["--completions", "bash"]):
        same(f"without a library: {' '.join(words)}", without(["-m", "hunk", *words], home), files.hunk(*words, folder=home))
    line = SAID.replace("hunk: ", "ImportError: ", 1)
    _, said, status = without(["-c", "import hunk; print(hunk.BUDGET, hunk.Kind.CODE); hunk.read(b'')"], home)
    same("without a library: hunk.read", (said.splitlines()[-1:], status), ([line.rstrip()], 1))
