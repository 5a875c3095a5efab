"""The tools of GNU for the 68000, which share nothing with `hunk convert`: what they make of a file of ELF, of S-records and of
Intel hexadecimal text."""

import re
import shutil
import subprocess

PREFIX = "m68k-linux-gnu-"
NAMES = ("gcc", "ld", "objcopy", "objdump", "nm", "readelf")
# What nm lists of sections, which `hunk nm` has no names for.
SECTION = re.compile(r"\.(text|data|bss)\.hunk\d+(\.\w+)?")


def lacking():
    """The first of the tools that is not there."""
    return next((PREFIX + it for it in NAMES if not shutil.which(PREFIX + it)), None)


def ran(tool, *words):
    """What a tool prints. Anything that it complains of is an error."""
    ran = subprocess.run([PREFIX + tool, *map(str, words)], capture_output=True)
    if ran.returncode or ran.stderr:
        raise AssertionError(f"{tool} {words}: {ran.returncode} {ran.stderr.decode(errors='replace')}")
    return ran.stdout.decode("latin-1")


def flat(path, kind=None):
    """The bytes of a file from the first that it has on, or none where it has none, which is an error for objcopy."""
    made = path.with_name("flat")
    made.unlink(missing_ok=True)
    words = [PREFIX + "objcopy", *(("-I", kind) if kind else ()), "-O", "binary", path, made]
    said = subprocess.run(words, capture_output=True, text=True).stderr
    if said and not said.rstrip().endswith("has no sections"):
        raise AssertionError(said)
    return made.read_bytes() if made.exists() else b""


def linked(path, sections):
    """The file of ELF that ld makes of one, with each of these sections at its address."""
    made, script = path.with_name("linked"), path.with_name("script")
    parts = "".join(f" .s{i} {address:#x} : {{ KEEP(*({name})) }}" for i, (name, address) in enumerate(sections))
    script.write_text(f"SECTIONS {{{parts} }}\n", encoding="utf-8")
    ran("ld", "-T", script, "-e", "0", "--no-warn-rwx-segments", "-o", made, path)
    return made


def names(path):
    """The lines of nm without those of sections, in capital letters as those of `hunk nm`."""
    lines = (re.fullmatch(r"(.{8}) (.) (.*)", it).groups() for it in ran("nm", "-a", path).split("\n") if it)
    return sorted(f"{value} {letter.upper()} {name}" for value, letter, name in lines if not SECTION.fullmatch(name))


def relocations(path):
    """Each relocation that objdump lists: the section, the offset, the kind and what is added."""
    found, section = [], ""
    for line in ran("objdump", "-rw", path).split("\n"):
        head = re.fullmatch(r"RELOCATION RECORDS FOR \[(.*)\]:", line)
        row = re.fullmatch(r"([0-9a-f]{8}) (R_68K_\w+) +(.*)", line)
        section = head[1] if head else section
        found += [(section, int(row[1], 16), row[2], row[3])] if row else []
    return found
