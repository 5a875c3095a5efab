"""The writers of ELF and S-records in JavaScript: they have to write what `hunk convert` does, and to refuse what that refuses."""

import json
import pathlib
import shutil
import subprocess

import hunk
from compared import called, counts, same
from linked import BASE

HERE = pathlib.Path(__file__).resolve().parent


def document(file, to, base):
    """What stands in a file, as the scripts of bindings/javascript take it."""
    contents = [it for it in file.blocks if it.kind in (hunk.Kind.CODE, hunk.Kind.DATA, hunk.Kind.BSS)]
    hunks = [{"bytes": it.size, "memory": it.memory, "kind": block.kind, "content": file.content(block).hex()}
             for it, block in zip(file.hunks, contents)]
    faults = {"BadTarget": 1, "OutsideHunk": 2}
    return {
        "to": to, "base": base, "hunks": hunks, "units": [{"place": it.place} for it in file.units],
        "findings": [{"place": it.place, "fault": faults[it.fault]} for it in file.findings],
        "symbols": [{**it._asdict(), "name": it.name.decode("latin-1")} for it in file.symbols],
        "relocations": [it._asdict() for it in file.relocations],
        "entries": [{**it._asdict(), "name": it.name.decode("latin-1"), "references": [each._asdict() for each in it.references]}
                    for it in file.entries],
        "memory": [] if base is None else [it.hex() for it in hunk.load(file.data, base)],
    }


def accepted(home, files):
    """The files that the library accepts: names, and words that they need."""
    for name, data, is_wide in files:
        (home / name).write_bytes(data)
        if called("show", *(["--wide"] if is_wide else []), home / name)[2] == 0:
            yield name, ["--wide"] if is_wide else []


def look(home, files):
    """The bytes, or the refusals, of both writers."""
    if not shutil.which("node"):
        print("note: tests/converted: the writer in JavaScript was not tried, as there is no node")
        return
    asked_for, wanted = [], []
    for name, words in accepted(home, files):
        path = home / name
        file = hunk.read(path.read_bytes(), wide=bool(words))
        for to, base in [("elf", None)] if file.is_object else [("elf", None), ("elf", BASE), ("srec", BASE)]:
            asked_for.append(json.dumps(document(file, to, base)))
            made = home / "made"
            made.unlink(missing_ok=True)
            _, said, status = called("convert", "--to", to, *([] if base is None else ["--base", hex(base)]), *words, path, made)
            told = said.splitlines()[-1].partition(f"{path}: ")[2] if status else made.read_bytes().hex()
            wanted.append((f"{name} in JavaScript, {to}, {base}", told))
    words = ["node", HERE / "converted.mjs", HERE.parents[1] / "bindings/javascript"]
    ran = subprocess.run(words, input="\n".join(asked_for), capture_output=True, text=True)
    same("converted.mjs", (ran.stderr, ran.returncode), ("", 0))
    got = ran.stdout.splitlines()
    same("files in JavaScript", len(got), len(wanted))
    for line, (what, told) in zip(got, wanted):
        same(what, line, told)
    counts["refused alike"] = sum(told.startswith("byte ") for _, told in wanted)
