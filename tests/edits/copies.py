"""Checks of copies of a crate, with edits and controls made in them."""

import collections
import os
import pathlib
import shutil
import subprocess
import tempfile

from batches import excludes
from built import ROOT, rattle
from files import line_at, source


def checked(crate, group, kind, kept, base=(), only=()):
    """The status and the output of a check of a copy of the crate with the changes of the group, and the controls of the base
    where they can be made beside those, or of these functions alone and those that they call. It begins with what is kept, and
    leaves there what it has proved."""
    beside = [it for it in base if it not in group and not any(is_in_the_way(it, base, other, kind) for other in group)]
    rows = changed(crate, [*((it, "right") for it in beside), *((it, kind) for it in group)])
    with tempfile.TemporaryDirectory(prefix="edits-") as room:
        for part in ("src", "specs", "proofs"):
            if (ROOT / "crates" / crate / part).is_dir():
                shutil.copytree(ROOT / "crates" / crate / part, f"{room}/{part}")
        for file in {file for file, _ in rows}:
            lines = [rows.get((file, number), line) for number, line in enumerate(source(crate, file).split("\n"))]
            (pathlib.Path(room) / file).write_text("\n".join(lines), encoding="utf-8")
        words = rattle("check", crate, "--incremental", str(kept), *[it for name in only for it in ("--only", name)])
        ran = subprocess.run(
            words, cwd=room, stdin=subprocess.DEVNULL, stdout=subprocess.PIPE, stderr=subprocess.STDOUT, text=True
        )
        return ran.returncode, ran.stdout


def changed(crate, made):
    """The lines that these edits change, each with its kind, by file and number. Texts that come in front of one line stand there
    one after another, wherever they are made in one order."""
    found = collections.defaultdict(dict)
    for edit, kind in sorted(made, key=lambda it: it[0].bug):
        for row, text in edit.rows(kind).items():
            found[row][text] = text.removesuffix(line_at(crate, row).strip())
    return {row: "".join([*list(texts.values())[:-1], list(texts)[-1]]) for row, texts in found.items()}


def is_in_the_way(control, base, edit, kind):
    """Whether a control of the base is not made beside the edit. Where the edit's own is one of the base, too, their functions
    were proved with both; else they have to be others."""
    return excludes(control, "right", edit, kind) or edit not in base and bool(control.functions() & edit.functions())


def over(kept, *given):
    """The status and the output of a check that begins with a copy of what is kept."""
    with tempfile.TemporaryDirectory(prefix="edits-") as room:
        shutil.copytree(kept, f"{room}/kept", copy_function=linked)
        return checked(*given[:3], f"{room}/kept", *given[3:])


def linked(one, other):
    """What is proved by a link: a check replaces such a file, and changes none."""
    return os.link(one, other) if one.endswith(".oantt") else shutil.copy2(one, other)
