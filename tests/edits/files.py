"""A crate's files: those that a check of it reads, the text of each, and its lines."""

import functools

from built import ROOT


@functools.cache
def source(crate, file):
    return (ROOT / "crates" / crate / file).read_text(encoding="utf-8")


def line_at(crate, row):
    return source(crate, row[0]).split("\n")[row[1]]


def files_of(crate):
    """All files of the crate that a check of it reads, in order."""
    folders = (ROOT / "crates" / crate / part for part in ("src", "specs", "proofs"))
    return [it for folder in folders for it in sorted(folder.rglob("*")) if it.is_file()]
