"""Tells in what two files are the same: in their bytes, their program, or their memory."""

from __future__ import annotations

import argparse
import os

import hunk
from hunk.command import inputs
from hunk.command.inputs import Opened

TYPE_CHECKING = False
if TYPE_CHECKING:
    from typing import List

NAME = "same"
HELP = "in what two files are the same: bytes, program, memory"
DESCRIPTION = """Tells of two files whether each of these is the same, a line each, as `memory: same` or `memory: different`:

  file     their bytes
  program  what is left without names, symbols, debug data, and bytes after the file, in the plain spelling
  memory   what AmigaDOS loads: memories and bytes of the hunks, at any address. Object files have none, nor
           has a file in which relocated longwords overlap, as their order counts: not compared

Files of other spellings are read in their plain one, as with --wide. `hunk survey --same` knows the same file again
among many, by sums. `hunk diff` tells what differs.

Exit status: 0 where one of them is the same, 1 where none is, 2 where a file was refused or could not be read."""

NONE_SAME, REFUSED = 1, 2


def add_arguments(parser: argparse.ArgumentParser) -> None:
    parser.add_argument("names", metavar="FILE", nargs=2, help="a file, or - for standard input")


def why_none(a: hunk.File, b: hunk.File) -> str:
    """Why two files have no memory to compare."""
    for which, file in (("A", a), ("B", b)):
        if file.is_object:
            return f"{which} is an object file"
    return "relocated longwords overlap"


def lines_of(a: Opened, b: Opened) -> List[str]:
    from hunk.command.sums import Sums, sums_of

    lines = []
    for name, one, other in zip(Sums._fields, sums_of(a.file, a.data), sums_of(b.file, b.data)):
        told = "same" if one == other else "different"
        lines.append(f"{name}: {told}" if one and other else f"{name}: not compared, as {why_none(a.file, b.file)}")
    return lines


def run(options: argparse.Namespace) -> int:
    found = [inputs.opened_whole(inputs.Found(os.fsencode(it), True), wide=True) for it in options.names]
    a, b = found
    if a is None or b is None:
        return REFUSED
    try:
        lines = lines_of(a, b)
    except (hunk.HunkError, MemoryError) as error:
        inputs.say_refused(" and ".join(options.names), error)
        return REFUSED
    print("\n".join(lines))
    return 0 if any(it.endswith(": same") for it in lines) else NONE_SAME
