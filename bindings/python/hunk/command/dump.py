"""Prints the bytes of the hunks of files."""

from __future__ import annotations

import argparse
import sys

import hunk
from hunk.command import inputs, words
from hunk.command.layout import Layout, Place, patches

TYPE_CHECKING = False
if TYPE_CHECKING:
    from typing import Iterator, Optional

NAME = "dump"
HELP = "the bytes of each hunk in hexadecimal digits and as text, or disassembled"
DESCRIPTION = """Prints the bytes of each hunk, 16 a line, in hexadecimal digits and as text. Brackets stand around bytes
that are relocated, or that refer to a name. `*` stands for lines of the same bytes as the one before.
Without --base they are as they stand in the file, and each line has its offset in the hunk. With --base
a load file is loaded: each line has its address, and all bytes of memory are there.
--disassemble prints the instructions of a load file that is loaded to --base, 1000 where none is given,
with symbols as labels and what relocated longwords point to. It needs the package capstone."""

WIDTH = 16
NO_CAPSTONE = "--disassemble needs Capstone: the package capstone of PyPI, or python3-capstone of Debian"


def add_arguments(parser: argparse.ArgumentParser) -> None:
    inputs.add_arguments(parser)
    parser.add_argument("--base", metavar="HEX", type=words.address, help="the address of the first hunk of a load file")
    parser.add_argument("--budget", metavar="N", type=words.count, default=hunk.BUDGET,
                        help="the most bytes that the hunks of a loaded file may have together [default: 16777216]")
    parser.add_argument("--disassemble", action="store_true", help="print instructions")


class Marks:
    """Which bytes of a hunk are changed: where such bytes begin, and where they end."""

    def __init__(self) -> None:
        self.starts: set[int] = set()
        self.ends: set[int] = set()

    def between(self, offset: int) -> str:
        """What stands before the byte of this offset."""
        starts, ends = offset in self.starts, offset in self.ends
        return "|" if starts and ends else "[" if starts else "]" if ends else " "

    def are_in(self, start: int, end: int) -> bool:
        return bool(self.starts) and any(self.between(it) != " " for it in range(start, end + 1))


def marks_of(file: hunk.File) -> dict[tuple[int, int], Marks]:
    """The marks of each hunk that has some."""
    found: dict[tuple[int, int], Marks] = {}
    for it in patches(file):
        marks = found.setdefault((it.unit, it.hunk), Marks())
        marks.starts.add(it.offset)
        marks.ends.add(it.offset + it.width)
    return found


def bytes_line(data: bytes, offset: int, address: int, marks: Marks) -> str:
    """The line of the bytes from this offset of a hunk on."""
    some = data[offset : offset + WIDTH]
    digits = "".join(f"{marks.between(offset + i)}{byte:02x}" for i, byte in enumerate(some)) + marks.between(offset + len(some))
    text = "".join(chr(it) if 0x20 <= it < 0x7F else "." for it in some)
    return f"  {address:08x} {digits:{3 * WIDTH + 1}} |{text}|"


def bytes_lines(data: bytes, base: int, marks: Marks) -> Iterator[str]:
    """The lines of the bytes of a hunk; one `*` for lines without marks that have the bytes of the line before."""
    before, is_passed = b"", False
    for offset in range(0, len(data), WIDTH):
        some = data[offset : offset + WIDTH]
        is_same = some == before and not marks.are_in(offset, offset + WIDTH)
        if not is_same:
            yield bytes_line(data, offset, base + offset, marks)
        elif not is_passed:
            yield "  *"
        before, is_passed = some, is_same
    if is_passed:
        yield f"  {base + len(data):08x}"


def head(file: hunk.File, place: Place, is_loaded: bool) -> str:
    """The line of a hunk."""
    it = place.hunk
    memory = f" {it.memory}" if it.memory != "any" else ""
    where = f" at {place.base:08x}" if is_loaded else ""
    return f"hunk {words.hunk_text(file, it.unit, it.number)} {place.block.kind.name} {it.size} bytes{memory}{where}"


def lines(file: hunk.File, base: Optional[int], budget: int) -> Iterator[str]:
    layout, marks = Layout(file, base or 0), marks_of(file)
    segments = None if base is None else iter(hunk.load(file.data, base, budget))
    for key, place in layout.places.items():
        yield head(file, place, segments is not None)
        data = layout.content(place) if segments is None else next(segments)
        yield from bytes_lines(data, 0 if segments is None else place.base, marks.get(key) or Marks())
        rest = place.hunk.size - len(data)
        if rest > 0:
            yield f"  and {words.counted(rest, 'zero byte')} that the file does not have"


def run(options: argparse.Namespace) -> int:
    has_heads = inputs.are_many(options.names)
    if options.disassemble:
        try:
            from hunk.command import disassembly
        except ImportError:
            print(f"hunk: {NO_CAPSTONE}", file=sys.stderr)
            return 2

    def dump(name: str, file: hunk.File) -> None:
        if options.disassemble:
            base = 0x1000 if options.base is None else options.base
            made = disassembly.lines(file, base, options.budget)
        else:
            made = lines(file, options.base, options.budget)
        for i, line in enumerate(made):
            if i == 0 and has_heads:
                print("==", name)
            print(line)

    return inputs.each(options, dump)
