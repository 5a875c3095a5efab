"""Disassembles a load file as it lies in memory, by Capstone."""

from __future__ import annotations

from bisect import bisect_left, bisect_right

import capstone

import hunk
from hunk.command.layout import Layout, Place
from hunk.command.words import place_text, text_of
from hunk.tuples import NamedTuple

TYPE_CHECKING = False
if TYPE_CHECKING:
    from typing import Any, Iterator

# Capstone may look at a few bytes after an instruction that is cut off.
SPARE = 24


class Line(NamedTuple):
    """An instruction or a piece of data."""

    address: int
    data: bytes
    text: str


def decoder() -> Any:
    made = capstone.Cs(capstone.CS_ARCH_M68K, capstone.CS_MODE_BIG_ENDIAN | capstone.CS_MODE_M68K_040)
    made.skipdata = True  # what is no instruction is data
    return made


def instructions(code: bytes, start: int) -> Iterator[Line]:
    """The instructions of a piece of a CODE hunk, and as data what is cut off at its end."""
    end = start + len(code)
    for it in decoder().disasm(code + bytes(SPARE), start):
        if it.address + it.size > end:
            yield from longs(code[it.address - start :], it.address)
            return
        yield Line(it.address, bytes(it.bytes), f"{it.mnemonic} {it.op_str}".strip())


def longs(data: bytes, start: int) -> Iterator[Line]:
    """A piece of a hunk that is no code: longs, and at its end what is less."""
    for at in range(0, len(data), 4):
        some = data[at : at + 4]
        yield Line(start + at, some, f"dc.{'l' if len(some) == 4 else 'b'} ${some.hex()}")


def spaces(data: bytes, start: int) -> Iterator[Line]:
    """A piece of zero bytes that the file does not have."""
    yield Line(start, b"", f"ds.b {len(data)}")


class Listing:
    """The lines of a load file at an address."""

    def __init__(self, file: hunk.File, base: int, budget: int) -> None:
        self.segments = hunk.load(file.data, base, budget)
        self.places = [*Layout(file, base).places.values()]
        self.labels: dict[int, list[str]] = {}
        for symbol in filter(lambda it: it.name, file.symbols):
            self.labels.setdefault(self.places[symbol.hunk].base + symbol.value, []).append(text_of(symbol.name))
        self.cuts = sorted(self.labels)
        self.marks = dict(map(self.mark, file.relocations))

    def mark(self, relocation: hunk.Relocation) -> tuple[int, str]:
        """Where a relocated long lies, and what it points to."""
        segment, at = self.segments[relocation.hunk], relocation.offset
        address = int.from_bytes(segment[at : at + 4], "big")
        place = place_text(str(relocation.target), address - self.places[relocation.target].base)
        names = " ".join(self.labels.get(address, []))
        return self.places[relocation.hunk].base + at, f"hunk {place} {names}".rstrip()

    def pieces(self, start: int, end: int) -> Iterator[tuple[int, int]]:
        """The addresses from `start` to `end`, cut at labels."""
        cuts = [start, *self.cuts[bisect_right(self.cuts, start) : bisect_left(self.cuts, end)], end]
        return zip(cuts, cuts[1:])

    def hunk_lines(self, place: Place) -> Iterator[Line]:
        """Those of a hunk."""
        base, segment, size = place.base, self.segments[place.hunk.number], place.block.content_bytes
        write = instructions if place.block.kind is hunk.Kind.CODE else longs
        rest = longs if any(segment[size:]) else spaces
        for part, start, end in ((write, base, base + size), (rest, base + size, base + len(segment))):
            for first, last in self.pieces(start, end) if start < end else ():
                yield from part(segment[first - base : last - base], first)

    def lines(self) -> Iterator[str]:
        for place in self.places:
            yield f"; hunk {place.hunk.number} {place.block.kind.name} at {place.base:08x}, {place.hunk.size} bytes"
            for line in self.hunk_lines(place):
                yield from (f"{label}:" for label in self.labels.get(line.address, []))
                within = range(line.address, line.address + len(line.data))
                marks = ", ".join(self.marks[it] for it in within if it in self.marks)
                yield f"  {line.address:08x}  {line.data.hex():20}  {line.text:32}{'; ' + marks if marks else ''}".rstrip()


def lines(file: hunk.File, base: int, budget: int) -> Iterator[str]:
    return Listing(file, base, budget).lines()
