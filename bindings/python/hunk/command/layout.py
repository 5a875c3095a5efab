"""Where the hunks of a file lie, what is in them, and which names stand where."""

from __future__ import annotations

import itertools

import hunk
from hunk.tuples import NamedTuple

TYPE_CHECKING = False
if TYPE_CHECKING:
    from typing import Dict, Iterator, List, Tuple, Union

CONTENTS = (hunk.Kind.CODE, hunk.Kind.DATA, hunk.Kind.BSS)
COMMON = (hunk.EntryKind.COMMON, hunk.EntryKind.RELCOMMON)


class Place(NamedTuple):
    """A hunk, the block of its content, and the address of its first byte."""

    hunk: hunk.Hunk
    block: hunk.Block
    base: int


class Patch(NamedTuple):
    """Bytes of a hunk that are changed: to the base of another hunk, or to what the entry of an object file names."""

    place: int
    unit: int
    hunk: int
    offset: int
    width: int
    kind: Union[hunk.Kind, hunk.EntryKind]
    target: int
    name: bytes


class Layout:
    """A file with its hunks one after the other from the address `base` on, each by its unit and its number."""

    def __init__(self, file: hunk.File, base: int = 0) -> None:
        self.file, self.base = file, base
        contents = (it for it in file.blocks if it.kind in CONTENTS)
        bases = itertools.accumulate((it.size for it in file.hunks), initial=base)
        self.places = {(it.unit, it.number): Place(it, block, start) for it, block, start in zip(file.hunks, contents, bases)}

    def content(self, place: Place) -> bytes:
        return self.file.content(place.block)

    def value_at(self, place: Place, offset: int, width: int) -> int:
        """The number that stands in a hunk. Bytes that the file does not have are 0."""
        start = min(offset, place.block.content_bytes)
        end = min(offset + width, place.block.content_bytes)
        found = self.file.data[place.block.content + start : place.block.content + end]
        return int.from_bytes(found.ljust(width, b"\0"), "big")

    def names(self) -> Dict[Tuple[int, int, int], List[bytes]]:
        """The names of symbols and definitions, by unit, hunk and value."""
        found: Dict[Tuple[int, int, int], List[bytes]] = {}
        keys = [(it.name, it.unit, it.hunk, it.value) for it in self.file.symbols]
        keys += [(it.name, it.unit, it.hunk, it.value) for it in self.file.entries if it.kind <= hunk.EntryKind.DEF]
        for name, *key in keys:
            if name:
                found.setdefault((key[0], key[1], key[2]), []).append(name)
        return {key: sorted(set(names)) for key, names in found.items()}


def patches(file: hunk.File) -> Iterator[Patch]:
    """What changes the bytes of hunks: relocations, and then references, in the order of the file."""
    for it in file.relocations:
        yield Patch(it.place, it.unit, it.hunk, it.offset, it.width, it.kind, it.target, b"")
    for entry in file.entries:
        for reference in entry.references:
            yield Patch(reference.place, entry.unit, entry.hunk, reference.offset, reference.width, entry.kind, -1, entry.name)
