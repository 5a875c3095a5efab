"""What stands in the blocks of a file, item by item, and the lists of that. Who asks for hunks and blocks alone does without."""

from __future__ import annotations

import bisect
import itertools
from collections.abc import Sequence

from hunk.lists import KINDS, Layout, Members, Rows
from hunk.rows import Kind, Number, row_of
from hunk.tuples import NamedTuple

TYPE_CHECKING = False
if TYPE_CHECKING:
    from typing import Dict, Iterator

    from hunk.lists import Numbers

# How the library numbers what is wrong with an offset.
FAULTS = {1: "BadTarget", 2: "OutsideHunk"}
# How it numbers what is suspicious in a load file. `docs/warnings` writes this from docs/warnings.tsv.
WARNINGS = {
    1: "OddOffset",
    2: "Twice",
    3: "Overlap",
    4: "InBss",
    5: "OutsideTarget",
    6: "SymbolOutside",
    7: "NoEntry",
    8: "MemoryIgnored",
}


class EntryKind(Number):
    """The type of an EXT entry: SYMB, DEF and ABS define their name, all others refer to it."""

    SYMB, DEF, ABS = 0, 1, 2
    REF32, COMMON, REF16, REF8 = 129, 130, 131, 132
    DEXT32, DEXT16, DEXT8 = 133, 134, 135
    RELREF32, RELCOMMON, ABSREF16, ABSREF8 = 136, 137, 138, 139


class Unit(NamedTuple):
    """A unit of an object file, and how many hunks it has."""

    place: int
    name: bytes
    hunks: int


class Symbol(NamedTuple):
    """A symbol of a SYMBOL block. Its value counts from the start of the hunk."""

    place: int
    unit: int
    hunk: int
    value: int
    name: bytes


class Relocation(NamedTuple):
    """An offset of a hunk at which `width` bytes get the base of the hunk `target`."""

    place: int
    unit: int
    hunk: int
    kind: Kind
    width: int
    target: int
    offset: int


class Reference(NamedTuple):
    """An offset of a hunk at which `width` bytes refer to what an entry names."""

    place: int
    offset: int
    width: int


class Entry(NamedTuple):
    """An entry of an EXT block. `value` is that of a definition, or the bytes of a common block, else 0."""

    place: int
    unit: int
    hunk: int
    kind: EntryKind
    value: int
    name: bytes
    references: Sequence[Reference]


class Finding(NamedTuple):
    """What is wrong with an offset of an object file: "BadTarget" or "OutsideHunk"."""

    place: int
    unit: int
    hunk: int
    offset: int
    fault: str


class Warning(NamedTuple):
    """Something suspicious in a load file that is accepted, by its kind: docs/FORMAT.md has what each means.

    `offset` is what is relocated, and `value` the longword there before, the value of a symbol, or the memory that a block
    asks for, by its place in MEMORY. `other` is the other offset of an Overlap. What a kind does not have is 0."""

    place: int
    hunk: int
    kind: str
    offset: int
    target: int
    value: int
    other: int


ENTRY_KINDS: Dict[int, EntryKind] = Members(EntryKind)


class Units(Rows[Unit]):
    LAYOUT = Layout("place 8 name 8 name_bytes 8 hunks 8 reserved 8")

    def _made(self, first: int, rows: Numbers) -> Iterator[Unit]:
        data, = self._given
        for place, at, count, hunks in rows:
            yield row_of(Unit, (place, data[at : at + count], hunks))


class Symbols(Rows[Symbol]):
    LAYOUT = Layout("place 8 unit 8 hunk 8 name 8 name_bytes 8 value 4 reserved 4")

    def _made(self, first: int, rows: Numbers) -> Iterator[Symbol]:
        data, = self._given
        for place, unit, hunk, at, count, value in rows:
            yield row_of(Symbol, (place, unit, hunk, value, data[at : at + count]))


class Relocations(Rows[Relocation]):
    LAYOUT = Layout("place 8 unit 8 hunk 8 kind 4 width 4 target 4 offset 4 reserved 8")

    def _made(self, first: int, rows: Numbers) -> Iterator[Relocation]:
        for place, unit, hunk, kind, width, target, offset in rows:
            yield row_of(Relocation, (place, unit, hunk, KINDS[kind], width, target, offset))


class References(Rows[Reference]):
    LAYOUT = Layout("entry 8 place 8 offset 4 width 4 reserved 8")

    def _made(self, first: int, rows: Numbers) -> Iterator[Reference]:
        for row in rows:
            yield row_of(Reference, row[1:])


class Entries(Rows[Entry]):
    LAYOUT = Layout("place 8 unit 8 hunk 8 name 8 name_bytes 8 references 8 value 4 kind 4 reserved 8")

    def _made(self, first: int, rows: Numbers) -> Iterator[Entry]:
        data, references = self._given
        # References stand in the order of the entries, whose numbers they have.
        left = iter(references[bisect.bisect_left(references.column("entry"), first) :])
        for place, unit, hunk, at, size, count, value, kind in rows:
            its = [*itertools.islice(left, count)]
            yield row_of(Entry, (place, unit, hunk, ENTRY_KINDS[kind], value, data[at : at + size], its))


class Findings(Rows[Finding]):
    LAYOUT = Layout("place 8 unit 8 hunk 8 offset 4 fault 4 reserved 8")

    def _made(self, first: int, rows: Numbers) -> Iterator[Finding]:
        for place, unit, hunk, offset, fault in rows:
            yield row_of(Finding, (place, unit, hunk, offset, FAULTS[fault]))


class Warnings(Rows[Warning]):
    LAYOUT = Layout("place 8 hunk 8 kind 4 offset 4 target 4 value 4 other 4 reserved 4")

    def _made(self, first: int, rows: Numbers) -> Iterator[Warning]:
        for place, hunk, kind, offset, target, value, other in rows:
            yield row_of(Warning, (place, hunk, WARNINGS[kind], offset, target, value, other))
