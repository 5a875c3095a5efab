"""Reads what stands in a file."""

from __future__ import annotations

import bisect
from functools import cached_property

# `hunk.items` is imported where one of its lists is first asked for.
import hunk
from hunk.errors import HunkError
from hunk.library import BYTES, NO_ROOM, ROOM, accepted, address_of, bytes_of, call, room, rows_of
from hunk.lists import KINDS, Blocks, Rows
from hunk.loading import table
from hunk.rows import MEMORY, Block, Data, Hunk, Kind, Spelling, row_of
from hunk.spellings import by_plain, in_input, spelling

TYPE_CHECKING = False
if TYPE_CHECKING:
    from typing import Any, Optional, Type, TypeVar

    import hunk.items
    from hunk.items import Entry, Finding, Reference, Relocation, Symbol, Unit, Warning

    _List = TypeVar("_List", bound=Rows[Any])

_check = call("hunk_check", *BYTES, *ROOM)
_warnings = call("hunk_warnings", *BYTES, *ROOM, *ROOM)
_front = call("hunk_front", *BYTES, *ROOM)
_units, _blocks, _symbols, _relocations, _entries, _references = (
    call(f"hunk_{it}", *BYTES, *ROOM) for it in ("units", "blocks", "symbols", "relocations", "entries", "references")
)

CONTENTS = (Kind.CODE, Kind.DATA, Kind.BSS)


def check(data: Data) -> Rows[Finding]:
    """What is wrong with the offsets of an object file; of a load file nothing, or it is refused."""
    findings = hunk.items.Findings
    return findings(rows_of(_check, findings.LAYOUT.size, bytes_of(data)))


class File:
    """What stands in a load file or an object file, in the order of the file. Each list is made when it is first asked for, and
    each of its rows when that is.

    `place` of each item is the byte of `data` at which it begins. `size` is the bytes of the file, which others may follow.
    `spelling` says how the input spelled it: `data` is its plain spelling. `refusal` is None, unless the file was read with
    `partial` and is refused: then it says why, and the lists have what stands in the first `size` bytes of `data`."""

    def __init__(self, data: Data) -> None:
        # What the library lists: where the file is refused, what stands before the fault, and what closes that.
        self.data = self._listed = bytes_of(data)
        self.refusal: Optional[HunkError] = None
        self.spelling = Spelling(len(self.data), 0, 0)
        # Units are quickest to ask for.
        answer = _units(self.data, len(self.data), None, 0)
        if answer.number != NO_ROOM:
            accepted(answer)
        self.size: int = answer.place
        self.is_object: bool = answer.hunk == 0

    def __repr__(self) -> str:
        refused = f", {self.refusal}" if self.refusal else ""
        return f"<{'object' if self.is_object else 'load'} file, {self.size} bytes, {len(self.hunks)} hunks{refused}>"

    def content(self, block: Block) -> bytes:
        """The data of a block, or its name with padding, as it stands in the file."""
        return self.data[block.content : block.content + block.content_bytes]

    def _rows(self, kind: Type[_List], call: Any, *given: Any) -> _List:
        return kind(rows_of(call, kind.LAYOUT.size, self._listed), *given)

    @cached_property
    def hunks(self) -> list[Hunk]:
        blocks, size = self._listed_blocks, self.size
        if self.is_object:
            contents = ((it, it.kind if it.place < size else None) for it in blocks if it.kind in CONTENTS)
            return [Hunk(it.memory, MEMORY[it.flags >> 1], 0, it.unit, it.hunk, kind) for it, kind in contents]
        found = zip(blocks.column("kind"), blocks.column("place"))
        kinds = (KINDS[kind] if place < size else None for kind, place in found if kind in CONTENTS)
        return [row_of(Hunk, (*it[:5], kind)) for it, kind in zip(table(self.data, (1 << 64) - 1), kinds)]

    @cached_property
    def units(self) -> Rows[Unit]:
        return self._rows(hunk.items.Units, _units, self.data)

    @cached_property
    def _listed_blocks(self) -> Blocks:
        """The blocks, with those that close what stands before a fault: BSS and END."""
        return self._rows(Blocks, _blocks)

    @cached_property
    def blocks(self) -> Rows[Block]:
        blocks = self._listed_blocks
        return blocks[: bisect.bisect_left(blocks.column("place"), self.size)] if self.refusal else blocks

    @cached_property
    def symbols(self) -> Rows[Symbol]:
        return self._rows(hunk.items.Symbols, _symbols, self.data)

    @cached_property
    def relocations(self) -> Rows[Relocation]:
        return self._rows(hunk.items.Relocations, _relocations)

    @cached_property
    def entries(self) -> Rows[Entry]:
        """The entries of EXT blocks, each with its references."""
        return self._rows(hunk.items.Entries, _entries, self.data, self.references)

    @cached_property
    def references(self) -> Rows[Reference]:
        """The references of all entries. Its column `entry` has the number of the entry that each is of."""
        return self._rows(hunk.items.References, _references)

    @cached_property
    def findings(self) -> Rows[Finding]:
        """None of a file that is refused, as the target of a relocation may be a hunk after the fault."""
        return hunk.items.Findings(bytearray()) if self.refusal else check(self.data)

    @cached_property
    def warnings(self) -> Rows[Warning]:
        """What is suspicious in a load file. An object file has none, and, as above, a file that is refused has none."""
        warnings, known = hunk.items.Warnings, hunk.items.WARNINGS
        if self.is_object or self.refusal:
            return warnings(bytearray())
        longs, size = room(len(self.data) // 4 * 4), warnings.LAYOUT.size
        rows = rows_of(_warnings, size, self.data, address_of(longs), len(longs) // 4)
        kinds = warnings(rows).column("kind")
        if known.keys() >= {*kinds}:
            return warnings(rows)
        # A library that is newer than this package may have more kinds.
        return warnings(bytearray().join(rows[i * size : (i + 1) * size] for i, kind in enumerate(kinds) if kind in known))


def _before_fault(data: Data) -> File:
    """The file, or what stands before its fault. A refusal is raised where nothing does."""
    data = bytes_of(data)
    try:
        return File(data)
    except HunkError as error:
        refusal = error
    text = room(_front(data, len(data), None, 0).count)
    size = accepted(_front(data, len(data), address_of(text), len(text))).place
    if size == 0:
        raise refusal
    file = File(bytes(text))
    file.data, file.size, file.refusal, file.spelling = data, size, refusal, Spelling(len(data), 0, 0)
    return file


def read(data: Data, wide: bool = False, partial: bool = False) -> File:
    """What stands in the object file that the bytes are, or in the load file that they begin with.

    With `wide`, a load file may have short relocations, and leave END out: its plain spelling is read. The HunkError of a
    refusal has its place in `data`.

    With `partial`, no file is refused whose header, or whose first unit's name, is accepted: the File has what stands before
    the fault, whole blocks alone, and the HunkError as its `refusal`. Hunks without a content there have the `kind` None, and
    those of an object file no size."""
    opened = _before_fault if partial else File
    if not wide:
        return opened(data)
    file = by_plain(opened, data)
    file.spelling = spelling(data)
    if file.refusal:
        file.refusal = in_input(data, file.refusal)
    return file
