"""What stands in a hunk file: its hunks and blocks as rows, and the numbers there that have names."""

from __future__ import annotations

import enum
import sys

from hunk.tuples import NamedTuple

TYPE_CHECKING = False
if TYPE_CHECKING:
    from typing import Any

# Before 3.10 nothing but `typing` has a type that stands for several.
if TYPE_CHECKING or sys.version_info < (3, 10):
    from typing import Union

    Data = Union[bytes, bytearray, memoryview]
else:
    Data = bytes | bytearray | memoryview
# The most bytes that the hunks of a file may have in memory together, where a caller does not say.
BUDGET = 1 << 24
# The row of a class and its fields, some four times as quick as by the name of the class.
row_of: Any = tuple.__new__
# How the library numbers what a hunk asks for.
MEMORY = ("any", "chip", "fast", "attributes")


class Number(enum.IntEnum):
    """A number of a file that has a name there. One without a name gets a member of its own."""

    @classmethod
    def _missing_(cls, value: object) -> Number | None:
        if not isinstance(value, int):
            return None
        member = int.__new__(cls, value)
        member._name_, member._value_ = f"TYPE_{value}", value
        return member

    def __repr__(self) -> str:
        return self.name


class Kind(Number):
    """The type of a block. An advisory block may have any other number."""

    NAME, CODE, DATA, BSS = 0x3E8, 0x3E9, 0x3EA, 0x3EB
    RELOC32, RELOC16, RELOC8 = 0x3EC, 0x3ED, 0x3EE
    EXT, SYMBOL, DEBUG, END = 0x3EF, 0x3F0, 0x3F1, 0x3F2
    DREL32, DREL16, DREL8 = 0x3F7, 0x3F8, 0x3F9
    RELRELOC32, ABSRELOC16 = 0x3FD, 0x3FE


class Flags(enum.IntFlag):
    """The flags of a block's word."""

    ADVISORY, CHIP, FAST = 1, 2, 4


class Hunk(NamedTuple):
    """A hunk: its bytes in memory, and which memory it asks for: "any", "chip", "fast" or "attributes".

    `attributes` is 0 unless the memory is "attributes". `kind` is that of its content, None where that was not read."""

    size: int
    memory: str
    attributes: int
    unit: int = 0
    number: int = 0
    kind: Kind | None = None


class Block(NamedTuple):
    """A block of a hunk: `bytes` from `place` on in the file, of which `content_bytes` from `content` on are its data or name.

    `memory` is the bytes of a CODE, DATA or BSS block in memory, and `items` how many offsets, symbols or entries it has."""

    place: int
    bytes: int
    unit: int
    hunk: int
    kind: Kind
    flags: Flags
    content: int
    content_bytes: int
    memory: int
    items: int


class Spelling(NamedTuple):
    """How an input spells its file: the bytes of its plain spelling, and what the input has otherwise.

    That has `short_blocks` blocks of short relocations as RELOC32, and `ends` END that the input leaves out."""

    size: int
    short_blocks: int
    ends: int
