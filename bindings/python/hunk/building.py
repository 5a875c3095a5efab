"""All that a file says, as one flat list of parts, and the file that such a list spells."""

from __future__ import annotations

import struct
from functools import lru_cache
from itertools import accumulate

from hunk.errors import HunkError
from hunk.library import BYTES, OK, ROOM, address_of, bytes_of, call, number_of, refusal, room, rows_of
from hunk.rows import MEMORY, Data
from hunk.tuples import NamedTuple

TYPE_CHECKING = False
if TYPE_CHECKING:
    from typing import Any, Sequence, Tuple

_parts = call("hunk_parts", *BYTES, *ROOM)

# The row of hunk.h.
_PART = struct.Struct("=3I4x4Q")
# How it numbers what a part is, from 1 on.
WHATS = ("hunk", "unit", "block", "group", "symbol", "entry")
STRANGE, NO_SUCH_PART = 33, "no file has such a part there"
CODE, BSS, END = 0x3E9, 0x3EB, 0x3F2


class BuildError(HunkError):
    """Says that parts spell no file that is accepted: `row` is the number of the part at fault, from 0 on, or that of all parts
    where they end too soon. `place` is a byte of the file that they would spell."""

    def __init__(self, error: HunkError, row: int) -> None:
        meaning = NO_SUCH_PART if error.number == STRANGE else error.meaning
        super().__init__(error.reason, error.number, error.place, error.hunk, meaning)
        self.row = row

    def __reduce__(self) -> Any:
        return BuildError, (HunkError(*self.args), self.row)

    def __str__(self) -> str:
        return f"part {self.row} {super().__str__()}"


def _named(name: Data, is_marked: bool) -> bytes:
    """A name as content. Where nothing else marks its item, an empty one has a longword of 0."""
    return bytes_of(name) or (b"" if is_marked else bytes(4))


class Part(NamedTuple):
    """A part of a file: `what` it is of WHATS, and what it says. What its kind does not have is 0 or empty.

    `word` is the size word of a hunk of a load file, the word of a block, the target of a group of offsets, the top byte of a
    symbol's word, or the type of an entry. `value` is the attributes of a hunk, the value of a symbol or an entry, bits 30 and
    31 of the size word of a CODE or DATA block, or that of a BSS block. `content` is the name or the data, with its padding,
    and `offsets` those of a group or an entry.

    The calls below make parts by what they are. `build` fills content up with zero bytes to whole longwords."""

    what: str
    word: int = 0
    value: int = 0
    content: bytes = b""
    offsets: tuple[int, ...] = ()

    @classmethod
    def hunk(cls, longs: int, memory: str = "any", attributes: int = 0) -> Part:
        """The begin of a hunk of a load file with so many longwords. `attributes` are for the memory "attributes"."""
        return cls("hunk", MEMORY.index(memory) << 30 | number_of(longs, 30, "longs"), attributes)

    @classmethod
    def unit(cls, name: Data = b"") -> Part:
        """The begin of a unit of an object file."""
        return cls("unit", content=bytes_of(name))

    @classmethod
    def block(cls, kind: int, content: Data = b"", flags: int = 0, bits: int = 0) -> Part:
        """A block with its Flags. `bits` are bits 30 and 31 of the size word, of CODE and DATA."""
        return cls("block", _block_word(kind, flags), number_of(bits, 2, "bits") << 30, bytes_of(content))

    @classmethod
    def bss(cls, longs: int, flags: int = 0, bits: int = 0) -> Part:
        """A BSS block of so many longwords."""
        size = number_of(bits, 2, "bits") << 30 | number_of(longs, 30, "longs")
        return cls("block", _block_word(BSS, flags), size)

    @classmethod
    def end(cls) -> Part:
        """The END of a hunk."""
        return cls("block", END)

    @classmethod
    def group(cls, target: int, offsets: Sequence[int]) -> Part:
        """Offsets with one target, in the block of relocations before it."""
        return cls("group", target, offsets=tuple(offsets))

    @classmethod
    def symbol(cls, name: Data, value: int, top: int = 0) -> Part:
        """A symbol, in the SYMBOL block before it. `top` is the top byte of its word."""
        return cls("symbol", top, value, _named(name, top > 0))

    @classmethod
    def entry(cls, kind: int, name: Data, value: int = 0, offsets: Sequence[int] = ()) -> Part:
        """An entry, in the EXT block before it. `offsets` are those of references."""
        return cls("entry", int(kind), value, _named(name, kind > 0), tuple(offsets))


def _block_word(kind: int, flags: int) -> int:
    return number_of(int(flags), 3, "flags") << 29 | number_of(int(kind), 29, "kind")


def parts(data: Data) -> list[Part]:
    """The parts of the object file that the bytes are, or of the load file that they begin with, in the order of the file.

    Each hunk of a load file stands before its blocks, though its size word stands in the header. Counts, what ends a list, and
    the rest of the header are no parts."""
    data = bytes_of(data)
    return [
        Part(WHATS[what - 1], word, value, data[at : at + size], struct.unpack_from(f">{count}I", data, start) if count else ())
        for what, word, value, at, size, start, count in _PART.iter_unpack(rows_of(_parts, _PART.size, data))
    ]


# ---- Building.


@lru_cache(maxsize=None)
def _building() -> Any:
    """The call of the library. One that is older than it has all others."""
    return call("hunk_build", *ROOM, *BYTES, *ROOM)


def _longword(value: int, at: int, field: str) -> int:
    return number_of(value, 32, f"{field} of part {at}")


def _offset_bytes(offsets: Sequence[int], at: int) -> bytes:
    try:
        return struct.pack(f">{len(offsets)}I", *offsets)
    except struct.error:
        raise ValueError(f"an offset of part {at} is no number of 32 bits") from None


def _row(part: Part, at: int, content: int, offsets: int) -> bytes:
    """The row of hunk.h for the part with this number, whose content and offsets stand there."""
    if part.what not in WHATS:
        raise ValueError(f"what of part {at} is none of {', '.join(WHATS)}: {part.what!r}")
    word, value = _longword(part.word, at, "word"), _longword(part.value, at, "value")
    return _PART.pack(WHATS.index(part.what) + 1, word, value, content, len(part.content), offsets, len(part.offsets))


def _packed(parts: Sequence[Part]) -> Tuple[bytearray, bytes]:
    """The rows of the parts, and the bytes in which their content and offsets stand one after the other."""
    pieces = [piece for at, it in enumerate(parts) for piece in (bytes_of(it.content), _offset_bytes(it.offsets, at))]
    places = [0, *accumulate(map(len, pieces))]
    rows = (_row(it, at, places[2 * at], places[2 * at + 1]) for at, it in enumerate(parts))
    return bytearray().join(rows), b"".join(pieces)


def build(parts: Sequence[Part]) -> bytes:
    """The load file or object file that the parts spell, in the order of `parts`. Those of a file give that file.

    Raises a BuildError where no file has such parts, or the file that they spell is refused. A ValueError says that a field has
    no room for its number."""
    building = _building()
    parts = list(parts)
    rows, data = _packed(parts)
    # This is always enough.
    text = room(20 + 16 * len(parts) + len(data))
    answer = building(address_of(rows), len(parts), data, len(data), address_of(text), len(text))
    if answer.number != OK:
        raise BuildError(refusal(answer.number, answer.place, answer.hunk), answer.count)
    return memoryview(text)[: answer.count].tobytes()
