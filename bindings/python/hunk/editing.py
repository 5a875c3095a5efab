"""Changes of a file, as changes of the list of its parts. What they make is built, so it is a file or refused."""

from __future__ import annotations

from hunk.building import BSS, Part, build, parts
from hunk.library import bytes_of, number_of
from hunk.rows import MEMORY, Data, Kind
from hunk.tuples import NamedTuple

TYPE_CHECKING = False
if TYPE_CHECKING:
    from typing import Iterable, Iterator, List, Tuple

LONGS, KIND = (1 << 30) - 1, (1 << 29) - 1
CONTENTS = (Kind.CODE, Kind.DATA, Kind.BSS)


class EditError(ValueError):
    """Says that a file has no such hunk, or that a hunk can't be changed so."""


class _Place(NamedTuple):
    """Where a hunk stands in the list of parts: its first part, that of its content, and its END."""

    first: int
    content: int
    end: int


def _kind(part: Part) -> int:
    """The type of a block, 0 of other parts."""
    return part.word & KIND if part.what == "block" else 0


def _longs(data: bytes) -> int:
    return (len(data) + 3) // 4


def _size_word(longs: int, memory: str) -> int:
    """The size word of a hunk."""
    if memory not in MEMORY:
        raise EditError(f"the memory is none of {', '.join(MEMORY)}: {memory!r}")
    if not 0 <= longs <= LONGS:
        raise EditError(f"no hunk has {longs} longwords")
    return MEMORY.index(memory) << 30 | longs


def _with_memory(part: Part, memory: str, attributes: int) -> Part:
    """A HUNK of a load file or, of an object file, the content of a hunk, in this memory."""
    word = _size_word(0, memory)
    if part.what == "hunk":
        return part._replace(word=word | part.word & LONGS, value=attributes)
    if memory == "attributes":
        raise EditError("a hunk of an object file has no attributes")
    return part._replace(word=word | part.word & LONGS)


class Edit:
    """A file to be changed: its `parts`, which may also be changed as the list that they are.

    Hunks are numbered as in a File: those of an object file in their unit. What can't be done raises an EditError, and changes
    nothing."""

    def __init__(self, data: Data) -> None:
        self.parts: List[Part] = parts(data)
        self.is_object = self.parts[0].what == "unit"

    def __repr__(self) -> str:
        return f"<{'object' if self.is_object else 'load'} file of {len(self.parts)} parts, to be changed>"

    def build(self) -> bytes:
        """The file as it now is. A BuildError has the `row` of `parts` that can't be so."""
        return build(self.parts)

    def _places(self) -> Iterator[Tuple[int, int, _Place]]:
        """The unit, number and place of each hunk."""
        unit, number, first, content = -1, 0, 0, 0
        for at, part in enumerate(self.parts):
            if part.what == "unit":
                unit, number, first = unit + 1, 0, at + 1
            content = at if _kind(part) in CONTENTS else content
            if _kind(part) == Kind.END:
                yield max(unit, 0), number, _Place(first, content, at)
                number, first = number + 1, at + 1

    def _place(self, hunk: int, unit: int) -> _Place:
        for its_unit, number, place in self._places():
            if (its_unit, number) == (unit, hunk):
                return place
        raise EditError(f"there is no hunk {f'{unit}.{hunk}' if self.is_object or unit else hunk}")

    def set_memory(self, hunk: int, memory: str, attributes: int = 0, unit: int = 0) -> None:
        """Which memory a hunk asks for: "any", "chip", "fast", or in a load file "attributes"."""
        place = self._place(hunk, unit)
        at = place.content if self.is_object else place.first
        self.parts[at] = _with_memory(self.parts[at], memory, number_of(attributes, 32, "attributes"))

    def set_symbols(self, hunk: int, symbols: Iterable[Tuple[Data, int]], unit: int = 0) -> None:
        """The symbols of a hunk, each a name and a value, in place of those that it has. They stand before its END."""
        first, _, end = self._place(hunk, unit)
        made = [Part.symbol(name, number_of(value, 32, "a symbol's value")) for name, value in symbols]
        kept = [it for it in self.parts[first:end] if it.what != "symbol" and _kind(it) != Kind.SYMBOL]
        self.parts[first:end] = [*kept, *([Part.block(Kind.SYMBOL)] if made else []), *made]

    def set_content(self, hunk: int, data: Data, unit: int = 0) -> None:
        """The content of a hunk that is CODE or DATA. The zeros that a hunk of a load file has after it stay as many."""
        place, data = self._place(hunk, unit), bytes_of(data)
        old, first = self.parts[place.content], self.parts[place.first]
        if _kind(old) == Kind.BSS:
            raise EditError("a hunk of BSS has no content")
        if not self.is_object:
            longs = (first.word & LONGS) + _longs(data) - _longs(old.content)
            self.parts[place.first] = first._replace(word=first.word & ~LONGS | _size_word(longs, "any"))
        self.parts[place.content] = old._replace(content=data)

    def append(self, kind: int, data: Data = b"", longs: int = 0, memory: str = "any", attributes: int = 0) -> None:
        """A hunk at the end of the file, of an object file in its last unit. It has at least so many longwords in memory, and
        those of its data."""
        data, longs = bytes_of(data), max(longs, _longs(data))
        size_word = _size_word(longs, memory)
        if kind not in CONTENTS or kind == BSS and data:
            raise EditError("a hunk is CODE or DATA with data, or BSS without any")
        content = Part.bss(longs) if kind == BSS else Part.block(kind, data)
        if self.is_object and kind != BSS:
            content = content._replace(content=data + bytes(4 * longs - len(data)))
        if self.is_object:
            self.parts += [_with_memory(content, memory, attributes), Part.end()]
        else:
            self.parts += [Part("hunk", size_word, number_of(attributes, 32, "attributes")), content, Part.end()]
