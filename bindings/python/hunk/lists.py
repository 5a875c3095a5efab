"""The lists of a file. The library's rows stay as it has written them, and one is made when it is asked for: a file may have
millions. The numbers of one field stand side by side in a column."""

from __future__ import annotations

import struct
import sys
from operator import eq

from hunk.rows import Block, Flags, Kind, row_of

TYPE_CHECKING = False
if TYPE_CHECKING:
    from typing import Any, Callable, ClassVar, Dict, Iterable, Iterator, Tuple, Union, overload

    from hunk.library import Memory

    Numbers = Iterable[Tuple[int, ...]]

# Before 3.9 only the sequences of `typing` take the type of a row; the others take whatever it is.
if TYPE_CHECKING or sys.version_info < (3, 9):
    from typing import Sequence, TypeVar

    _Row = TypeVar("_Row")
else:
    from collections.abc import Sequence

    _Row = object


class Members(dict):  # type: ignore[type-arg]
    """The members of an enumeration by their numbers: it is slow to look them up itself."""

    def __init__(self, kind: Callable[[int], int]) -> None:
        self._kind = kind

    def __missing__(self, number: int) -> int:
        self[number] = member = self._kind(number)
        return member


KINDS: Dict[int, Kind] = Members(Kind)
FLAGS: Dict[int, Flags] = Members(Flags)


class Layout:
    """A struct of hunk.h, by its fields and the bytes of each: `size` bytes in all. What is reserved is no field."""

    def __init__(self, text: str) -> None:
        words = text.split()
        # Of each field its format, which element it is of a list of such numbers, and how many of these a row has.
        self.fields: Dict[str, Tuple[str, int, int]] = {}
        self.size = sum(map(int, words[1::2]))
        formats, place = ["="], 0
        for name, size in zip(words[::2], map(int, words[1::2])):
            code = f"{size}x" if name == "reserved" else "Q" if size == 8 else "I"
            if name != "reserved":
                self.fields[name] = code, place // size, self.size // size
            formats.append(code)
            place += size
        self.numbers = struct.Struct("".join(formats))


class Rows(Sequence[_Row]):
    """A list of rows, in the order of the file: as a list, but nothing is changed in it.

    `columns` names the fields of the library's rows, as hunk.h has them: `name` is the byte at which a name begins, and a kind
    its number."""

    LAYOUT: ClassVar[Layout]
    columns: ClassVar[Tuple[str, ...]]

    def __init__(self, memory: Memory, *given: Any) -> None:
        # What else it takes to make a row, and which of the rows in memory are in the list.
        self._memory, self._given = memory, given
        self._which = range(len(memory) // self.LAYOUT.size)

    def __init_subclass__(cls) -> None:
        super().__init_subclass__()
        cls.columns = (*cls.LAYOUT.fields,)

    def _made(self, first: int, rows: Numbers) -> Iterator[_Row]:
        """The rows of these numbers, which are one after the other from the row `first` on."""
        raise NotImplementedError

    def column(self, name: str) -> memoryview:
        """The numbers of a field, one for each row: a view with the format Q or I, which numpy.asarray takes, too."""
        if name not in self.LAYOUT.fields:
            raise KeyError(f"{name!r} is none of the columns {', '.join(self.columns)}")
        code, at, step = self.LAYOUT.fields[name]
        which = self._which
        every = memoryview(self._memory or bytes(self.LAYOUT.size)).cast(code)[at::step].toreadonly()
        if not which:
            return every[:0]
        return every[which.start : which.stop if which.stop >= 0 else None : which.step]

    def __len__(self) -> int:
        return len(self._which)

    if TYPE_CHECKING:

        @overload
        def __getitem__(self, which: int) -> _Row: ...

        @overload
        def __getitem__(self, which: slice) -> Rows[_Row]: ...

    def __getitem__(self, which: Union[int, slice]) -> Union[_Row, Rows[_Row]]:
        if isinstance(which, slice):
            part = type(self)(self._memory, *self._given)
            part._which = self._which[which]
            return part
        i = self._which[which]
        return next(self._made(i, [self.LAYOUT.numbers.unpack_from(self._memory, i * self.LAYOUT.size)]))

    def __iter__(self) -> Iterator[_Row]:
        which, size = self._which, self.LAYOUT.size
        if which.step != 1:
            return (self[i] for i in range(len(which)))
        taken = memoryview(self._memory)[which.start * size : which.stop * size]
        return self._made(which.start, self.LAYOUT.numbers.iter_unpack(taken))

    def __eq__(self, other: object) -> bool:
        if not isinstance(other, (Rows, list)):
            return NotImplemented
        return len(self) == len(other) and all(map(eq, self, other))

    __hash__ = None  # type: ignore[assignment]

    def __getstate__(self) -> Dict[str, Any]:
        """For a copy, or pickle: memory that is mapped has neither."""
        return {**self.__dict__, "_memory": bytearray(self._memory)}

    def __repr__(self) -> str:
        return repr([*self])


class Blocks(Rows[Block]):
    LAYOUT = Layout("place 8 bytes 8 unit 8 hunk 8 content 8 content_bytes 8 memory 8 items 8 kind 4 flags 4 reserved 8")

    def _made(self, first: int, rows: Numbers) -> Iterator[Block]:
        for place, size, unit, hunk, content, count, memory, items, kind, flags in rows:
            yield row_of(Block, (place, size, unit, hunk, KINDS[kind], FLAGS[flags], content, count, memory, items))
