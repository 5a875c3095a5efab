"""Finds hunk files in bytes, at any place. The library reads them where they lie, so there is no limit to the bytes."""

from __future__ import annotations

import bisect
import ctypes
import mmap
import re
from ctypes import c_uint8, c_uint64, c_void_p

import hunk
from hunk.command.layout import CONTENTS
from hunk.library import NO_ROOM, OK, ROOM, TRUNCATED, accepted, address_of, call, room
from hunk.tuples import NamedTuple

TYPE_CHECKING = False
if TYPE_CHECKING:
    from typing import Callable, Iterator, List, Optional, Tuple

    from hunk.command.disks import Bytes

# The first longwords of a load file as far as it may be accepted: at most 65,536 hunks, of which the first is 0. The first longword
# of an object file, and that of the length of its name.
FIRST = re.compile(rb"\0\0\x03(?:\xf3(?=\0{5}[\0\1]..\0{6})|\xe7(?=\0))", re.DOTALL)
LONGEST = 18
LOAD_WORD, UNIT = 0xF3, b"\0\0\x03\xe7"
# So much is looked at before progress is told.
STEP = 1 << 24
# A load file of another spelling is looked for in so many bytes, then in four times as many, up to the most.
WINDOW, MOST_WINDOW = 1 << 16, 1 << 24
# ShortReloc, SecondContent, Truncated: the reasons for which such a file is refused as it is.
SPELLED = (13, 17, TRUNCATED)
NO_BUDGET = (1 << 64) - 1

# The bits of a block word that are its type, and those of the size of a content. Blocks of lists, and those that have no bytes.
KIND_BITS, SIZE_BITS = 0x1FFFFFFF, 0x3FFFFFFF
WITHOUT_LENGTH = {*hunk.Kind} - {hunk.Kind.NAME, hunk.Kind.CODE, hunk.Kind.DATA, hunk.Kind.DEBUG}

# They take an address, too, and then copy nothing.
_check = call("hunk_check", c_void_p, c_uint64, *ROOM)
_front = call("hunk_front", c_void_p, c_uint64, *ROOM)
_table = call("hunk_table", c_void_p, c_uint64, c_uint64, *ROOM)


class Hit(NamedTuple):
    """A hunk file that stands in others' bytes. `inside` is the place of one in which it begins."""

    place: int
    size: int
    what: str
    hunks: int
    memory: int
    inside: Optional[int] = None


class Units:
    """The units of an object file that have hunks: where each begins, and how many hunks and bytes of memory come from there on."""

    def __init__(self, place: int, file: hunk.File, size: int) -> None:
        ends = [it for it in file.blocks if it.kind == hunk.Kind.END and it.place < size]
        self.end = place + max((it.place + it.bytes for it in ends), default=0)
        memory = {(it.unit, it.hunk): it.memory for it in file.blocks if it.kind in CONTENTS}
        self.starts: List[int] = []
        self.left: List[Tuple[int, int]] = []
        # From the last to the first, so that each adds to what comes after it.
        hunks = total = 0
        units = {number: place + it.place for number, it in enumerate(file.units)}
        for it in reversed(ends):
            hunks, total = hunks + 1, total + memory[it.unit, it.hunk]
            if it.hunk == 0:
                self.starts.append(units[it.unit])
                self.left.append((hunks, total))
        self.starts.reverse()
        self.left.reverse()

    def hit_at(self, place: int) -> Optional[Hit]:
        """The object file that begins there, where a unit does."""
        at = bisect.bisect_left(self.starts, place)
        if at == len(self.starts) or self.starts[at] != place:
            return None
        return Hit(place, self.end - place, "object", *self.left[at])


class Finder:
    """The hunk files in bytes. `tell` is called with the place now and then."""

    def __init__(self, data: Bytes, is_wide: bool, tell: Callable[[int], None]) -> None:
        self.data, self.is_wide, self.tell = data, is_wide, tell
        # A map gives its address as a buffer that may be written to: so it has to be a private one.
        self._buffer = None
        if isinstance(data, mmap.mmap):
            self._buffer = (c_uint8 * len(data)).from_buffer(data)
            self._address = ctypes.addressof(self._buffer)
        else:
            self._address = ctypes.cast(ctypes.c_char_p(data), c_void_p).value or 0
        self._units: List[Units] = []

    def __enter__(self) -> Finder:
        return self

    def __exit__(self, *_: object) -> None:
        # A map that is still handed out can't be closed.
        self._buffer = None

    # ---- Load files.

    def _load_at(self, place: int) -> Optional[Hit]:
        rest = len(self.data) - place
        answer, what = _check(self._address + place, rest, None, 0), "load"
        size = answer.place
        if answer.number in SPELLED and self.is_wide:
            size, what = self._wide_size(place), "wide"
        elif answer.number:
            size = 0
        if not size:
            return None
        # The header tells both, of any spelling.
        table = _table(self._address + place, rest, NO_BUDGET, None, 0)
        return Hit(place, size, what, table.hunk, table.count)

    def _wide_size(self, place: int) -> int:
        """The bytes of a load file of another spelling, 0 of none. Its last END is there, unless the bytes end with it."""
        window = WINDOW
        while True:
            text = bytes(self.data[place : place + window])
            is_all = len(text) == len(self.data) - place
            try:
                size = hunk.input_place(text, hunk.read(text, wide=True).size)
                if size < len(text) or is_all:
                    return size
            except hunk.HunkError as error:
                if error.reason != "Truncated":
                    return 0
            if is_all or window >= MOST_WINDOW:
                return 0
            window *= 4

    # ---- Object files.

    def _begins_hunk(self, place: int) -> bool:
        """Whether a unit has a block after its name. One without may go on for ever."""
        at = place + 8 + 4 * int.from_bytes(self.data[place + 4 : place + 8], "big")
        return len(self.data) >= at + 4 and self.data[at : at + 4] != UNIT

    def _object_at(self, place: int) -> Optional[Hit]:
        """An object file up to its last END, as anything may come after that."""
        while self._units and self._units[-1].end <= place:
            self._units.pop()
        for it in self._units:
            hit = it.hit_at(place)
            if hit:
                return hit
        if not self._begins_hunk(place):
            return None
        units = self._units_at(place)
        if units is None or units.end == place:
            return None
        self._units.append(units)
        return units.hit_at(place)

    def _units_at(self, place: int) -> Optional[Units]:
        """What stands before the fault of an object file; None where nothing does."""
        address, most = self._address + place, self._whole_blocks(place)
        text = room(_front(address, most, None, 0).count)
        size = accepted(_front(address, most, address_of(text), len(text))).place
        return Units(place, hunk.read(bytes(text)), size) if size else None

    def _whole_blocks(self, place: int) -> int:
        """So many bytes of an object file have all blocks that are whole. The front takes time for each byte of one that is not, and
        bytes after a file are often a block that is said to be longer than all there is."""
        address, rest = self._address + place, len(self.data) - place
        answer = _check(address, rest, None, 0)
        if answer.number != TRUNCATED:
            return rest if answer.number in (OK, NO_ROOM) else int(answer.place)
        window = WINDOW
        while window < rest:
            size = int(_front(address, window, None, 0).place)
            if self._block_end(place + size) > len(self.data):
                return size
            window *= 4
        return rest

    def _block_end(self, place: int) -> int:
        """Where a block ends that says how long it is; its own place for any other."""
        first = self.data[place : place + 8].ljust(8, b"\0")
        kind, count = int.from_bytes(first[:4], "big"), int.from_bytes(first[4:], "big")
        if kind & KIND_BITS in WITHOUT_LENGTH:
            return place
        is_content = kind & KIND_BITS in (hunk.Kind.CODE, hunk.Kind.DATA)
        return place + 8 + 4 * (count & SIZE_BITS if is_content else count)

    # ---- All of them.

    def _at(self, place: int) -> Optional[Hit]:
        return self._load_at(place) if self.data[place + 3] == LOAD_WORD else self._object_at(place)

    def _places(self) -> Iterator[int]:
        """Where a hunk file may begin."""
        for start in range(0, len(self.data), STEP):
            for found in FIRST.finditer(self.data, start, min(len(self.data), start + STEP + LONGEST)):
                if found.start() < start + STEP:
                    self.tell(found.start())
                    yield found.start()
            self.tell(min(len(self.data), start + STEP))

    def hits(self) -> Iterator[Hit]:
        around: List[Hit] = []
        for place in self._places():
            hit = self._at(place)
            if hit is None:
                continue
            while around and around[-1].place + around[-1].size <= place:
                around.pop()
            yield hit._replace(inside=around[-1].place if around else None)
            around.append(hit)
