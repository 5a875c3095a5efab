"""The files of an Amiga disk image, OFS or FFS: by its directories, and deleted ones as far as their blocks are left.

Each block is taken once, by the first file that it belongs to. So a damaged image ends, whatever its blocks say."""

from __future__ import annotations

import itertools
from bisect import bisect_right

from hunk.tuples import NamedTuple

TYPE_CHECKING = False
if TYPE_CHECKING:
    import mmap
    from typing import Dict, Iterator, List, Sequence, Set, Tuple, Union

    Bytes = Union[bytes, mmap.mmap]

BLOCK, ENTRIES, LONGEST_NAME = 512, 72, 30
# What the first longword of a block says that it is, and the last longword of a header.
HEADER, DATA, LIST = 2, 8, 16
ROOT, FOLDER, FILE = 1, 2, 0xFFFFFFFD
# Where a block has what; below 0 it counts from the end of the block.
OWN, SEQUENCE, COUNT, DATA_BYTES, NEXT_DATA, TABLE = 4, 8, 8, 12, 16, 24
SIZE, NAME, SAME_HASH, MORE, KIND = -188, -80, -16, -8, -4
# What a data block of OFS has before the bytes of its file.
FRONT = 24
# Files in more folders than these are told of like deleted ones, so that no path is too long.
MOST_DEEP = 255


class Run(NamedTuple):
    """Bytes of a file that lie together in the image."""

    place: int
    size: int


class File(NamedTuple):
    """A file of an image: the names of its folders and its own, and where its bytes are, as many as are there."""

    names: Tuple[bytes, ...]
    runs: List[Run]

    def content(self, data: Bytes) -> bytes:
        return b"".join(data[it.place : it.place + it.size] for it in self.runs)

    def places(self, offsets: Sequence[int]) -> Iterator[int]:
        """The bytes of the image at which these bytes of the file are."""
        ends = [*itertools.accumulate(it.size for it in self.runs)]
        for offset in offsets:
            number = bisect_right(ends, offset)
            run = self.runs[number]
            yield run.place + run.size - (ends[number] - offset)


def is_image(data: Bytes) -> bool:
    """Whether the bytes are a disk image with directories of these kinds: DOS\\0 to DOS\\5, of whole blocks."""
    return data[:3] == b"DOS" and len(data) >= 4 * BLOCK and len(data) % BLOCK == 0 and data[3] <= 5


class Disk:
    """A disk image."""

    def __init__(self, data: Bytes) -> None:
        self.data, self.is_fast = data, bool(data[3] & 1)
        self.count = len(data) // BLOCK
        self._taken: Set[int] = set()
        # The block after each of a file's.
        self._next: Dict[int, int] = {}

    def _long(self, number: int, at: int) -> int:
        """A longword of a block; 0 where the block is not there."""
        start = BLOCK * number + at % BLOCK
        return int.from_bytes(self.data[start : start + 4], "big")

    def _name(self, number: int) -> bytes:
        start = BLOCK * (number + 1) + NAME
        return self.data[start + 1 : start + 1 + min(self.data[start], LONGEST_NAME)]

    def _take(self, number: int) -> bool:
        """Whether the block is there, and no file had it before."""
        if not 0 < number < self.count or number in self._taken:
            return False
        self._taken.add(number)
        return True

    def is_joined(self, place: int, size: int) -> bool:
        """Whether bytes are of blocks that no file has together: they go on where one block ends, and the file does not."""
        for number in range(place // BLOCK, (place + size - 1) // BLOCK):
            is_end = number in self._taken and not self.is_fast
            if is_end or number + 1 in self._taken and self._next.get(number) != number + 1:
                return True
        return False

    # ---- The bytes of a file.

    def _numbers(self, header: int) -> Iterator[int]:
        """The numbers of a file's data blocks, as its header and the lists after that have them."""
        while True:
            for i in range(min(self._long(header, COUNT), ENTRIES)):
                yield self._long(header, TABLE + 4 * (ENTRIES - 1 - i))
            header = self._long(header, MORE)
            if self._long(header, 0) != LIST or not self._take(header):
                return

    def _runs(self, header: int) -> Iterator[Run]:
        """The bytes of a file, up to the first block that is missing or another's."""
        left, before = self._long(header, SIZE), 0
        for number in self._numbers(header):
            if not left or not self._take(number):
                return
            self._next[before], before = number, number
            front = 0 if self.is_fast else FRONT
            run = Run(BLOCK * number + front, min(BLOCK - front, left))
            yield run
            left -= run.size

    # ---- The directories.

    def _chain(self, number: int) -> Iterator[int]:
        """The headers whose names have the same hash."""
        while self._long(number, 0) == HEADER and self._take(number):
            yield number
            number = self._long(number, SAME_HASH)

    def _headers(self) -> Iterator[Tuple[Tuple[bytes, ...], int]]:
        """The names of the files in the directories, and their headers: those of a folder before those of the folders in it."""
        root = (self.count + 1) // 2
        left: List[Tuple[Tuple[bytes, ...], int]] = []
        if self._long(root, 0) == HEADER and self._long(root, KIND) == ROOT and self._take(root):
            left.append(((), root))
        while left:
            names, folder = left.pop()
            for number in (it for i in range(ENTRIES) for it in self._chain(self._long(folder, TABLE + 4 * i))):
                kind, path = self._long(number, KIND), (*names, self._name(number))
                if kind == FILE:
                    yield path, number
                elif kind == FOLDER and len(path) <= MOST_DEEP:
                    left.append((path, number))

    def files(self) -> Iterator[File]:
        """The files of the directories. No file takes the header of another."""
        for names, header in [*self._headers()]:
            yield File(names, [*self._runs(header)])

    # ---- What was deleted.

    def deleted(self) -> Iterator[File]:
        """After `files`: those that no directory has, by their headers and, on OFS, by their first data blocks."""
        headers = [it for it in range(2, self.count) if self._is_lost(it) and self._take(it)]
        for number in headers:
            yield File((b"deleted", b"%d" % number, self._name(number)), [*self._runs(number)])
        for number in range(2, 2 if self.is_fast else self.count):
            runs = [*self._by_chain(number)]
            if runs:
                yield File((b"deleted", b"%d" % number), runs)

    def _is_lost(self, number: int) -> bool:
        found = self._long(number, 0), self._long(number, OWN), self._long(number, KIND)
        return found == (HEADER, number, FILE) and number not in self._taken

    def _by_chain(self, number: int) -> Iterator[Run]:
        """The bytes of a file of OFS, of which this is the first data block."""
        sequence = 1
        while (self._long(number, 0), self._long(number, SEQUENCE)) == (DATA, sequence) and self._take(number):
            yield Run(BLOCK * number + FRONT, min(self._long(number, DATA_BYTES), BLOCK - FRONT))
            number, sequence = self._long(number, NEXT_DATA), sequence + 1
