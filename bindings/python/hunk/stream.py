"""Loads a file that comes piece by piece: no byte past the file is asked for.

    import hunk.stream

    with open("/dev/stdin", "rb", buffering=0) as pipe:
        segments = hunk.stream.load_from(pipe, base=0x21000)
"""

from __future__ import annotations

import itertools
from ctypes import c_uint32, c_uint64, c_void_p

from hunk.library import BYTES, NO_BASE, NO_ROOM, ROOM, TRUNCATED, accepted, address_of, bytes_of, call, number_of, refusal, room
from hunk.loading import ROW, header_of, read_header, segments_of
from hunk.rows import BUDGET, Data

TYPE_CHECKING = False
if TYPE_CHECKING:
    from typing import Any, BinaryIO

    from hunk.library import Memory

_LOADER_WORDS = 96 // 8
# The most bytes that a stream is asked for at once: a file may declare more than a machine can address.
_PIECE = 1 << 20

_begin = call("hunk_begin", c_void_p, *ROOM, c_uint64, *ROOM)
_feed = call("hunk_feed", c_void_p, *ROOM, *ROOM, *BYTES)
_want = call("hunk_want", c_void_p)
_end = call("hunk_end", c_void_p)


class Loader:
    """Loads a file that comes piece by piece, its hunks one after the other from the address `base` on.

    `want` is how many bytes may be asked of a pipe without reading past the file: 0 once the file is whole."""

    def __init__(self, base: int = 0x1000, budget: int = BUDGET) -> None:
        self._base, self._budget = number_of(base, 32, "base"), number_of(budget, 64, "budget")
        self._header = b""
        self._sizes: list[int] = []
        self._loader = (c_uint64 * _LOADER_WORDS)()
        self._places: Any = (c_uint32 * 0)()
        self._memory: Memory = bytearray()
        self.want = 0
        self._read_header(b"")

    def _read_header(self, piece: bytes) -> None:
        """Takes bytes of the header, and begins with the body where it is whole."""
        self._header += piece
        answer = read_header(self._header, len(self._header), self._budget, None, 0)
        if answer.number == TRUNCATED:
            self.want = answer.count
        elif answer.number == NO_ROOM:
            self._begin(answer.count)
        else:
            accepted(answer)

    def _begin(self, total: int) -> None:
        rows, count, _ = header_of(self._header, self._budget)
        self._sizes = [*rows[2:count:ROW]]
        bases = [self._base + start for start in itertools.accumulate(self._sizes, initial=0)]
        for i, end in enumerate(bases[1:]):
            if end > 1 << 32 or bases[i] >> 32:
                raise refusal(NO_BASE, len(self._header), i)
        words = itertools.chain.from_iterable(zip(rows[:count:ROW], rows[1:count:ROW], bases))
        self._places = (c_uint32 * (3 * len(self._sizes)))(*words)
        self._memory = room(total)
        accepted(_begin(self._loader, *self._parts()[:2], len(self._header), address_of(self._memory), total))
        self.want = accepted(_want(self._loader)).count

    def _parts(self) -> tuple[Any, int, Any, int]:
        return self._places, len(self._sizes), address_of(self._memory), len(self._memory)

    def feed(self, data: Data) -> int:
        """Takes the next bytes of the file, and says how many: all of them, unless the file is whole before their end."""
        piece, taken = bytes_of(data), 0
        while not self._sizes and taken < len(piece):
            taken += (count := min(self.want, len(piece) - taken))
            self._read_header(piece[taken - count : taken])
        if self._sizes:
            rest = piece[taken:]
            taken += accepted(_feed(self._loader, *self._parts(), rest, len(rest))).count
            self.want = accepted(_want(self._loader)).count
        return taken

    def end(self) -> list[bytes]:
        """The bytes of each hunk. Where the file is not whole, that is a HunkError."""
        if not self._sizes:
            raise refusal(TRUNCATED, len(self._header) // 4 * 4, 0)
        accepted(_end(self._loader))
        return segments_of(self._memory, self._sizes)


def load_from(stream: BinaryIO, base: int = 0x1000, budget: int = BUDGET) -> list[bytes]:
    """The bytes of each hunk of the load file that a stream gives next. What follows the file stays in the stream."""
    loader = Loader(base, budget)
    while loader.want and (piece := stream.read(min(loader.want, _PIECE))):
        loader.feed(piece)
    return loader.end()
