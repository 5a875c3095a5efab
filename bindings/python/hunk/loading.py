"""Loads a file that lies in memory."""

from __future__ import annotations

from ctypes import c_uint8, c_uint32, c_uint64

from hunk.library import BYTES, FEW, NO_ROOM, ROOM, accepted, address_of, bytes_of, call, number_of, room
from hunk.rows import BUDGET, MEMORY, Data, Hunk, row_of
from hunk.spellings import by_plain

TYPE_CHECKING = False
if TYPE_CHECKING:
    from typing import Any, Sequence, Union

    from hunk.library import Memory

# So many longwords has a row of hunk.h.
ROW = 4
_Few = c_uint32 * (ROW * FEW)

read_header = call("hunk_table", *BYTES, c_uint64, *ROOM)
_load = call("hunk_load", *BYTES, *ROOM, *ROOM)
_load_packed = call("hunk_load_packed", *BYTES, c_uint32, *ROOM)
_load_at = call("hunk_load_at", *BYTES, *ROOM, c_uint32, *ROOM)


def _bases(bases: Sequence[int]) -> Any:
    return (c_uint32 * len(bases))(*(number_of(it, 32, "base") for it in bases))


def segments_of(memory: Memory, sizes: Sequence[int]) -> list[bytes]:
    segments, end, view = [], 0, memoryview(memory)
    for size in sizes:
        start, end = end, end + size
        segments.append(view[start:end].tobytes())
    return segments


def header_of(data: bytes, budget: int) -> tuple[Any, int, int]:
    """The library's rows of the hunks that the header declares, in longwords, and how many these are: of each hunk its word, its
    attributes, its bytes and its memory. Then how many bytes the hunks have together."""
    rows: Any = _Few()
    number_of(budget, 64, "budget")
    answer = read_header(data, len(data), budget, rows, FEW)
    if answer.number == NO_ROOM:
        more = room(4 * ROW * answer.hunk)
        rows, answer = memoryview(more).cast("I"), read_header(data, len(data), budget, address_of(more), answer.hunk)
    accepted(answer)
    return rows, ROW * answer.hunk, answer.count


def table(data: Data, budget: int = BUDGET) -> list[Hunk]:
    """The hunks that the header at the front of the bytes declares. Bytes after it are not read."""
    rows, end, _ = header_of(bytes_of(data), budget)
    each = enumerate(zip(rows[1:end:ROW], rows[2:end:ROW], rows[3:end:ROW]))
    return [row_of(Hunk, (size, MEMORY[memory], attributes, 0, number, None)) for number, (attributes, size, memory) in each]


def load(data: Data, base: Union[int, Sequence[int]] = 0x1000, budget: int = BUDGET, wide: bool = False) -> list[bytes]:
    """The bytes of each hunk of the load file at the front of the bytes, relocated.

    `base` is the address of the first hunk, and the others lie right after it; or a list with an address for each. `wide` is
    as in `read`."""
    if wide:
        return by_plain(lambda text: load(text, base, budget), data)
    data = bytes_of(data)
    rows, end, total = header_of(data, budget)
    memory = room(total)
    if isinstance(base, int):
        answer = _load_packed(data, len(data), number_of(base, 32, "base"), address_of(memory), total)
    else:
        bases = _bases(base)
        answer = _load(data, len(data), bases, len(bases), address_of(memory), total)
    accepted(answer)
    return segments_of(memory, rows[2:end:ROW])


def load_at(data: Data, bases: Sequence[int], start: int, memory: Union[bytearray, memoryview]) -> int:
    """Loads the hunks of the load file at the front of the bytes into the memory, each for its own address and there.

    `start` is the address of the first byte of `memory`. Answers how many bytes the hunks have together. Where one of them has no
    base, or does not lie in the memory, that is NoBase, and the memory is as it was, as at each error."""
    data = bytes_of(data)
    listed, place = _bases(bases), (c_uint8 * memoryview(memory).nbytes).from_buffer(memory)
    answer = _load_at(data, len(data), listed, len(listed), number_of(start, 32, "start"), place, len(place))
    return int(accepted(answer).count)
