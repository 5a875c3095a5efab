"""The same file spelled otherwise: plain, where it has short relocations or leaves END out, and stripped."""

from __future__ import annotations

import ctypes
from ctypes import c_uint64

from hunk.errors import HunkError
from hunk.library import BYTES, ROOM, accepted, address_of, bytes_of, call, number_of, room
from hunk.rows import Data, Spelling

TYPE_CHECKING = False
if TYPE_CHECKING:
    from typing import Callable, TypeVar

    _Made = TypeVar("_Made")


class _Spelling(ctypes.Structure):
    _fields_ = [("size", c_uint64), ("short_blocks", c_uint64), ("ends", c_uint64), ("reserved", c_uint64)]


_spelling_of = call("hunk_spelling_of", *BYTES, answer=_Spelling)
_plain = call("hunk_plain", *BYTES, *ROOM)
_input_place = call("hunk_input_place", *BYTES, c_uint64, answer=c_uint64)
_strip = call("hunk_strip", *BYTES, *ROOM)


def spelling(data: Data) -> Spelling:
    """How the bytes spell their file. None are refused."""
    data = bytes_of(data)
    spelled = _spelling_of(data, len(data))
    return Spelling(spelled.size, spelled.short_blocks, spelled.ends)


def plain(data: Data) -> bytes:
    """The plain spelling of a load file with short relocations, or with END left out. Other bytes are as they are."""
    data = bytes_of(data)
    text = room(spelling(data).size)
    accepted(_plain(data, len(data), address_of(text), len(text)))
    return bytes(text)


def input_place(data: Data, place: int) -> int:
    """The byte of the input `data` at which a byte of its plain spelling stands. One that is put in, as of an END that was left
    out, has the place of the next that is not; from the end of the plain spelling on it is the end of the input."""
    data = bytes_of(data)
    return int(_input_place(data, len(data), number_of(place, 64, "place")))


def in_input(data: Data, error: HunkError) -> HunkError:
    """A refusal of the plain spelling, with its place in the input."""
    return HunkError(error.reason, error.number, input_place(data, error.place), error.hunk, error.meaning)


def by_plain(call: Callable[[bytes], _Made], data: Data) -> _Made:
    """What the call makes of the plain spelling. A refusal has its place in the input."""
    try:
        return call(plain(data))
    except HunkError as error:
        raise in_input(data, error) from None


def strip(data: Data) -> bytes:
    """The object file that the bytes are, or the load file that they begin with, without names, symbols and debug data."""
    data = bytes_of(data)
    text = room(len(data))
    written = accepted(_strip(data, len(data), address_of(text), len(text))).count
    return memoryview(text)[:written].tobytes()
