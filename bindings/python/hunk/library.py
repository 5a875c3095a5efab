"""The C library libhunk by ctypes: where it is, its calls, and what its answers say.

The library is what LIBHUNK names; else the one in this folder, where a wheel has it; else what the system finds. It is
trusted to be libhunk: nothing but the number of its interface is looked at.
"""

from __future__ import annotations

import contextlib
import ctypes
import os
import sys
from ctypes import c_char_p, c_uint8, c_uint32, c_uint64, c_void_p

from hunk.errors import HunkError
from hunk.rows import Data

TYPE_CHECKING = False
if TYPE_CHECKING:
    import mmap
    from typing import Any, Callable, Optional, Union

    Call = Callable[..., Any]
    Memory = Union[bytearray, mmap.mmap]

# The number of the interface, which the names of shared libraries have where a system has several side by side.
ABI = 1
NAME = {"win32": "hunk.dll", "darwin": f"libhunk.{ABI}.dylib"}.get(sys.platform, f"libhunk.so.{ABI}")
REMEDY = "In a clone `./build library` and then packaging/install.sh make the library; a wheel has it; LIBHUNK may name one"
OK, TRUNCATED, NO_BASE, NO_ROOM = 0, 26, 29, 32


class _Answer(ctypes.Structure):
    _fields_ = [("number", c_uint32), ("hunk", c_uint32), ("place", c_uint64), ("count", c_uint64)]


def found() -> str:
    """What the system finds. On Linux the name is enough, and to look for it would take longer than all the rest."""
    if sys.platform == "linux":
        return NAME
    from ctypes.util import find_library

    return find_library("hunk") or NAME


def place() -> str:
    """The path of the library, or its name where the system is to find it."""
    inside = os.path.join(os.path.dirname(os.path.abspath(__file__)), NAME)
    return os.environ.get("LIBHUNK") or (inside if os.path.exists(inside) else found())


def opened(path: str) -> ctypes.CDLL:
    try:
        library = ctypes.CDLL(path)
        library.hunk_abi.restype, library.hunk_abi.argtypes = c_uint32, ()
        number = library.hunk_abi()
    except (OSError, AttributeError) as error:
        raise ImportError(f"{error}. {REMEDY}", name="libhunk") from error
    if number != ABI:
        raise ImportError(f"{path} has the interface {number}, and the package hunk is written for {ABI}", name="libhunk")
    return library


_library = opened(place())


def call(name: str, *types: Any, answer: Any = _Answer) -> Any:
    """The call of the library that has this name, with these types. Another module may ask for the same one with others."""
    try:
        call = _library[name]
    except AttributeError as error:
        raise ImportError(f"{_library._name} has no {name}: it is older than the package hunk", name="libhunk") from error
    call.argtypes, call.restype = types, answer
    return call


# A length has 64 bits on every machine.
BYTES, ROOM = (c_char_p, c_uint64), (c_void_p, c_uint64)
_reason = call("hunk_reason", c_uint32, *ROOM)
_reason_text = call("hunk_reason_text", c_uint32, *ROOM)


def _text(call: Call, number: int) -> str:
    text = (c_uint8 * call(number, None, 0).count)()
    call(number, text, len(text))
    return bytes(text).decode()


def refusal(number: int, place: int, hunk: int) -> HunkError:
    which = hunk if number == NO_BASE else None
    return HunkError(_text(_reason, number), number, place, which, _text(_reason_text, number))


def accepted(answer: Any) -> Any:
    """The answer, unless it is a refusal, which is raised."""
    if answer.number != OK:
        raise refusal(answer.number, answer.place, answer.hunk)
    return answer


def bytes_of(data: Data) -> bytes:
    """The bytes of a bytes-like object. A number or a list is a TypeError, and so is a name of a file."""
    if isinstance(data, bytes):
        return data
    if isinstance(data, (str, os.PathLike)):
        raise TypeError(f"bytes are wanted, not a {type(data).__name__}; those of a file are pathlib.Path(NAME).read_bytes()")
    return memoryview(data).tobytes()


def number_of(value: int, bits: int, what: str) -> int:
    """The value, where it is a number of so many bits."""
    if not 0 <= value < 1 << bits:
        raise ValueError(f"{what} is no number of {bits} bits: {value}")
    return value


# From so many bytes on memory is mapped.
LARGE = 1 << 20


def room(size: int) -> Memory:
    """So many zero bytes to write to, which a file says. More than the machine can address are a MemoryError, too."""
    return bytearray(size) if size < LARGE else _mapped(size)


def _mapped(size: int) -> Memory:
    """Memory that nobody has touched yet. A bytearray would write zeros to all of it before a call writes its own bytes. Large
    pages, where the system has them, are touched in a third of the time."""
    import mmap

    private = {} if sys.platform == "win32" else {"flags": mmap.MAP_PRIVATE | mmap.MAP_ANONYMOUS}
    try:
        memory = mmap.mmap(-1, size, **private)
    except (OSError, OverflowError) as error:
        raise MemoryError(f"{size} bytes") from error
    if hasattr(mmap, "MADV_HUGEPAGE"):
        # A system may be without them.
        with contextlib.suppress(OSError):
            memory.madvise(mmap.MADV_HUGEPAGE)
    return memory


def address_of(memory: Union[Memory, memoryview]) -> Optional[int]:
    """Where bytes that may be written to stand, for a call that is made while they stay as long; of none it is None."""
    return ctypes.addressof(c_uint8.from_buffer(memory)) if memory else None


# There is room for so many rows before it is known how many a file has: most have fewer of a kind.
FEW = 64


def rows_of(call: Call, size: int, data: bytes, *words: Any) -> Memory:
    """The rows of so many bytes that the call writes. Where they are more than a few, it says how many, and is called again."""
    few = bytearray(size * FEW)
    answer = call(data, len(data), *words, address_of(few), FEW)
    if answer.number == NO_ROOM:
        rows = room(size * answer.count)
        accepted(call(data, len(data), *words, address_of(rows), answer.count))
        return rows
    del few[size * accepted(answer).count :]
    return few
