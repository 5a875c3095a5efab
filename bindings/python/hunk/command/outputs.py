"""The file OUT that a command makes: written whole or not at all. `-` is standard output, which then gets nothing else."""

from __future__ import annotations

import argparse
import contextlib
import errno
import itertools
import os
import stat
import sys

from hunk.command import inputs, streams, words

TYPE_CHECKING = False
if TYPE_CHECKING:
    from typing import Iterable, Iterator, Tuple

STANDARD_OUTPUT = b"-"
WRITTEN, NOT_WRITTEN = 0, 3
# What the system answers of a file that has nothing to keep, as a pipe.
KEEPS_NOTHING = (errno.EINVAL, errno.ENOTSUP, errno.EROFS)


class NoOut(Exception):
    """Says why OUT can't be written, other than by an error of the system."""


def add_arguments(parser: argparse.ArgumentParser) -> None:
    """The arguments of a command that makes a file of another."""
    parser.add_argument("--wide", action="store_true", help=inputs.WIDE)
    parser.add_argument("name", metavar="IN", help="a file; - is standard input")
    parser.add_argument("out", metavar="OUT", help="the file to write; - is standard output")


# ---- What OUT is.


def is_output(name: bytes) -> bool:
    """Whether OUT is what standard output goes to, by its name `-`, or as a pipe or a terminal by that of a device."""
    if name == STANDARD_OUTPUT:
        return True
    try:
        state = os.stat(name)
    except (OSError, ValueError):
        return False
    return not stat.S_ISREG(state.st_mode) and streams.stream_of(state) == "output"


def refuse_other(name: bytes, state: os.stat_result) -> None:
    """Refuses an OUT that can't be replaced: a folder, a file that may not be written, and what standard streams go to."""
    if stat.S_ISDIR(state.st_mode):
        raise IsADirectoryError(errno.EISDIR, os.strerror(errno.EISDIR))
    what = streams.stream_of(state) if stat.S_ISREG(state.st_mode) else None
    if what:
        raise NoOut(f"this is standard {what}")
    if not os.access(name, os.W_OK):
        raise PermissionError(errno.EACCES, os.strerror(errno.EACCES))


# ---- Writing it.


def write_all(number: int, pieces: Iterable[bytes]) -> int:
    """Writes the pieces, and waits until they are kept. Answers how many bytes they have."""
    count = 0
    for piece in pieces:
        left = memoryview(piece)
        count += len(left)
        while left:
            left = left[os.write(number, left) :]
    try:
        os.fsync(number)
    except OSError as error:
        if error.errno not in KEEPS_NOTHING:
            raise
    return count


def begun_beside(path: bytes) -> Tuple[int, bytes]:
    """A new file in the folder of this one: its descriptor and its name."""
    flags = os.O_WRONLY | os.O_CREAT | os.O_EXCL | getattr(os, "O_BINARY", 0)
    for number in itertools.count():
        name = os.path.join(os.path.dirname(path), f".hunk-{os.getpid()}-{number}".encode())
        with contextlib.suppress(FileExistsError):
            return os.open(name, flags, 0o666), name
    raise AssertionError


def keep_folder(path: bytes) -> None:
    """Waits until the entries of a folder are kept, where the system can be asked for that."""
    with contextlib.suppress(OSError):
        number = os.open(path, os.O_RDONLY)
        try:
            os.fsync(number)
        finally:
            os.close(number)


@contextlib.contextmanager
def replacing(path: bytes) -> Iterator[int]:
    """The descriptor of a new file, which takes the place of the one at the path once all of it is written."""
    number, name = begun_beside(path)
    try:
        try:
            yield number
        finally:
            os.close(number)
        os.replace(name, path)
    except BaseException:
        with contextlib.suppress(OSError):
            os.unlink(name)
        raise
    keep_folder(os.path.dirname(path) or b".")


def like(number: int, state: os.stat_result) -> None:
    """Gives a new file the rights of the one that it replaces, and its owner where that may be."""
    with contextlib.suppress(OSError, AttributeError):
        os.fchown(number, state.st_uid, state.st_gid)
    with contextlib.suppress(OSError, AttributeError):
        os.fchmod(number, stat.S_IMODE(state.st_mode) & 0o777)


def to_file(name: bytes, pieces: Iterable[bytes]) -> int:
    """Writes the pieces to the file of this name. A pipe or a device is written as it is."""
    path = os.path.realpath(name) if os.path.islink(name) else name
    try:
        state = os.stat(path)
    except FileNotFoundError:
        with replacing(path) as number:
            return write_all(number, pieces)
    refuse_other(path, state)
    if not stat.S_ISREG(state.st_mode):
        with open(path, "wb", buffering=0) as file:
            return write_all(file.fileno(), pieces)
    with replacing(path) as number:
        like(number, state)
        return write_all(number, pieces)


def to_output(pieces: Iterable[bytes]) -> int:
    """Writes the pieces to standard output. What is begun and can't go on is half a file, so nothing may follow."""
    count = 0
    try:
        for piece in pieces:
            sys.stdout.buffer.write(piece)
            count += len(piece)
    except MemoryError:
        if count == 0:
            raise
        raise OSError(errno.ENOMEM, os.strerror(errno.ENOMEM)) from None
    sys.stdout.buffer.flush()
    return count


def write(name: str, pieces: Iterable[bytes]) -> Tuple[int, int]:
    """Writes OUT. Answers the status, and how many bytes were written; why they were not is told. Where standard output fails,
    that is an OSError, as for all that is printed."""
    path = os.fsencode(name)
    if is_output(path):
        return WRITTEN, to_output(pieces)
    try:
        return WRITTEN, to_file(path, pieces)
    except (OSError, NoOut, ValueError) as error:
        why = getattr(error, "strerror", None) or str(error)
        inputs.say(words.printed(path), f"writing failed: {why}")
        return NOT_WRITTEN, 0
