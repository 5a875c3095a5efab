"""What a command line names: files, folders with their subfolders, and standard input as `-`. What can't be read or is refused is
told on standard error, a line each, and the others go on."""

from __future__ import annotations

import argparse
import contextlib
import errno
import io
import os
import stat
import sys

import hunk
from hunk.command import reasons, words

TYPE_CHECKING = False
if TYPE_CHECKING:
    from typing import BinaryIO, Callable, Iterator, List, Optional, Tuple, Union

    Failure = Union[hunk.HunkError, OSError, "NoFile", MemoryError]

# The library itself has no limit; this is that of the program hunkinfo.
LIMIT = 67108864
STANDARD_INPUT = b"-"
WIDE = "read short relocations, and hunks whose END is left out, as their plain spelling"
# The first longword says whether a file begins as a hunk file, and so many bytes what it is else.
LONGWORD, FIRST = 4, 1088
PIECE = 1 << 20


class NoFile(Exception):
    """Says that a name stands for no file with bytes of its own, as a pipe in a folder."""

    def __str__(self) -> str:
        return "neither a file nor a folder, or a link to a folder"


class LargeError(hunk.HunkError):
    """A file that is too large to be read, and is no hunk file by its first longword. `first` is the bytes that it begins with."""

    def __init__(self, error: hunk.HunkError, first: bytes) -> None:
        super().__init__(error.reason, error.number, error.place, error.hunk, error.meaning)
        self.first = first


class Found:
    """A file by its name, or why what is there can't be listed."""

    def __init__(self, name: bytes, is_named: bool, error: Optional[OSError] = None) -> None:
        self.name, self.is_named, self.error = name, is_named, error


def add_arguments(parser: argparse.ArgumentParser, wide: bool = True, partial: bool = False, json: str = "") -> None:
    """The arguments that commands have in common; --json where there is a row of this for each line of text."""
    parser.add_argument("names", metavar="FILE", nargs="+", help="a file, a folder with its subfolders, or - for standard input")
    if wide:
        parser.add_argument("--wide", action="store_true", help=WIDE)
    if json:
        parser.add_argument("--json", action="store_true", help=f"write an object of JSON on a line for each {json}")
    if partial:
        parser.add_argument("--partial", action="store_true", help="of a file that is refused, tell what stands before the fault")
    else:
        parser.set_defaults(partial=False)


# ---- Going over names.


def listed(folder: bytes) -> List[Tuple[bytes, bool]]:
    """The names in a folder and whether each is a folder, so that the paths below come in the order of their bytes."""
    with os.scandir(folder) as found:
        entries = [(it.name, it.path, it.is_dir(follow_symlinks=False)) for it in found]
    entries.sort(key=lambda it: it[0] + os.fsencode(os.sep) * it[2])
    return [(path, is_folder) for _, path, is_folder in entries]


def found_in(folder: bytes) -> Iterator[Found]:
    """The files in a folder and its subfolders, by name. A link to a folder is not followed."""
    left = [(folder, True)]
    while left:
        path, is_folder = left.pop()
        if not is_folder:
            yield Found(path, False)
            continue
        try:
            left += reversed(listed(path))
        except OSError as error:
            yield Found(path, False, error)


def found_at(name: bytes) -> Iterator[Found]:
    """The file of this name, or those in the folder."""
    if name != STANDARD_INPUT and os.path.isdir(name):
        yield from found_in(name)
    else:
        yield Found(name, True)


def are_many(names: List[str]) -> bool:
    """Whether more than one file may be named, so that each gets a head."""
    return len(names) > 1 or os.path.isdir(names[0]) and names[0] != "-"


# ---- Reading a file.


def too_large() -> hunk.HunkError:
    return hunk.HunkError("FileLimit", reasons.FILE_LIMIT, LIMIT, meaning=reasons.MEANINGS[reasons.FILE_LIMIT])


def refuse_first(first: bytes) -> None:
    """Refuses a file that is too large: for its first longword where that is no hunk file's, else for its length."""
    try:
        hunk.read(first[:LONGWORD])
    except hunk.HunkError as error:
        if error.reason != "Truncated":
            raise LargeError(error, first) from None
    raise too_large()


def read_opened(file: io.FileIO) -> bytes:
    """The bytes of a file, or what a pipe gives, up to the limit."""
    state = os.fstat(file.fileno())
    if stat.S_ISREG(state.st_mode):
        if state.st_size >= LIMIT:
            refuse_first(file.read(FIRST))
        return file.readall()
    pieces, left = [], LIMIT
    while left and (piece := file.read(min(left, PIECE))):
        pieces.append(piece)
        left -= len(piece)
    return b"".join(pieces)


def standard_input() -> BinaryIO:
    if sys.stdin is None:
        raise OSError(errno.EBADF, os.strerror(errno.EBADF))
    return sys.stdin.buffer


def read_bytes(found: Found) -> bytes:
    """The bytes of a file. One that stands in a folder has to be a file proper: reading a pipe there might never end."""
    if found.error:
        raise found.error
    if found.name == STANDARD_INPUT and found.is_named:
        data = standard_input().read(LIMIT)
    else:
        if not found.is_named and not stat.S_ISREG(os.stat(found.name).st_mode):
            raise NoFile
        with open(found.name, "rb", buffering=0) as file:
            data = read_opened(file)
    if len(data) >= LIMIT:
        refuse_first(data[:FIRST])
    return data


# ---- Going on where one is refused.


def say(name: str, text: str) -> None:
    """A line of standard error about a file, after all that was printed before."""
    sys.stdout.flush()
    print(f"hunk: {name}: {text}", file=sys.stderr)


def alone(error: Failure) -> Failure:
    """The failure without where it came from, which would hold the memory of all that was being done there."""
    error.__traceback__ = error.__context__ = None
    return error


def explained(error: Failure, data: Optional[bytes] = None) -> str:
    """What the failure is, and its class as docs/reasons.tsv has it; of a file with these bytes, where they were read."""
    if isinstance(error, hunk.HunkError):
        which = "" if error.hunk is None else f" of hunk {error.hunk}"
        meaning, kind = reasons.meaning_of(error, data), reasons.class_of(error, data)
        return f"refused at byte {error.place}: {error.reason}{which}: {meaning} ({kind})"
    if isinstance(error, MemoryError):
        return f"OutOfMemory: {reasons.MEANINGS[reasons.OUT_OF_MEMORY]} ({reasons.NOT_JUDGED})"
    code = "NoFile" if isinstance(error, NoFile) else code_of(error)
    return f"{code}: {(isinstance(error, OSError) and error.strerror) or error} ({reasons.NOT_JUDGED})"


def code_of(error: OSError) -> str:
    """The name of an error of the system."""
    return errno.errorcode.get(error.errno or 0, "failed")


def foreign(error: hunk.HunkError, data: Optional[bytes]) -> Optional[str]:
    """What a file is by its first bytes, where it is no hunk file by them."""
    first = error.first if isinstance(error, LargeError) else data
    if first is None or error.place or error.number not in (reasons.NOT_LOAD_FILE, *reasons.AT_0):
        return None
    with contextlib.suppress(MemoryError):
        from hunk.command.foreign import what_is

        return what_is(first)
    return None


def hint(error: Failure, data: Optional[bytes], wide: bool) -> str:
    """What the file is, where it is no hunk file; that it is spelled otherwise, where it was not read so and might be accepted."""
    if not isinstance(error, hunk.HunkError):
        return ""
    what = foreign(error, data)
    # Of no bytes the reason says all.
    if what and data != b"":
        return f"; by its first bytes: {what}"
    is_other = data is not None and not wide and hunk.spelling(data)[1:] != (0, 0)
    return "; its spelling is one that --wide reads" if is_other else ""


def tell_spelling(name: str, spelling: hunk.Spelling) -> None:
    """Says how much was spelled otherwise, as hunkinfo does."""
    parts = [words.counted(spelling.short_blocks, "block") + " of short relocations"] if spelling.short_blocks else []
    parts += [f"{spelling.ends} END put in"] if spelling.ends else []
    if parts:
        say(name, ", ".join(parts))


def say_refused(name: str, error: Failure, data: Optional[bytes] = None, wide: bool = False) -> None:
    """Says why a file, of which these bytes were read, is not accepted."""
    say(name, explained(alone(error), data) + hint(error, data, wide))


class Opened:
    """What stands in a file, and the bytes that were read of it, which may spell that otherwise."""

    def __init__(self, file: hunk.File, data: bytes) -> None:
        self.file, self.data = file, data


def opened_whole(found: Found, wide: bool, partial: bool = False) -> Optional[Opened]:
    """A file, or with `partial` what stands before its fault; None where it can't be read or is refused, which is told."""
    name, data = words.printed(found.name), None
    try:
        data = read_bytes(found)
        file = hunk.read(data, wide, partial)
    except (hunk.HunkError, OSError, NoFile, MemoryError) as error:
        say_refused(name, error, data, wide)
        return None
    tell_spelling(name, file.spelling)
    return Opened(file, data)


def opened(found: Found, wide: bool) -> Optional[hunk.File]:
    """What stands in a file; None where it can't be read or is refused, which is told."""
    it = opened_whole(found, wide)
    return it.file if it else None


def each(options: argparse.Namespace, act: Callable[[str, hunk.File], None]) -> int:
    """Does something with each file that is accepted, by its printed name. The status: 1 where one was not, else 0."""
    status = 0
    for name in map(os.fsencode, options.names):
        try:
            for found in found_at(name):
                status |= not act_on(found, options, act)
        except MemoryError as error:
            # A folder may have more names than memory holds.
            say_refused(words.printed(name), error)
            status = 1
    return status


def act_on(found: Found, options: argparse.Namespace, act: Callable[[str, hunk.File], None]) -> bool:
    """Whether the file was accepted, and so what was to be done with it. With --partial it may be done, too, where it was not."""
    name, it = words.printed(found.name), opened_whole(found, options.wide, options.partial)
    if it is None:
        return False
    failure: Optional[Failure] = it.file.refusal
    try:
        act(name, it.file)
    except (hunk.HunkError, MemoryError) as error:
        failure = alone(error)
    if failure:
        say_refused(name, failure, it.data, options.wide)
    return not failure
