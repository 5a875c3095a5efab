"""The file in which `hunk survey --resume` keeps its rows: what it may be, and which rows it has.

Nothing is written to a file that is no such table. Its first line names the fields of the rows: none but a table has that."""

from __future__ import annotations

import contextlib
import io
import os
import stat

from hunk.command import streams
from hunk.command.forms import NUMBERS, Form
from hunk.command.judging import CLASSES

TYPE_CHECKING = False
if TYPE_CHECKING:
    from typing import Any, Callable, Iterator, Sequence, Tuple

    from hunk.command.forms import Row

# More than any row has. A name of the command line may have 128 KiB, and there may be two, with five characters for a byte.
LONGEST = 1 << 21
WANTED = "--resume takes a new name, or a table that it began with the same flags"
OLDER = "put that in front of a table of an older version"


class TableError(Exception):
    """Says that a file has no rows that this run can go on with."""


# ---- What may be one.


def refuse_other(state: os.stat_result) -> None:
    """Refuses what is no file proper, and what standard output or error go to."""
    if not stat.S_ISREG(state.st_mode):
        raise TableError(f"{WANTED}: this is no regular file")
    what = streams.stream_of(state)
    if what:
        raise TableError(f"{WANTED}: this is standard {what}")


def opened(path: str) -> io.FileIO:
    """The file, to be read, and written at its end. It is made where it is not there."""
    with contextlib.suppress(FileNotFoundError):
        refuse_other(os.stat(path))
    # A pipe might be there by now: none is waited for.
    file = io.FileIO(path, "a+", opener=lambda name, flags: os.open(name, flags | getattr(os, "O_NONBLOCK", 0), 0o666))
    with contextlib.ExitStack() as undone:
        undone.callback(file.close)
        refuse_other(os.fstat(file.fileno()))
        undone.pop_all()
    return file


# ---- Its rows.


def is_field(form: Form, key: str, value: Any) -> bool:
    """Whether a row may have this value in this field."""
    if key == "class":
        return value in CLASSES
    if value is None:
        return key != "name"
    return form.is_number(value) if key in NUMBERS else isinstance(value, str)


def row_of(line: bytes, form: Form, keys: Sequence[str]) -> Row:
    """The fields of a row by their keys. What is no row is a ValueError, or nested too deeply for JSON."""
    row = form.row_of(line.decode(), keys)
    if not all(is_field(form, key, value) for key, value in row.items()):
        raise ValueError(line)
    return row


def lines_of(reader: io.BufferedReader) -> Iterator[Tuple[int, bytes]]:
    """The whole lines after the first, by number. What follows the last of them is of a run that was ended in the middle."""
    number, line = 2, reader.readline(LONGEST)
    while line.endswith(b"\n"):
        yield number, line
        number, line = number + 1, reader.readline(LONGEST)
    if len(line) == LONGEST:
        raise TableError(f"line {number} is longer than a row can be")


def take_rows(file: io.FileIO, form: Form, keys: Sequence[str], take: Callable[[Row], None]) -> int:
    """Gives each row of a table on. Answers the byte at which the last of them ends, 0 of an empty file."""
    head, reader = form.head(keys).encode(), io.BufferedReader(file)
    try:
        reader.seek(0)
        first = reader.readline(len(head))
        if first != head:
            if first:
                raise TableError(f"{WANTED}, with the first line {head.decode().rstrip()!r}; {OLDER}")
            return 0
        end = len(head)
        for number, line in lines_of(reader):
            try:
                take(row_of(line, form, keys))
            except (ValueError, RecursionError):
                raise TableError(f"line {number} is no row of this form of survey") from None
            end += len(line)
        return end
    finally:
        reader.detach()
