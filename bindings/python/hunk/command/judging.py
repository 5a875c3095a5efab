"""Judges a file by what is known of the whole of it: a row of `hunk survey`."""

from __future__ import annotations

import hashlib
import os

import hunk
from hunk.command import inputs, reasons
from hunk.tuples import NamedTuple

TYPE_CHECKING = False
if TYPE_CHECKING:
    from typing import Callable, Optional, Tuple

LOAD, OBJECT, FINDINGS, WIDE = "load", "object", "findings", "wide"
CLASSES = (LOAD, OBJECT, FINDINGS, WIDE, *reasons.CLASSES)
# The reasons for which a file may be refused that is only spelled otherwise.
SPELLED = ("ShortReloc", "SecondContent", "Truncated")
PIECE = 1 << 20


class Asked(NamedTuple):
    """What else is told of a file: the sum of its bytes, all its sums, what it is by its bytes. Each makes its fields of a row."""

    sum: bool = False
    same: bool = False
    what: bool = False


class Row(NamedTuple):
    """What is known of a file. What is not there is None. There are as many sums as were asked for: none, one, or three."""

    kind: str
    reason: Optional[str]
    byte: Optional[int]
    rest: Optional[int]
    name: bytes
    sums: Tuple[Optional[str], ...] = ()
    what: Optional[str] = None


def accepted(file: hunk.File, name: bytes) -> Row:
    """The row of a file that is accepted. Of findings, which may be many, just the first is looked at."""
    finding = next(iter(file.findings), None) if file.is_object else None
    kind = FINDINGS if finding else OBJECT if file.is_object else LOAD
    return Row(kind, finding.fault if finding else None, None, len(file.data) - file.size, name)


def refused(error: hunk.HunkError, name: bytes, data: Optional[bytes] = None) -> Row:
    return Row(reasons.class_of(error, data), error.reason, error.place, None, name)


def not_judged(reason: str, name: bytes) -> Row:
    return Row(reasons.NOT_JUDGED, reason, None, None, name)


def told_of(file: hunk.File, data: bytes, row: Row, asked: Asked) -> Row:
    """The row of an accepted file, with what else was asked for."""
    if asked.same:
        from hunk.command.sums import sums_of

        row = row._replace(sums=sums_of(file, data))
    if asked.what:
        from hunk.command.foreign import what_is_accepted

        row = row._replace(what=what_is_accepted(file))
    return row


def told_of_refused(error: hunk.HunkError, data: Optional[bytes], row: Row, asked: Asked) -> Row:
    """The same of a file that is refused. Its bytes are not there where they are too many."""
    if asked.what:
        row = row._replace(what=inputs.foreign(error, data) or reasons.kind_of_program(error, data))
    return row


def judge_bytes(data: bytes, name: bytes, asked: Asked) -> Row:
    """The row of the bytes of a file."""
    try:
        file = hunk.read(data)
        return told_of(file, data, accepted(file, name), asked)
    except hunk.HunkError as error:
        row = told_of_refused(error, data, refused(error, name, data), asked)
    if row.reason in SPELLED and hunk.spelling(data)[1:] != (0, 0):
        try:
            file = hunk.read(data, wide=True)
            return told_of(file, data, row._replace(kind=WIDE, rest=accepted(file, name).rest), asked)
        except hunk.HunkError:
            pass
    return row


def sum_of(name: bytes) -> str:
    """The SHA-256 of a file of any length."""
    total = hashlib.sha256()
    with open(name, "rb", buffering=0) as file:
        for piece in iter(lambda: file.read(PIECE), b""):
            total.update(piece)
    return total.hexdigest()


def with_sums(row: Row, asked: Asked, of_bytes: Callable[[], Optional[str]]) -> Row:
    """The row with as many sums as were asked for: where it has none yet, that of the bytes is made."""
    if row.sums or not (asked.sum or asked.same):
        return row
    return row._replace(sums=(of_bytes(), None, None) if asked.same else (of_bytes(),))


def judge_read(found: inputs.Found, asked: Asked) -> Row:
    """The row of a file that can be read."""
    name = found.name
    try:
        data = inputs.read_bytes(found)
    except hunk.HunkError as error:
        row = told_of_refused(error, None, refused(error, name), asked)
        return with_sums(row, asked, lambda: sum_of(name) if os.path.isfile(name) else None)
    return with_sums(judge_bytes(data, name, asked), asked, lambda: hashlib.sha256(data).hexdigest())


def judge(found: inputs.Found, asked: Asked) -> Row:
    """The row of what is found."""
    try:
        return judge_read(found, asked)
    except OSError as error:
        row = not_judged(inputs.code_of(error), found.name)
    except inputs.NoFile:
        row = not_judged("NoFile", found.name)
    except MemoryError:
        row = not_judged(reasons.ROWS[reasons.OUT_OF_MEMORY].name, found.name)
    return with_sums(row, asked, lambda: None)
