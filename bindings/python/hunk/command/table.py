"""The rows of `hunk survey`, as they are written, and read where a run goes on."""

from __future__ import annotations

import collections
import contextlib
import io
import os
import sys

from hunk.command import resumed, words
from hunk.command.forms import Form
from hunk.command.judging import Asked, Row

TYPE_CHECKING = False
if TYPE_CHECKING:
    from typing import Any, Dict, List, Optional, Sequence, Set, Tuple

    from hunk.command.forms import Row as Fields

KEYS = ("class", "reason", "byte", "rest")
SUMS = ("file", "program", "memory")


def keys_of(asked: Asked) -> Tuple[str, ...]:
    """The names of the fields of a row."""
    sums = ("sha256", "first") if asked.sum else (*SUMS, "same", "first") if asked.same else ()
    return (*KEYS, *sums, *(["what"] if asked.what else []), "name")


class Firsts:
    """The files that have a sum first, for each of the sums of a row."""

    def __init__(self, fields: Sequence[str]) -> None:
        self.fields = fields
        self._names: List[Dict[str, str]] = [{} for _ in fields]

    def found(self, sums: Sequence[Optional[str]]) -> Tuple[Optional[str], Optional[str]]:
        """The first of the sums that an earlier file has, and that file."""
        for field, value, names in zip(self.fields, sums, self._names):
            if value and value in names:
                return field, names[value]
        return None, None

    def note(self, sums: Sequence[Optional[str]], name: str) -> None:
        for value, names in zip(sums, self._names):
            if value:
                names.setdefault(value, name)


class Table:
    """Where rows go: to standard output, or to a file after those that it has.

    Rows are written whole: a part of one at the end of the file, of a run that was ended in the middle, is cut off."""

    def __init__(self, path: Optional[str], form: Form, asked: Asked) -> None:
        self.path, self.form, self.asked = path, form, asked
        self.keys = keys_of(asked)
        self.counts: collections.Counter[str] = collections.Counter()
        self.copies = 0
        self._sums = ("sha256",) if asked.sum else SUMS if asked.same else ()
        self._firsts = Firsts(self._sums)
        self._names: Set[str] = set()
        self._file: Optional[io.FileIO] = None
        self._is_begun = False
        if path is not None:
            with contextlib.ExitStack() as undone:
                file = undone.enter_context(resumed.opened(path))
                end = resumed.take_rows(file, form, self.keys, self._take)
                file.truncate(end)
                undone.pop_all()
            self._file, self._is_begun = file, end > 0

    def __enter__(self) -> Table:
        if self._file is None and self.form.has_head:
            sys.stdout.write(self.form.head(self.keys))
        elif self._file and not self._is_begun:
            self._write_to(self._file, self.form.head(self.keys).encode())
        return self

    def __exit__(self, *_: Any) -> None:
        if self._file:
            self._file.close()

    # ---- What is done.

    def _take(self, row: Fields) -> None:
        """Takes a row that is there for done."""
        self._note(row)
        self._names.add(row["name"])

    def _note(self, row: Fields) -> None:
        """Notes a row that is written."""
        self.counts[row["class"]] += 1
        sums = [row[it] for it in self._sums]
        first = self._firsts.found(sums)[1]
        self.copies += first is not None and first != row["name"]
        self._firsts.note(sums, row["name"])

    def has(self, name: bytes) -> bool:
        """Whether the file has a row, or is the one in which the rows are."""
        if self.path is None or self._file is None:
            return False
        is_like = os.path.basename(name) == os.fsencode(os.path.basename(self.path))
        if is_like and os.path.exists(name) and os.path.samestat(os.stat(name), os.fstat(self._file.fileno())):
            return True
        return words.printed(name) in self._names

    # ---- Writing.

    def _line(self, row: Row) -> str:
        same, first = self._firsts.found(row.sums)
        known: Fields = dict(zip(KEYS, row[:4]))
        known.update(zip(self._sums, row.sums))
        known.update(same=same, first=first, what=row.what, name=words.printed(row.name))
        made = {key: known[key] for key in self.keys}
        self._note(made)
        return self.form.line(made)

    def write(self, rows: List[Row]) -> None:
        text = "".join(map(self._line, rows))
        if self._file is None:
            sys.stdout.write(text)
            return
        self._write_to(self._file, text.encode())

    @staticmethod
    def _write_to(file: io.FileIO, data: bytes) -> None:
        left = memoryview(data)
        while left:
            left = left[file.write(left) or 0 :]
