"""The forms in which a table has its rows: fields with a tab between them, JSON, and CSV. Each row is a line.

A field that is not there is None in a row: `-` between tabs, null in JSON, and nothing in CSV."""

from __future__ import annotations

import json
import re

TYPE_CHECKING = False
if TYPE_CHECKING:
    from typing import Any, Dict, List, Optional, Sequence

    Row = Dict[str, Any]

NUMBERS = ("byte", "rest")
DIGITS = 20
# What CSV has quotes around, as that of the page; a field as it is read, with what ends it: a comma, or the end of the line.
QUOTED = '",\r\n'
FIELD = re.compile(r'(?:"((?:[^"]|"")*)"|([^",\r\n]*))(?:,(?!\r\n)|\r\n\Z)')


class Form:
    """How rows are written, and read again. `has_head` says whether the line of their fields is also printed."""

    has_head = False

    def head(self, keys: Sequence[str]) -> str:
        """The line that names the fields. What looks for a class passes over it."""
        return self.joined([*keys])

    def line(self, row: Row) -> str:
        raise NotImplementedError

    def joined(self, fields: List[str]) -> str:
        raise NotImplementedError

    def row_of(self, line: str, keys: Sequence[str]) -> Row:
        """The row of a line, whose values may still be any. What is none is a ValueError, or nested too deeply for JSON."""
        raise NotImplementedError

    def is_number(self, value: Any) -> bool:
        return isinstance(value, str) and value.isascii() and value.isdigit()


def keyed(keys: Sequence[str], fields: Sequence[Optional[str]]) -> Row:
    if len(keys) != len(fields):
        raise ValueError(fields)
    return dict(zip(keys, fields))


class Tabs(Form):
    """Fields with a tab between them."""

    def joined(self, fields: List[str]) -> str:
        return "\t".join(fields) + "\n"

    def line(self, row: Row) -> str:
        return self.joined(["-" if it is None else str(it) for it in row.values()])

    def row_of(self, line: str, keys: Sequence[str]) -> Row:
        row = keyed(keys, line[:-1].split("\t"))
        if "" in row.values():
            raise ValueError(line)
        return {key: None if it == "-" and key != "name" else it for key, it in row.items()}


class Json(Form):
    """Objects of JSON."""

    def head(self, keys: Sequence[str]) -> str:
        return json.dumps({"fields": keys}) + "\n"

    def line(self, row: Row) -> str:
        return json.dumps(row) + "\n"

    def row_of(self, line: str, keys: Sequence[str]) -> Row:
        def small(digits: str) -> int:
            # A longer number takes long to read, and is none of a row.
            if len(digits) > DIGITS:
                raise ValueError(digits)
            return int(digits)

        row = json.loads(line, parse_int=small)
        if not isinstance(row, dict) or tuple(row) != tuple(keys):
            raise ValueError(line)
        return row

    def is_number(self, value: Any) -> bool:
        return isinstance(value, int)


class Csv(Form):
    """Fields with commas between them, as the page saves them."""

    has_head = True

    def joined(self, fields: List[str]) -> str:
        quoted = ('"' + it.replace('"', '""') + '"' if any(one in it for one in QUOTED) else it for it in fields)
        return ",".join(quoted) + "\r\n"

    def line(self, row: Row) -> str:
        return self.joined(["" if it is None else str(it) for it in row.values()])

    def row_of(self, line: str, keys: Sequence[str]) -> Row:
        fields, at = [], 0
        while at < len(line):
            found = FIELD.match(line, at)
            if not found:
                raise ValueError(line)
            quoted, bare, at = found[1], found[2], found.end()
            fields.append(bare if quoted is None else quoted.replace('""', '"'))
        return {key: it if it or key == "name" else None for key, it in keyed(keys, fields).items()}
