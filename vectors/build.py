"""What `hunk_build` of bindings/c/hunk.h answers to rows: written by that header and docs/FORMAT.md alone.

`build` gives the answer, a number, hunks, place and count, and the bytes of the file where there is one. `listed` reads the table
`vectors/build.tsv`."""
import pathlib
import struct

import hunks as h
from parts import A_BLOCK, A_GROUP, A_HUNK, A_SYMBOL, A_UNIT, AN_ENTRY, Part

STRANGE = 33
WHATS = {"HUNK": A_HUNK, "UNIT": A_UNIT, "BLOCK": A_BLOCK, "GROUP": A_GROUP, "SYMBOL": A_SYMBOL, "ENTRY": AN_ENTRY}


class RowRefused(Exception):
    """Why a row is refused, and how many bytes after its first one."""


def refuse(reason, ahead=0):
    raise RowRefused(reason, ahead)


def need(holds, reason=STRANGE, ahead=0):
    """Refuses the row where that does not hold."""
    if not holds:
        refuse(reason, ahead)


def lists(kind):
    """What the items of such a block are; None where it is no list."""
    return {h.SYMBOL: A_SYMBOL, h.EXT: AN_ENTRY}.get(kind, A_GROUP if kind in h.RELOCATIONS else None)


def padded(some):
    return some + bytes(-len(some) % 4)


class Builder:
    """The file that rows spell, row by row. `place` is the byte at which the next row begins, `entry` that of the next size word."""

    def __init__(self, rows, data):
        self.rows, self.data, self.out = rows, data, []
        self.hunks = sum(it.what == A_HUNK for it in rows) if rows and rows[0].what == A_HUNK else 0
        self.place, self.entry = 0, 20
        self.is_open, self.has_content, self.kind, self.declared = False, None if not self.hunks else False, None, None
        if self.hunks:
            self.put(h.longs(h.HEADER, 0, self.hunks, 0, self.hunks - 1))
            for it in rows:
                if it.what == A_HUNK:
                    self.put(h.longs(it.word, *([it.value] if it.word >> 30 == 3 else [])))

    def put(self, some):
        self.out.append(some)
        self.place += len(some)

    def run(self, at, count):
        """The bytes that a row points at."""
        need(not count or at + count <= len(self.data))
        return self.data[at : at + count]

    def close(self):
        """The zero that ends the open list."""
        if self.kind is not None:
            self.put(h.longs(0))
        self.kind = None

    def row(self, row):
        if row.what == A_HUNK:
            return self.hunk(row)
        if row.what in (A_UNIT, A_BLOCK) and (self.is_open if self.hunks else self.has_content is not None or row.what == A_UNIT):
            self.close()
        content, offsets = self.run(row.content, row.content_bytes), self.run(row.offsets, 4 * row.offset_count)
        need(row.what in WHATS.values())
        need(self.is_open if self.hunks else self.has_content is not None or row.what == A_UNIT)
        step = {A_UNIT: self.unit, A_BLOCK: self.block, A_GROUP: self.group, A_SYMBOL: self.symbol, AN_ENTRY: self.item}
        step[row.what](row, padded(content), offsets)

    def hunk(self, row):
        has_attributes = row.word >> 30 == 3
        need(self.hunks and not self.is_open and (has_attributes or not row.value) and not row.content_bytes and not row.offset_count)
        self.entry += 8 if has_attributes else 4
        self.is_open, self.has_content, self.declared = True, False, row.word & 0x3FFFFFFF

    def unit(self, row, content, offsets):
        need(not self.is_open, h.MISPLACED)
        need(not row.word and not row.value and not offsets)
        need(len(content) // 4 < 1 << 24, h.NAME_WORD, 4)
        self.put(h.longs(h.UNIT, len(content) // 4) + content)
        self.has_content = False

    def block(self, row, content, offsets):
        fault = h.block_fault(row.word, self.has_content, self.is_open, not self.hunks)
        need(not fault, fault)
        kind, longs = h.kind_of(row.word), len(content) // 4
        is_sized, is_counted = kind in (h.CODE, h.DATA), kind in (h.NAME, h.DEBUG, None)
        need(kind != h.UNIT and not offsets)
        need(not content or is_sized or is_counted)
        need(kind == h.BSS or not row.value or is_sized and not row.value & 0x3FFFFFFF)
        self.put(h.longs(row.word))
        if kind in h.CONTENTS:
            longs = row.value & 0x3FFFFFFF if kind == h.BSS else longs
            if longs >= 1 << 30 or (self.declared is not None and longs > self.declared):
                refuse(h.CONTENT_TOO_LONG, 0)
            self.put(h.longs(row.value if kind == h.BSS else row.value + longs) + content)
            self.has_content = True
        elif is_counted:
            if kind == h.NAME and longs >= 1 << 24:
                refuse(h.NAME_WORD, 0)
            self.put(h.longs(longs) + content)
        self.kind = kind if lists(kind) else None
        self.is_open = kind != h.END
        self.has_content = self.has_content and self.is_open

    def group(self, row, content, offsets):
        need(lists(self.kind) == A_GROUP and not row.value and not content and 0 < row.offset_count < 1 << 32)
        if self.hunks:
            need(self.declared, h.NOTHING_TO_RELOCATE)
            need(row.word < self.hunks, h.BAD_TARGET, 4)
            for number, (offset,) in enumerate(struct.iter_unpack(">I", offsets)):
                need(offset + 4 <= 4 * self.declared, h.BAD_OFFSET, 8 + 4 * number)
        self.put(h.longs(row.offset_count, row.word) + offsets)

    def named(self, row, content):
        """The first longword of an item, and its name."""
        need(len(content) // 4 < 1 << 24, h.NAME_WORD)
        return h.longs(row.word << 24 | len(content) // 4) + content

    def symbol(self, row, content, offsets):
        need(lists(self.kind) == A_SYMBOL and not offsets and row.word < 256 and (row.word or content))
        self.put(self.named(row, content) + h.longs(row.value))

    def item(self, row, content, offsets):
        need(lists(self.kind) == AN_ENTRY)
        has_value, refers = row.word in h.DEFINITIONS + h.COMMONS, row.word in h.REFERENCES
        need(has_value or refers, h.EXT_KIND)
        need((has_value or not row.value) and (refers or not offsets) and (row.word or content) and row.offset_count < 1 << 32)
        text = self.named(row, content) + (h.longs(row.value) if has_value else b"")
        self.put(text + (h.longs(row.offset_count) + offsets if refers else b""))


def build(rows, data):
    """The answer to these rows of these bytes, where there is room, and the bytes of the file."""
    table = [at for at, it in enumerate(rows) if it.what == A_HUNK] if rows and rows[0].what == A_HUNK else []
    if len(table) > 65_536:
        return (h.TOO_MANY_HUNKS, 0, 8, table[65_536]), None
    built = Builder(rows, data)
    for at, row in enumerate(rows):
        try:
            built.row(row)
        except RowRefused as fault:
            reason, ahead = fault.args
            place = built.entry if row.what == A_HUNK and built.hunks else built.place
            return (reason, 0, place + ahead, at), None
    built.close()
    if built.is_open or built.has_content is None or not rows:
        return (h.TRUNCATED, 0, built.place, len(rows)), None
    return (0, built.hunks, built.place, built.place), b"".join(built.out)


def spelled(row, data):
    """The longwords that a row spells in the body of a file, whatever stands there."""
    content, offsets = padded(data[row.content :][: row.content_bytes]), data[row.offsets :][: 4 * row.offset_count]
    longs, kind, top = len(content) // 4, h.kind_of(row.word), row.word << 24 & 0xFFFFFFFF
    if row.what == A_UNIT:
        return h.longs(h.UNIT, longs) + content
    if row.what == A_BLOCK:
        if kind == h.END or lists(kind):
            return h.longs(row.word)
        size = row.value if kind == h.BSS else row.value + longs if kind in (h.CODE, h.DATA) else longs
        return h.longs(row.word, size & 0xFFFFFFFF) + (b"" if kind == h.BSS else content)
    if row.what == A_GROUP:
        return h.longs(row.offset_count & 0xFFFFFFFF, row.word) + offsets
    if row.what == A_SYMBOL:
        return h.longs(top | longs) + content + h.longs(row.value)
    if row.what != AN_ENTRY:
        return b""
    text = h.longs(top | longs) + content + (h.longs(row.value) if row.word in h.DEFINITIONS + h.COMMONS else b"")
    return text + (h.longs(row.offset_count & 0xFFFFFFFF) + offsets if row.word in h.REFERENCES else b"")


def text_of(rows, data):
    """The text that rows spell with no test made, for a reader to judge. What they point at has to be there."""
    built = Builder(rows, data)
    for row in rows:
        if row.what in (A_HUNK, A_UNIT, A_BLOCK):
            built.close()
        built.put(spelled(row, data))
        if row.what == A_BLOCK and lists(h.kind_of(row.word)):
            built.kind = h.kind_of(row.word)
    built.close()
    return b"".join(built.out)


def rows_of(text):
    """The rows that a field of the table tells, and the bytes that they point at."""
    rows, data = [], b""
    for word in filter(None, text.split("; ")):
        what, *fields = word.split(" ")
        given = dict(it.split("=", 1) for it in fields)
        content, offsets = bytes.fromhex(given.get("content", "")), [int(it) for it in given.get("offsets", "").split(",") if it]
        place = int(given.get("at", len(data) if content else 0))
        lies = len(data) + len(content) if offsets else 0
        rows.append(Part(WHATS[what] if what in WHATS else int(what), int(given.get("word", "0"), 16), int(given.get("value", "0"), 16),
                         0, place, int(given.get("bytes", len(content))), lies, len(offsets)))
        data += content + h.longs(*offsets)
    return rows, data


def listed(path):
    """The rows of a table: a name, the rows and their bytes, and what has to be answered, as `build` gives it."""
    for line in pathlib.Path(path).read_text(encoding="ascii").splitlines()[1:]:
        name, told, kind, *answer = line.split("\t")
        if kind == "built":
            text = bytes.fromhex(answer[1])
            wanted = (0, int(answer[0]), len(text), len(text)), text
        else:
            wanted = (int(answer[0]), 0, int(answer[1]), int(answer[2])), None
        yield name, *rows_of(told), wanted
