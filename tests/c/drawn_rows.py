"""Rows of files, elsewhere and changed by chance. `vectors` has to be among the folders that Python looks into."""
import build as model
import hunks
import parts

LAST = 2**64 - 1
# Types of blocks, of which some are none or have flags.
BLOCKS = (*range(0x3E7, 0x3FF), 0x3E6, 0x3FF, 0x4D2, 0x200004D2, 0xC00003E9, 0x200003E7, 0x400003FC)


def elsewhere(chance, rows, data):
    """The same rows, with what they point at in another order, without some of the zero bytes at its end, and with any number where
    they are reserved: it is not read."""
    moved, out = list(rows), b"\xee" * chance.randrange(10)
    for at in chance.sample(range(len(rows)), len(rows)):
        row = rows[at]
        content = data[row.content : row.content + row.content_bytes]
        while content[-1:] == b"\0" and len(content) % 4 != 1 and chance.random() < 0.5:
            content = content[:-1]
        offsets = data[row.offsets : row.offsets + 4 * row.offset_count]
        moved[at] = row._replace(
            content=len(out) if content else chance.choice((0, LAST)),
            content_bytes=len(content),
            reserved=chance.choice((0, 1, 2**32 - 1)),
            offsets=len(out + content) if offsets else chance.choice((0, LAST)),
        )
        out += content + offsets + b"\xee" * chance.randrange(4)
    return moved, out


def put_in(chance, row):
    """A row that may come after this one."""
    kind = hunks.kind_of(row.word) if row.what == parts.A_BLOCK else None
    what = model.lists(kind) or chance.choice((row.what, chance.randint(1, 6)))
    word = chance.choice(BLOCKS if what == parts.A_BLOCK else (0, 0, 1, 2, 129, 130, 255))
    return parts.Part(what, word, 0, 0, 0, chance.choice((0, 0, 4)), 0, chance.choice((0, 0, 1)))


def field_changed(chance, row, data):
    """The row with another number in one of its fields."""
    words = BLOCKS if row.what == parts.A_BLOCK else (0, 1, 2, 3, 255, 256, 129, 140, 2**32 - 1, 0xC0000001)
    others = {
        "what": range(8),
        "word": words,
        "value": (0, 1, 0x40000000, 0x40000001, 0xC0000000, 2**30 - 1, 2**32 - 1),
        "content": (0, len(data), max(0, len(data) - 3), LAST, 5),
        "content_bytes": (0, 1, 3, 4, 5, 9, LAST, len(data)),
        "offsets": (0, len(data), 4, LAST),
        "offset_count": (0, 1, 2, LAST, 2**62),
    }
    field = chance.choice(list(others))
    return row._replace(**{field: chance.choice(others[field])})


def at_the_end(chance, rows, data):
    """The rows with a group of offsets near the ends of hunks, and the bytes with these."""
    groups = [at for at, row in enumerate(rows) if row.what == parts.A_GROUP]
    sizes = [4 * (row.word & 0x3FFFFFFF) for row in rows if row.what == parts.A_HUNK] or [8]
    if not groups:
        return rows, data
    at = chance.choice(groups)
    some = [max(0, chance.choice(sizes) - 4 + chance.choice((0, 0, 1, 2, 4))) for _ in range(chance.choice((1, 2)))]
    rows[at] = rows[at]._replace(offsets=len(data), offset_count=len(some))
    return rows, data + hunks.longs(*some)


def changed(chance, rows, data):
    """Rows with one or more changes; the bytes may get some more."""
    rows = list(rows)
    for _ in range(chance.choice((1, 1, 1, 2, 3))):
        at, how = chance.randrange(len(rows)), chance.randrange(10)
        if how == 0 and len(rows) > 1:
            del rows[at]
        elif how == 1:
            rows.insert(at, rows[at])
        elif how == 2:
            other = chance.randrange(len(rows))
            rows[at], rows[other] = rows[other], rows[at]
        elif how == 3:
            rows = rows[: at + 1]
        elif how == 4:
            rows.insert(at + 1, put_in(chance, rows[at]))
        elif how < 8:
            rows[at] = field_changed(chance, rows[at], data)
        else:
            rows, data = at_the_end(chance, rows, data)
    return rows, data
