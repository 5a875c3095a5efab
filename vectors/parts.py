"""The parts of a file, as `hunk_parts` of bindings/c/hunk.h lists them: written by that header and docs/FORMAT.md alone."""
from collections import namedtuple

from hunks import BSS, CODE, COMMONS, DATA, DEFINITIONS, END, EXT, HEADER, REFERENCES, RELOCATIONS, SYMBOL, UNIT, Words, kind_of

# What a part is.
A_HUNK, A_UNIT, A_BLOCK, A_GROUP, A_SYMBOL, AN_ENTRY = range(1, 7)
# In the order of the struct.
Part = namedtuple("Part", "what word value reserved content content_bytes offsets offset_count")


def part(what, word=0, value=0, content=(0, 0), offsets=(0, 0)):
    """A part, of whose content and offsets the first byte and the number of longwords are given."""
    return Part(what, word, value, 0, content[0], 4 * content[1], *offsets)


def run(words, count):
    """Passes over so many longwords, and gives where they stand."""
    start = words.at
    words.run(count)
    return start, count


def read_entry(words, word):
    """The entry of EXT with this first longword."""
    kind, name = word >> 24, run(words, word & 0xFFFFFF)
    value = words.word() if kind in DEFINITIONS + COMMONS else 0
    return part(AN_ENTRY, kind, value, name, run(words, words.word() if kind in REFERENCES else 0))


def read_items(words, kind):
    """The items of a list, whose longwords come next."""
    while word := words.word():
        if kind in RELOCATIONS:
            yield part(A_GROUP, words.word(), offsets=run(words, word))
        elif kind == SYMBOL:
            name = run(words, word & 0xFFFFFF)
            yield part(A_SYMBOL, word >> 24, words.word(), name)
        else:
            yield read_entry(words, word)


def read_block(words, word):
    """A block with this word, and its items."""
    kind = kind_of(word)
    if kind in (CODE, DATA):
        size = words.word()
        yield part(A_BLOCK, word, size & 0xC0000000, run(words, size & 0x3FFFFFFF))
    elif kind == BSS:
        yield part(A_BLOCK, word, words.word())
    elif kind in (END, EXT, SYMBOL) or kind in RELOCATIONS:
        yield part(A_BLOCK, word)
        yield from read_items(words, kind) if kind != END else ()
    else:
        yield part(A_BLOCK, word, 0, run(words, words.word()))


def read_table(words):
    """The hunks of the table of a header, whose first longword was read."""
    words.word()
    count = words.word()
    words.run(2)
    for _ in range(count):
        size = words.word()
        yield part(A_HUNK, size, words.word() if size >> 30 == 3 else 0)


def parts(data):
    """The parts of the file that the bytes are. It has to be one that is accepted, without bytes after it."""
    words, found = Words(data), []
    first = words.word()
    hunks = read_table(words) if first == HEADER else ()
    for hunk in list(hunks):
        found.append(hunk)
        word = None
        while word is None or kind_of(word) != END:
            word = words.word()
            found += read_block(words, word)
    while words.at < len(data):
        word, first = first or words.word(), None
        found += [part(A_UNIT, content=run(words, words.word()))] if word == UNIT else read_block(words, word)
    return found
