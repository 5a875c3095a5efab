"""A reader of hunk files, written by docs/FORMAT.md alone: it shares nothing with the crates.

`read` gives the value of a load file or an object file, or refuses it, and `images` the memory of a load file at a base.
"""
import struct
from collections import namedtuple

UNIT, NAME, CODE, DATA, BSS, RELOC32, RELOC16, RELOC8, EXT, SYMBOL, DEBUG, END, HEADER = range(0x3E7, 0x3F4)
OVERLAY, BREAK, DREL32, DREL16, DREL8, LIB, INDEX, RELOC32SHORT, RELRELOC32, ABSRELOC16 = range(0x3F5, 0x3FF)
CONTENTS = CODE, DATA, BSS
# The bytes that lie at an offset, of each kind of relocation, and of each type of EXT entry with references.
RELOCATIONS = {RELOC32: 4, RELOC16: 2, RELOC8: 1, DREL32: 4, DREL16: 2, DREL8: 1, RELRELOC32: 4, ABSRELOC16: 2}
REFERENCES = {129: 4, 130: 4, 131: 2, 132: 1, 133: 4, 134: 2, 135: 1, 136: 4, 137: 4, 138: 2, 139: 1}
DEFINITIONS, COMMONS = (0, 1, 2), (130, 137)

# The refusals, by number.
(NOT_LOAD_FILE, IS_OBJECT, LIBRARY, RESIDENT, NO_HUNKS, TOO_MANY_HUNKS, FIRST_HUNK, LAST_HUNK, BOTH_BITS, _, IS_OVERLAY, IS_BREAK,
 SHORT_RELOC, NOT_IN_LOAD_FILE, MISPLACED, UNKNOWN_BLOCK, SECOND_CONTENT, BEFORE_CONTENT, NO_CONTENT, CONTENT_TOO_LONG, NAME_WORD,
 NOTHING_TO_RELOCATE, BAD_TARGET, BAD_OFFSET, EXT_KIND, TRUNCATED) = range(1, 27)

# `size` is the size word of the table, `attributes` the longword after it, or None. `at` and `end` are the bytes of a block.
Hunk = namedtuple("Hunk", "size attributes blocks")
Block = namedtuple("Block", "word body at end")
# The value of a file: `hunks` of a load file, which has no `units`; the hunks of each of the `units` of an object file.
File = namedtuple("File", "hunks units end")


class Refused(Exception):
    """The fault of a file: the byte of the longword that is refused, and the number of the reason."""

    def __init__(self, place, reason):
        super().__init__(place, reason)
        self.place, self.reason = place, reason


def kind_of(word):
    """The type in a block word; None where no kind of block has it."""
    kind = word & 0x1FFFFFFF
    return kind if UNIT <= kind <= ABSRELOC16 and kind != 0x3F4 else None


def longs(*words):
    """The bytes of these longwords."""
    return struct.pack(f">{len(words)}I", *words)


class Words:
    """The longwords of a file, which are read once, from its first to its last."""

    def __init__(self, data):
        self.data, self.at = data, 0

    def run(self, count):
        """The next longwords, so many."""
        if self.at + 4 * count > len(self.data):
            raise Refused(len(self.data) // 4 * 4, TRUNCATED)
        self.at += 4 * count
        return struct.unpack_from(f">{count}I", self.data, self.at - 4 * count)

    def word(self):
        """The next longword."""
        return self.run(1)[0]

    def refuse(self, reason):
        """Refuses the longword that was read last."""
        raise Refused(self.at - 4, reason)


def block_fault(word, has_content, is_open, is_object):
    """Why a block word is refused, if it is: the first line that fits of the tables in docs/FORMAT.md.

    Before the first unit of an object file `has_content` is None."""
    kind = kind_of(word)
    short = [RELOC32SHORT] if is_object else [RELOC32SHORT, DREL32]
    only_objects = [] if is_object else [RELOC16, RELOC8, EXT, DREL16, DREL8, RELRELOC32, ABSRELOC16]
    lines = [
        (word >> 30 == 3, BOTH_BITS),
        (kind == OVERLAY, IS_OVERLAY),
        (kind == BREAK, IS_BREAK),
        (kind in short, SHORT_RELOC),
        (kind in (LIB, INDEX), LIBRARY),
        (kind == HEADER, MISPLACED),
        (kind == UNIT and (not is_object or is_open or word != UNIT), MISPLACED),
        (kind in only_objects, NOT_IN_LOAD_FILE),
        (kind is None and not word >> 29 & 1, UNKNOWN_BLOCK),
        (has_content is None, MISPLACED),
        (kind in CONTENTS and has_content, SECOND_CONTENT),
        ((kind in RELOCATIONS or kind == EXT) and not has_content, BEFORE_CONTENT),
        (kind == END and not has_content, NO_CONTENT),
    ]
    return next((reason for fits, reason in lines if fits), None)


def read_name(words):
    """The longwords of a name, after its count."""
    count = words.word()
    if count >> 24:
        words.refuse(NAME_WORD)
    return words.run(count)


def read_groups(words, bounds):
    """The groups of a relocation block: target and offsets. `bounds` of a load file are its hunks, and the hunk's bytes."""
    groups = []
    while count := words.word():
        if bounds and not bounds[1]:
            words.refuse(NOTHING_TO_RELOCATE)
        target = words.word()
        if bounds and target >= bounds[0]:
            words.refuse(BAD_TARGET)
        offsets = []
        for _ in range(count):
            offsets.append(words.word())
            if bounds and offsets[-1] + 4 > bounds[1]:
                words.refuse(BAD_OFFSET)
        groups.append((target, offsets))
    return groups


def read_symbols(words):
    """The symbols: the top byte of the word, the longwords of the name, and the value."""
    symbols = []
    while word := words.word():
        symbols.append((word >> 24, words.run(word & 0xFFFFFF), words.word()))
    return symbols


def read_entries(words):
    """The entries of EXT: the type, the longwords of the name, a value or size, and the offsets."""
    entries = []
    while word := words.word():
        kind = word >> 24
        if kind not in DEFINITIONS and kind not in REFERENCES:
            words.refuse(EXT_KIND)
        name = words.run(word & 0xFFFFFF)
        value = words.word() if kind in DEFINITIONS or kind in COMMONS else None
        offsets = words.run(words.word()) if kind in REFERENCES else ()
        entries.append((kind, name, value, offsets))
    return entries


def read_body(words, word, bounds):
    """What comes after a block word: of a content block its size word and its longwords."""
    kind = kind_of(word)
    if kind == NAME:
        return read_name(words)
    if kind in CONTENTS:
        size = words.word()
        count = size & 0x3FFFFFFF
        if bounds and 4 * count > bounds[1]:
            words.refuse(CONTENT_TOO_LONG)
        return size, words.run(0 if kind == BSS else count)
    if kind in RELOCATIONS:
        return read_groups(words, bounds)
    if kind == SYMBOL:
        return read_symbols(words)
    if kind == EXT:
        return read_entries(words)
    return () if kind == END else words.run(words.word())


def read_blocks(words, bounds, word=None):
    """The blocks of a hunk, to its END. In an object file the first block word was read, and there are no bounds."""
    blocks, has_content, is_object = [], False, bounds is None
    while not blocks or kind_of(blocks[-1].word) != END:
        word = words.word() if word is None else word
        at = words.at - 4
        fault = block_fault(word, has_content, bool(blocks), is_object)
        if fault:
            words.refuse(fault)
        blocks.append(Block(word, read_body(words, word, bounds), at, words.at))
        has_content = has_content or kind_of(word) in CONTENTS
        word = None
    return blocks


def read_load(data):
    """The value of the load file that the bytes begin with."""
    words = Words(data)
    first = words.word()
    if first != HEADER:
        words.refuse({UNIT: IS_OBJECT, LIB: LIBRARY}.get(first, NOT_LOAD_FILE))
    if words.word():
        words.refuse(RESIDENT)
    count = words.word()
    if not 1 <= count <= 65_536:
        words.refuse(TOO_MANY_HUNKS if count else NO_HUNKS)
    if words.word():
        words.refuse(FIRST_HUNK)
    if words.word() != count - 1:
        words.refuse(LAST_HUNK)
    table = []
    for _ in range(count):
        size = words.word()
        table.append((size, words.word() if size >> 30 == 3 else None))
    hunks = [Hunk(size, more, read_blocks(words, (count, declared(size)))) for size, more in table]
    return File(hunks, None, words.at)


def read_object(data):
    """The value of an object file, which is all of the bytes."""
    words = Words(data)
    units = []
    while not units or words.at < len(data):
        word = words.word()
        if word == UNIT:
            read_name(words)
            units.append([])
        elif not units:
            words.refuse(block_fault(word, None, False, True))
        else:
            units[-1].append(Hunk(None, None, read_blocks(words, None, word)))
    return File(None, units, words.at)


def read(data):
    """The value of a file, which is taken for what its first longword says."""
    return read_object(data) if data[:4] == longs(UNIT) else read_load(data)


def declared(size):
    """The bytes that a size word declares."""
    return 4 * (size & 0x3FFFFFFF)


def findings(hunks):
    """How many findings `check` has in a unit: targets that are no hunk of it, and offsets that run past the end of their hunk."""
    found = 0
    for hunk in hunks:
        size = next(declared(block.body[0]) for block in hunk.blocks if kind_of(block.word) in CONTENTS)
        for block in hunk.blocks:
            kind = kind_of(block.word)
            if kind in RELOCATIONS:
                for target, offsets in block.body:
                    found += sum((target >= len(hunks)) + (it + RELOCATIONS[kind] > size) for it in offsets)
            elif kind == EXT:
                found += sum(it + REFERENCES[entry[0]] > size for entry in block.body for it in entry[3])
    return found


def counted(file):
    """What `validate` answers of a file that is accepted."""
    if file.units is None:
        return "accepted", len(file.hunks), sum(declared(hunk.size) for hunk in file.hunks)
    return "accepted", len(file.units), sum(map(findings, file.units))


def answer(data):
    """What `validate` answers of these bytes, as the tables have it: a word, and two numbers."""
    try:
        file = read(data)
    except Refused as fault:
        return "refused", fault.place, fault.reason
    return counted(file)


def bases(file, start):
    """The address of each hunk, packed from `start` on."""
    found = [start]
    for hunk in file.hunks:
        found.append(found[-1] + declared(hunk.size))
    return found[:-1]


def images(file, start):
    """The memory of each hunk of a load file, packed from `start` on."""
    addresses, memories = bases(file, start), []
    for hunk in file.hunks:
        memory = bytearray(declared(hunk.size))
        for block in hunk.blocks:
            if kind_of(block.word) in CONTENTS:
                content = longs(*block.body[1])
                memory[: len(content)] = content
            for target, offsets in block.body if kind_of(block.word) == RELOC32 else ():
                for offset in offsets:
                    there = int.from_bytes(memory[offset : offset + 4], "big")
                    memory[offset : offset + 4] = longs((there + addresses[target]) % 2**32)
        memories.append(bytes(memory))
    return memories
