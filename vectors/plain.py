"""The plain spelling of a file in a wide one, by the section on spellings of docs/FORMAT.md.

`plain` gives it, and where each of its bytes comes from. `spellings` gives all wide spellings of a file.
"""
from itertools import product

from hunks import BSS, CODE, CONTENTS, DATA, DEFINITIONS, COMMONS, DREL32, END, EXT, HEADER, REFERENCES, RELOC32, RELOC32SHORT
from hunks import RELOCATIONS, SYMBOL, UNIT, block_fault, kind_of, longs


class Passes(Exception):
    """From here on all bytes are given out as they are."""


class Units:
    """A file of which unit after unit is given out: a longword, a 16-bit word, or bytes as they are."""

    def __init__(self, data):
        self.data, self.at = data, 0
        self.out, self.places = bytearray(), []

    def give(self, some, taken):
        """Gives out bytes for a unit of so many bytes of the input. What is put in comes first, at the place of the next byte."""
        self.out += some
        put_in = len(some) - taken
        self.places += [self.at + max(0, i - put_in) for i in range(len(some))]
        self.at += taken

    def look(self, size):
        """The number that the next bytes are, which stay; where there are fewer, they pass."""
        if self.at + size > len(self.data):
            raise Passes
        return int.from_bytes(self.data[self.at : self.at + size], "big")

    def word(self):
        """The next longword, given out as it is."""
        word = self.look(4)
        self.give(longs(word), 4)
        return word

    def half(self):
        """The next 16-bit word, given out as a longword."""
        half = self.look(2)
        self.give(longs(half), 2)
        return half

    def run(self, count):
        """The next longwords as they are, byte for byte. Where there are fewer, what there is passes."""
        if self.at + 4 * count > len(self.data):
            raise Passes
        self.same(4 * count)

    def same(self, count):
        """The next bytes as they are."""
        for at in range(self.at, self.at + count):
            self.give(self.data[at : at + 1], 1)


def give_short(units, word):
    """A short block, given out as RELOC32. Where it is filled up with another number than 0, that stays short, and all passes."""
    units.give(longs(word & 0xE0000000 | RELOC32), 4)
    start = units.at
    while count := units.half():
        for _ in range(1 + count):
            units.half()
    if (units.at - start) % 4:
        if units.look(2):
            units.give(longs(RELOC32SHORT), 0)
            raise Passes
        units.give(b"", 2)


def give_entries(units):
    """The entries of EXT."""
    while word := units.word():
        kind = word >> 24
        units.run(word & 0xFFFFFF)
        if kind in DEFINITIONS or kind in COMMONS:
            units.word()
        if kind in REFERENCES:
            units.run(units.word())
        elif kind not in DEFINITIONS:
            raise Passes


def give_block(units):
    """A block as it is."""
    kind = kind_of(units.word())
    if kind in (CODE, DATA):
        units.run(units.word() & 0x3FFFFFFF)
    elif kind == BSS:
        units.word()
    elif kind in RELOCATIONS:
        while count := units.word():
            units.word()
            units.run(count)
    elif kind == SYMBOL:
        while word := units.word():
            units.run(word & 0xFFFFFF)
            units.word()
    elif kind == EXT:
        give_entries(units)
    elif kind != END:
        units.run(units.word())


def give_load(units):
    """A load file: the header, and its hunks. END is given out before a content, where the open hunk has its own and one is
    ahead, and where the input ends in the last hunk, which has its content."""
    _, _, ahead, _, _ = (units.word() for _ in range(5))
    for _ in range(ahead):
        if units.word() >> 30 == 3:
            units.word()
    has_content = False
    while ahead:
        if units.at == len(units.data) and has_content and ahead == 1:
            units.give(longs(END), 0)
            return
        word = units.look(4)
        kind = kind_of(word)
        if kind in (RELOC32SHORT, DREL32) and word >> 30 != 3:
            give_short(units, word)
            continue
        ends = kind in CONTENTS and has_content and ahead > 1 and word >> 30 != 3
        if ends:
            units.give(longs(END), 0)
        elif block_fault(word, has_content, True, False):
            raise Passes
        ahead -= ends or kind == END
        has_content = kind in CONTENTS or has_content and kind != END
        give_block(units)


def give_object(units):
    """An object file: in its hunks, short blocks of one kind alone. No END is given out that is not there."""
    while True:
        word = units.look(4)
        if kind_of(word) == RELOC32SHORT and word >> 30 != 3:
            give_short(units, word)
        elif kind_of(word) == UNIT:
            units.word()
            units.run(units.word())
        elif block_fault(word, False, False, True) and block_fault(word, True, False, True):
            raise Passes
        else:
            give_block(units)


def plain(data):
    """The plain spelling, and the place in the input of each of its bytes; one that is put in has that of the next which is not.
    After these there is the place where the input ends."""
    units = Units(data)
    try:
        first = units.look(4)
        if first == HEADER:
            give_load(units)
        elif first == UNIT:
            give_object(units)
    except Passes:
        pass
    units.same(len(data) - units.at)
    return bytes(units.out), units.places + [len(data)]


def short(block, kind):
    """The bytes of a RELOC32 block as a short block of this kind; None where a number does not fit."""
    numbers = [it for target, offsets in block.body for it in (len(offsets), target, *offsets)] + [0]
    if max(numbers) >= 2**16:
        return None
    numbers += [0] * (len(numbers) % 2)
    return longs(block.word & 0xE0000000 | kind) + b"".join(it.to_bytes(2, "big") for it in numbers)


def block_choices(data, block, kinds):
    """The spellings of a block: what is added to a name, and the bytes."""
    yield "", data[block.at : block.end]
    if kind_of(block.word) == RELOC32:
        for kind in kinds:
            if (found := short(block, kind)) is not None:
                yield f"-{kind:x}", found


def end_choices(data, hunks, number, is_end):
    """The spellings of the END of a hunk, which may be left out before a next content, and where the file is the whole input."""
    end = hunks[number].blocks[-1]
    yield "", data[end.at : end.end]
    is_last = number + 1 == len(hunks)
    if end.word == END and (is_end if is_last else kind_of(hunks[number + 1].blocks[0].word) in CONTENTS):
        yield f"-open-{number}", b""


def spellings(data, file):
    """All spellings of a file that the bytes begin with, the plain one first: what is added to a name, and the bytes, with those
    that come after the file."""
    hunks = file.hunks if file.units is None else [hunk for unit in file.units for hunk in unit]
    parts, at = [], 0
    for number, hunk in enumerate(hunks):
        parts.append([("", data[at : hunk.blocks[0].at])])
        kinds = (RELOC32SHORT, DREL32) if file.units is None else (RELOC32SHORT,)
        parts += [list(block_choices(data, block, kinds)) for block in hunk.blocks[:-1]]
        end = hunk.blocks[-1]
        is_load = file.units is None
        parts.append(list(end_choices(data, hunks, number, file.end == len(data))) if is_load else [("", data[end.at : end.end])])
        at = end.end
    for chosen in product(*parts):
        yield "".join(name for name, _ in chosen), b"".join(some for _, some in chosen) + data[at:]
