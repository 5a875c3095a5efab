"""front.py VECTORS..: holds hunk_front of the library that LIBHUNK names to a model of it, which is written from hunk.h and
docs/FORMAT.md. They are compared on the texts of the conformance suite, each cut at each byte, and with each longword changed to
others; also where the text is a byte too short. Prints the first that differ, and ends with status 1 where one does, or where too
few were compared."""

import ctypes
import os
import pathlib
import sys

UNIT, NAME, CODE, DATA, BSS, RELOC32, EXT, SYMBOL, DEBUG, END, HEADER = (
    0x3E7, 0x3E8, 0x3E9, 0x3EA, 0x3EB, 0x3EC, 0x3EF, 0x3F0, 0x3F1, 0x3F2, 0x3F3)
RELOCATIONS = (RELOC32, 0x3ED, 0x3EE, 0x3F7, 0x3F8, 0x3F9, 0x3FD, 0x3FE)
# The types of entries of an EXT block: definitions, and references, of which some have a size before their count.
DEFINITIONS, COMMONS, REFERENCES = (0, 1, 2), (130, 137), range(129, 140)
# The types that have names: of the numbers between the first and the last all but one.
KNOWN = {*range(0x3E7, 0x3FF)} - {0x3F4}
ADVISORY, BOTH_MEMORIES = 1 << 29, 3 << 30
NO_ROOM = 32
# What each longword is changed to.
OTHERS = (0, 1, 2, 4, UNIT, NAME, CODE, DATA, BSS, RELOC32, 0x3ED, EXT, SYMBOL, DEBUG, END, HEADER, 0x3FA, 0x3FC, 0x500,
          0x200003F4, 0x200003F5, 0x20000500, 0x400003EB, 0xC00003E9, 0x1000001, 0x81000001, 0x82000000, 0xFF000000, 0x3FFFFFFF,
          0xFFFFFFFF)


class Stopped(Exception):
    """A longword is refused, or is not there."""


# ---- The model.


class Longs:
    """The whole longwords of an input, of which one after the other is taken."""

    def __init__(self, data):
        self.all = [int.from_bytes(data[at : at + 4], "big") for at in range(0, len(data) - 3, 4)]
        self.taken = 0

    def take(self, may_be=lambda _: True):
        if self.taken == len(self.all) or not may_be(self.all[self.taken]):
            raise Stopped
        self.taken += 1
        return self.all[self.taken - 1]

    @property
    def next(self):
        return self.all[self.taken] if self.taken < len(self.all) else None

    def skip(self, count):
        if count > len(self.all) - self.taken:
            raise Stopped
        self.taken += count


def table_of(longs):
    """The declared longwords of each hunk of a load file."""
    longs.take(lambda it: it == HEADER)
    longs.take(lambda it: it == 0)
    count = longs.take(lambda it: 1 <= it <= 65536)
    longs.take(lambda it: it == 0)
    longs.take(lambda it: it == count - 1)
    sizes = []
    for _ in range(count):
        word = longs.take()
        longs.skip(word & BOTH_MEMORIES == BOTH_MEMORIES)
        sizes.append(word & 0x3FFFFFFF)
    return sizes


def take_symbols(longs):
    while word := longs.take():
        longs.skip((word & 0xFFFFFF) + 1)


def take_groups(longs, targets=1 << 32, size=1 << 33):
    """The groups of a relocation block, in a hunk of so many bytes."""
    while count := longs.take(lambda it: it == 0 or size > 0):
        longs.take(lambda it: it < targets)
        for _ in range(count):
            longs.take(lambda it: it + 4 <= size)


def take_entries(longs):
    while word := longs.take(lambda it: it >> 24 in DEFINITIONS or it >> 24 in REFERENCES):
        longs.skip((word & 0xFFFFFF) + (word >> 24 in DEFINITIONS or word >> 24 in COMMONS))
        if word >> 24 in REFERENCES:
            longs.skip(longs.take())


class Hunks:
    """Hunks, block by block, of which the open one may have its content."""

    def __init__(self):
        self.has_content = False

    def may_stand(self, word):
        """Whether a block with this word may come next."""
        kind = word & ~(7 << 29)
        if word & BOTH_MEMORIES == BOTH_MEMORIES:
            return False
        if kind not in KNOWN:
            return bool(word & ADVISORY)
        if kind in (CODE, DATA, BSS):
            return not self.has_content
        return kind in (NAME, SYMBOL, DEBUG) or self.has_content and (kind == END or kind in self.after_content)

    def take_block(self, longs):
        """Takes a block, and gives its kind."""
        kind = longs.take(self.may_stand) & ~(7 << 29)
        if kind == END:
            self.has_content = False
        elif kind in (CODE, DATA, BSS):
            size = longs.take(self.may_have) & 0x3FFFFFFF
            longs.skip(0 if kind == BSS else size)
            self.has_content = True
        elif kind in RELOCATIONS:
            self.take_offsets(longs)
        elif kind in (SYMBOL, EXT):
            (take_symbols if kind == SYMBOL else take_entries)(longs)
        else:
            longs.skip(longs.take(lambda it: kind != NAME or it >> 24 == 0))
        return kind

    @property
    def closing(self):
        """What closes the open hunk."""
        return [END] if self.has_content else [BSS, 0, END]


class LoadHunks(Hunks):
    """Those of a load file."""

    after_content = (RELOC32,)

    def __init__(self, longs):
        super().__init__()
        self.sizes = table_of(longs)
        self.hunks, self.ended = len(self.sizes), 0

    def may_have(self, word):
        """Whether this may be the size word of the content."""
        return word & 0x3FFFFFFF <= self.sizes[self.ended]

    def take_offsets(self, longs):
        take_groups(longs, self.hunks, 4 * self.sizes[self.ended])

    def step(self, longs):
        """Takes what stands up to the next place at which a front may end. Nothing does after the last END."""
        self.ended += self.take_block(longs) == END
        if self.ended == self.hunks:
            raise Stopped

    @property
    def closing(self):
        return super().closing + [BSS, 0, END] * (self.hunks - self.ended - 1)


class ObjectHunks(Hunks):
    """Those of an object file."""

    after_content = (*RELOCATIONS, EXT)

    def __init__(self, longs):
        super().__init__()
        self.hunks, self.is_open = 0, False
        self.take_unit(longs)

    def may_have(self, _):
        return True

    def take_offsets(self, longs):
        take_groups(longs)

    def take_unit(self, longs):
        longs.take(lambda it: it == UNIT)
        longs.skip(longs.take(lambda it: it >> 24 == 0))

    def step(self, longs):
        if not self.is_open and longs.next == UNIT:
            self.take_unit(longs)
        else:
            self.is_open = self.take_block(longs) != END

    @property
    def closing(self):
        return super().closing if self.is_open else []


def front_of(data):
    """The hunks of a load file, the longwords of the front, and what closes it."""
    longs = Longs(data)
    try:
        hunks = (ObjectHunks if longs.next == UNIT else LoadHunks)(longs)
    except Stopped:
        return 0, 0, []
    try:
        while True:
            front = longs.taken, hunks.closing
            hunks.step(longs)
    except Stopped:
        return (hunks.hunks, *front)


# ---- The library.


class Answer(ctypes.Structure):
    _fields_ = [("number", ctypes.c_uint32), ("hunk", ctypes.c_uint32), ("place", ctypes.c_uint64), ("count", ctypes.c_uint64)]

    def told(self):
        return self.number, self.hunk, self.place, self.count


hunk_front = ctypes.CDLL(os.environ["LIBHUNK"]).hunk_front
hunk_front.restype = Answer
hunk_front.argtypes = (ctypes.c_char_p, ctypes.c_uint64, ctypes.c_char_p, ctypes.c_uint64)
MARK = b"\xa5"


def text_of(data, room):
    """What the library answers, and a text that had so much room, with some more after it."""
    text = ctypes.create_string_buffer(MARK * (room + 8), room + 8)
    return hunk_front(data, len(data), text, room).told(), text.raw


def fault_of(data):
    """What is not as the model has it, or nothing."""
    hunks, taken, closing = front_of(data)
    wanted = data[: 4 * taken] + b"".join(it.to_bytes(4, "big") for it in closing)
    answer = hunks, 4 * taken, len(wanted)
    got = text_of(data, len(wanted))
    if got != ((0, *answer), wanted + MARK * 8):
        return f"{got[0]} where {(0, *answer)} is wanted, or another text"
    if wanted and text_of(data, len(wanted) - 1) != ((NO_ROOM, *answer), MARK * (len(wanted) + 7)):
        return "a text that is a byte too short"
    return None


# ---- The inputs.


def others_of(word):
    """What a longword is changed to. What may begin an entry also to those of all other types."""
    near = {word + 1, word - 1, word ^ ADVISORY, word ^ 1 << 30, word ^ 1 << 31}
    kinds = {(kind << 24) + (word & 0xFFFFFF) for kind in (*range(4), *range(128, 141))}
    return near.union(OTHERS, kinds if word >> 24 in (*DEFINITIONS[1:], *REFERENCES) else ())


def changed(data):
    """The text with one of its longwords changed."""
    for at in range(0, len(data), 4):
        for it in others_of(int.from_bytes(data[at : at + 4], "big")):
            yield data[:at] + (it & 0xFFFFFFFF).to_bytes(4, "big") + data[at + 4 :]


def inputs(path):
    for line in pathlib.Path(path).read_text(encoding="utf-8").splitlines()[1:]:
        data = bytes.fromhex(line.split("\t")[2])
        yield from (data[:at] for at in range(len(data) + 1))
        yield from changed(data)


def main(paths):
    compared = {it for path in paths for it in inputs(path)}
    wrong = [f"{data.hex()}: {fault}" for data in sorted(compared) if (fault := fault_of(data))]
    print(*wrong[:10], sep="\n", end="\n" if wrong else "")
    return 1 if wrong or len(compared) < 10000 else 0


if __name__ == "__main__":
    sys.exit(main(sys.argv[1:]))
