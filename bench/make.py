#!/usr/bin/env python3
"""make.py KIND MIB OUT: a valid hunk file of about MIB MiB, the same at each call.

Load files: code, debug, offsets, hunks (65,536 of them from 2 MiB on), targets (hunks that are relocated to any other), symbols,
blocks (DEBUG blocks of nothing), program (what a linker makes of some modules: 12 hunks, or 3 below 16 KiB), least (one hunk of
nothing, whatever MIB is).
Object files: units, findings (relocations at no hunk, outside theirs).
In other spellings, for --wide: short (one block of short relocations, in large groups), groups (the same, of 1 to 8 offsets), open
(hunks of one longword, each END left out).
No file: nothing (no bytes).
For memory: entry, symbol, group (blocks with one of these), unit and hunk (the smallest ones)."""
import array
import random
import sys

UNIT, CODE, DATA, BSS, RELOC32, EXT, RELOC32SHORT = 0x3E7, 0x3E9, 0x3EA, 0x3EB, 0x3EC, 0x3EF, 0x3FC
SYMBOL, DEBUG, END, HEADER = 0x3F0, 0x3F1, 0x3F2, 0x3F3

# one hunk of one longword, open after its code
ONE_HUNK = [HEADER, 0, 1, 0, 0, 1, CODE, 1, 0x4E754E71]


def one_hunk_of(longs):
    return [HEADER, 0, 1, 0, 0, longs, CODE, longs]


def code(longs, content):
    yield one_hunk_of(longs)
    yield content(longs)
    yield [RELOC32, 2, 0, 0, 2, 0, END]


def debug(longs, content):
    yield ONE_HUNK + [DEBUG, longs]
    yield content(longs)
    yield [END]


def offsets(longs, content):
    size = longs // 8
    count = longs - size
    yield one_hunk_of(size)
    yield content(size)
    yield [RELOC32, count, 0]
    yield [4 * (i % size) for i in range(count)]
    yield [0, END]


def hunks(longs, content, target=lambda i, count: i ^ 1):
    count = min(65536, longs // 8 + 8)
    size = max(1, longs // count - 8)
    yield [HEADER, 0, count, 0, count - 1] + [size] * count
    for i in range(count):
        yield [CODE, size]
        yield content(size)
        yield [RELOC32, 1, target(i, count), 0, 0, END]


def targets(longs, content):
    chance = random.Random(20261128)
    yield from hunks(longs, content, lambda _, count: chance.randrange(count))


def program(longs, content):
    count = 12 if longs > 4096 else 3
    size = longs * 5 // 6 // count
    offsets = size // 8
    yield [HEADER, 0, count, 0, count - 1] + [size] * count
    for i in range(count):
        yield [DATA if i % 3 else CODE, size]
        yield content(size)
        yield [RELOC32]
        for part in range(2):
            yield [offsets // 2, (i + part) % count]
            yield [4 * (8 * at + part) for at in range(offsets // 2)]
        yield [0, END]


def symbols(longs, content):
    yield ONE_HUNK + [SYMBOL]
    for i in range(longs // 4):
        yield [2, 0x5F616161 + (i & 7), 0x62626200, 4 * i]
    yield [0, END]


def blocks(longs, content):
    yield ONE_HUNK
    yield [DEBUG, 0] * (longs // 2)
    yield [END]


def units(longs, content):
    for _ in range(longs // 13):
        yield [UNIT, 1, 0x61000000, CODE, 1, 0, EXT, 0x81000001, 0x5F660000, 1, 0, 0, END]


def findings(longs, content):
    yield [UNIT, 0, CODE, 1, 0, RELOC32, longs, 1]
    yield [0xFFFFFFFF] * longs
    yield [0, END]


def halves(numbers):
    """The longwords of these numbers of 16 bits, filled up with 0."""
    filled = numbers + [0] * (len(numbers) % 2)
    return [65536 * high + low for high, low in zip(filled[::2], filled[1::2])]


def short(longs, content, counts=lambda at: 65535):
    size = 16384
    yield one_hunk_of(size)
    yield content(size)
    numbers = []
    while len(numbers) < 2 * (longs - size):
        count = counts(len(numbers))
        numbers += [count, 0] + [4 * (at % size) for at in range(count)]
    yield [RELOC32SHORT]
    yield halves(numbers + [0])
    yield [END]


def groups(longs, content):
    yield from short(longs, content, lambda at: 1 + at % 8)


def open_hunks(longs, _):
    count = min(65536, longs // 3)
    yield [HEADER, 0, count, 0, count - 1] + [1] * count
    yield [CODE, 1, 0x4E754E71] * count


def least(longs, _):
    yield [HEADER, 0, 1, 0, 0, 0, BSS, 0, END]


def nothing(longs, _):
    yield []


def repeated(front, part, back):
    """The kind of a file with this part over and over."""
    return lambda longs, _: iter([front, part * (longs // len(part)), back])


KINDS = {make.__name__: make for make in (code, debug, offsets, hunks, targets, symbols, blocks, program, units, findings, short, groups, least, nothing)} | {
    "open": open_hunks,
    "entry": repeated([UNIT, 0, CODE, 1, 0], [EXT, 0x01000000, 0, 0], [END]),
    "symbol": repeated(ONE_HUNK, [SYMBOL, 1, 0x61000000, 0, 0], [END]),
    "group": repeated(ONE_HUNK, [RELOC32, 1, 0, 0, 0], [END]),
    "unit": repeated([], [UNIT, 0, BSS, 0, END], []),
    "hunk": repeated([UNIT, 0], [BSS, 0, END], []),
}


def longs_of(mib):
    """How many longwords so many MiB have, less those around the parts that are made."""
    try:
        number = float(mib)
    except ValueError:
        number = -1
    if not 0 <= number <= 1024:
        sys.exit(f"make.py: {mib} is no number of MiB up to 1024")
    return max(64, int(number * (1 << 18)) - 64)


def write_file(kind, longs, name):
    chance = random.Random(20261122)
    with open(name, "wb") as out:
        for part in KINDS[kind](longs, lambda count: array.array("I", chance.randbytes(4 * count))):
            words = array.array("I", part)
            if sys.byteorder == "little":
                words.byteswap()
            words.tofile(out)


def main():
    if len(sys.argv) != 4 or sys.argv[1] not in KINDS:
        sys.exit(__doc__)
    kind, mib, name = sys.argv[1:]
    try:
        write_file(kind, longs_of(mib), name)
    except (OSError, MemoryError) as error:
        sys.exit(f"make.py: {name}: {error.strerror if isinstance(error, OSError) else 'no memory'}")


main()
