"""warned.py [--inputs N] [--seed S] VECTORS..: holds hunk_warnings of the library that LIBHUNK names to the model in vectors.

They are compared on the texts of the conformance suite, on copies of these with changed longwords, and on N load files that are
drawn with the seed S, 4,000 with the seed 1 where nothing else is said; also where room or rows are one too few. A file that the
model refuses has to be answered as hunk_check does. Prints the first that differ, and how many rows of each kind were compared;
ends with status 1 where one differs, or where a kind was not met."""

import argparse
import collections
import ctypes
import os
import pathlib
import random
import struct
import sys

sys.dont_write_bytecode = True
sys.path.insert(0, str(pathlib.Path(__file__).resolve().parents[2] / "vectors"))
import lint
from hunks import BSS, CODE, DATA, DEBUG, END, HEADER, RELOC32, SYMBOL, Refused, kind_of, longs, read_load

NO_ROOM = 32
ROW = struct.Struct("=2Q6I")
MARK = b"\xa5"
# What each longword of a text of the suite is changed to.
OTHERS = (0, 1, 2, 3, 4, 5, 0x7FFE, 0x8000, 0xFFFF7FFF, 0xFFFF8000, 0xFFFFFFFF, 0x40000001, 0x400003E9, 0x800003EB, 0xC0000001)


# ---- The library.


class Answer(ctypes.Structure):
    _fields_ = [("number", ctypes.c_uint32), ("hunk", ctypes.c_uint32), ("place", ctypes.c_uint64), ("count", ctypes.c_uint64)]

    def told(self):
        return self.number, self.hunk, self.place, self.count


library = ctypes.CDLL(os.environ["LIBHUNK"])
library.hunk_check.restype = library.hunk_warnings.restype = Answer
BYTES, ROOM = (ctypes.c_char_p, ctypes.c_uint64), (ctypes.c_void_p, ctypes.c_uint64)
library.hunk_check.argtypes = (*BYTES, *ROOM)
library.hunk_warnings.argtypes = (*BYTES, *ROOM, *ROOM)


def asked(data, room, rows):
    """What the library answers with so much room and so many rows, and what it writes to these, of which there are two more."""
    elements = (ctypes.c_uint32 * (room + 1))(*[0xA5A5A5A5] * (room + 1))
    written = ctypes.create_string_buffer(MARK * ROW.size * (rows + 2), ROW.size * (rows + 2))
    answer = library.hunk_warnings(data, len(data), elements, room, written, rows).told()
    if elements[room] != 0xA5A5A5A5:
        answer = ("it wrote after its room", *answer)
    return answer, written.raw


# ---- What is wanted.


def room_of(file):
    """The elements that the call needs, by hunk.h."""
    groups = ([it for block in hunk.blocks if kind_of(block.word) == RELOC32 for it in block.body] for hunk in file.hunks)
    return len(file.hunks) + max(sum(len(offsets) for _, offsets in its) for its in groups)


def refusal_of(data):
    """What hunk_check answers: of a refusal this, and of an object file the same without findings."""
    number, hunk, place, _ = library.hunk_check(data, len(data), None, 0).told()
    return 0 if number == NO_ROOM else number, hunk, place, 0


def faults_of(data, met):
    """What is not as the model has it. The kinds of its rows are counted."""
    try:
        file = read_load(data)
    except Refused:
        wanted = refusal_of(data)
        if (got := asked(data, len(data) // 4, 2)) != (wanted, MARK * ROW.size * 4):
            yield f"{got[0]} where {wanted} is wanted, or rows were written"
        return
    rows = lint.warnings(file)
    met.update(it.kind for it in rows)
    count, room, head = len(rows), room_of(file), (len(file.hunks), file.end)
    if room > len(data) // 4:
        yield f"{room} elements of room, of {len(data)} bytes"
    text = b"".join(ROW.pack(*it, 0) for it in rows)
    for more in (0, 1):
        got = asked(data, room + more, count + more)
        if got != ((0, *head, count), text + MARK * ROW.size * (2 + more)):
            yield f"{got[0]} where {(0, *head, count)} is wanted, or other rows than {lint.text(rows)}"
    for elements, fewer, needed in ((room - 1, count, 0), (room, count - 1, count)):
        if fewer < 0:
            continue
        got = asked(data, elements, fewer)
        if got != ((NO_ROOM, *head, needed), MARK * ROW.size * (fewer + 2)):
            yield f"{got[0]} where {(NO_ROOM, *head, needed)} is wanted, or rows were written"


# ---- The inputs.


def changed(data):
    """The text, with each of its longwords changed, and with bytes after it."""
    yield from (data, data + b"\0\0\3")
    for at in range(0, len(data) - 3, 4):
        for it in OTHERS:
            yield data[:at] + it.to_bytes(4, "big") + data[at + 4 :]


def suite(paths):
    for path in paths:
        lines = pathlib.Path(path).read_text(encoding="ascii").splitlines()[1:]
        field = 1 if path.endswith("warnings.tsv") else 2
        for line in lines:
            yield from changed(bytes.fromhex(line.split("\t")[field]))


def value(chance, sizes):
    """A longword that leads to somewhere near the bounds of a hunk."""
    near = 4 * chance.choice(sizes) + chance.randrange(-2, 3)
    return chance.choice((0, near, near, 0x7FFD, 0x7FFE, 0x7FFF, -0x8001, -0x8000, -4, 0x20000, chance.getrandbits(32))) % 2**32


def groups(chance, sizes, size):
    """A RELOC32 block of a hunk of so many longwords."""
    words = [RELOC32]
    for _ in range(chance.randrange(1, 4)):
        anywhere = chance.random() < 0.5
        count = chance.choice((1, 2, 3, 3, 20))
        offsets = [chance.randrange(4 * size - 3) if anywhere else 4 * chance.randrange(size) for _ in range(count)]
        words += [count, chance.randrange(len(sizes)), *offsets]
    return longs(*words, 0)


def side(chance, sizes):
    """A block that may stand anywhere, mostly SYMBOL."""
    if chance.random() < 0.3:
        return longs(DEBUG, 2, RELOC32, 1)
    words = []
    for _ in range(chance.randrange(4)):
        name = [0x61000000] * chance.randrange(1, 3)
        words += [chance.choice((0, 1)) << 24 | len(name), *name, value(chance, sizes)]
    return longs(SYMBOL, *words, 0)


def hunk(chance, sizes, size):
    """The blocks of a hunk of so many longwords."""
    kind, used = chance.choice((CODE, DATA, BSS)), chance.randrange(size + 1)
    content = [] if kind == BSS else [value(chance, sizes) for _ in range(used)]
    made = side(chance, sizes) if chance.random() < 0.3 else b""
    made += longs(kind | chance.choice((0, 0, 0, 1, 2)) << 30, used, *content)
    for _ in range(chance.randrange(4)):
        made += groups(chance, sizes, size) if size and chance.random() < 0.7 else side(chance, sizes)
    return made + longs(END)


def drawn(chance):
    """A load file."""
    sizes = [chance.choice((0, 1, 2, 3, 7, 7, 40)) for _ in range(chance.choice((1, 2, 3, 9)))]
    text = longs(HEADER, 0, len(sizes), 0, len(sizes) - 1)
    for size in sizes:
        memory = chance.choice((0, 0, 0, 1, 2, 3))
        text += longs(memory << 30 | size, *([4] if memory == 3 else []))
    return text + b"".join(hunk(chance, sizes, size) for size in sizes)


def main():
    parser = argparse.ArgumentParser(usage=__doc__)
    parser.add_argument("vectors", nargs="+")
    parser.add_argument("--inputs", type=int, default=4_000)
    parser.add_argument("--seed", type=int, default=1)
    given = parser.parse_args()
    chance, met, wrong, count = random.Random(given.seed), collections.Counter(), [], 0
    for data in (*suite(given.vectors), *(drawn(chance) for _ in range(given.inputs))):
        count += 1
        wrong += [f"{data.hex()}: {it}" for it in faults_of(data, met)]
    print(*wrong[:10], sep="\n", end="\n" if wrong else "")
    kinds = ", ".join(f"{met[it]} of kind {it}" for it in range(1, 9))
    print(f"tests/c: warnings of {count} inputs, {len(wrong)} differ; seed {given.seed}; rows: {kinds}")
    return 1 if wrong or len(met) != 8 else 0


if __name__ == "__main__":
    sys.exit(main())
