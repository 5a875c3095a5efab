"""parted.py [--inputs N] [--seed S] VECTORS..: holds hunk_parts of the library that LIBHUNK names to the model in vectors.

They are compared on the texts of the conformance suite, on copies of these with changed longwords, and on N files of both kinds
that are drawn with the seed S, 4,000 with the seed 1 where nothing else is said; also where there are no rows, and one too few. A
file that the model refuses has to be answered as hunk_check does. Prints the first that differ, and how many parts of each kind
were compared; ends with status 1 where one differs, or where a kind was not met."""

import argparse
import collections
import ctypes
import os
import pathlib
import random
import struct
import sys

sys.dont_write_bytecode = True
sys.path.insert(0, str(pathlib.Path(__file__).resolve().parents[2] / "vectors"))
import parts
from drawn_files import drawn
from hunks import Refused, read

NO_ROOM = 32
ROW = struct.Struct("=4I4Q")
MARK = b"\xa5"
# What each longword of a text of the suite is changed to.
OTHERS = (0, 1, 2, 3, 5, 0xFFFFFFFF, 0x40000001, 0x400003E9, 0x200004D2, 0x820003EF, 0xC0000001)


# ---- The library.


class Answer(ctypes.Structure):
    _fields_ = [("number", ctypes.c_uint32), ("hunk", ctypes.c_uint32), ("place", ctypes.c_uint64), ("count", ctypes.c_uint64)]

    def told(self):
        return self.number, self.hunk, self.place, self.count


library = ctypes.CDLL(os.environ["LIBHUNK"])
library.hunk_check.restype = library.hunk_parts.restype = Answer
library.hunk_check.argtypes = library.hunk_parts.argtypes = (ctypes.c_char_p, ctypes.c_uint64, ctypes.c_void_p, ctypes.c_uint64)


def asked(data, rows):
    """What the library answers with so many rows, and what it writes to these, of which there are two more."""
    written = ctypes.create_string_buffer(MARK * ROW.size * (rows + 2), ROW.size * (rows + 2))
    return library.hunk_parts(data, len(data), written, rows).told(), written.raw


def refusal_of(data):
    """What hunk_check answers of a file that is refused."""
    number, hunk, place, _ = library.hunk_check(data, len(data), None, 0).told()
    return number, hunk, place, 0


def faults_of(data, met):
    """What is not as the model has it. The kinds of its rows are counted."""
    try:
        file = read(data)
    except Refused:
        wanted = refusal_of(data)
        if (got := asked(data, 2)) != (wanted, MARK * ROW.size * 4):
            yield f"{got[0]} where {wanted} is wanted, or rows were written"
        return
    rows = parts.parts(data[: file.end])
    met.update(it.what for it in rows)
    count, head = len(rows), (len(file.hunks or ()), file.end)
    text = b"".join(ROW.pack(*it) for it in rows)
    for more in (0, file.end // 4 - count):
        got = asked(data, count + more)
        if got != ((0, *head, count), text + MARK * ROW.size * (2 + more)):
            yield f"{got[0]} where {(0, *head, count)} is wanted, or other rows than {rows}"
    for fewer in (0, count - 1):
        got = asked(data, fewer)
        if got != ((NO_ROOM, *head, count), MARK * ROW.size * (fewer + 2)):
            yield f"{got[0]} where {(NO_ROOM, *head, count)} is wanted, or rows were written"


# ---- The inputs.


def changed(data):
    """The text, with each of its longwords changed, and with bytes after it."""
    yield from (data, data + b"\0\0\3")
    for at in range(0, len(data) - 3, 4):
        for it in OTHERS:
            yield data[:at] + it.to_bytes(4, "big") + data[at + 4 :]


def suite(paths):
    for path in paths:
        lines = pathlib.Path(path).read_text(encoding="ascii").splitlines()[1:]
        field = 1 if path.endswith("warnings.tsv") else 2
        for line in lines:
            yield from changed(bytes.fromhex(line.split("\t")[field]))


def main():
    parser = argparse.ArgumentParser(usage=__doc__)
    parser.add_argument("vectors", nargs="+")
    parser.add_argument("--inputs", type=int, default=4_000)
    parser.add_argument("--seed", type=int, default=1)
    given = parser.parse_args()
    chance, met, wrong, count = random.Random(given.seed), collections.Counter(), [], 0
    for data in (*suite(given.vectors), *(drawn(chance) for _ in range(given.inputs))):
        count += 1
        wrong += [f"{data.hex()}: {it}" for it in faults_of(data, met)]
    print(*wrong[:10], sep="\n", end="\n" if wrong else "")
    kinds = ", ".join(f"{met[it]} of kind {it}" for it in range(1, 7))
    print(f"tests/c: parts of {count} inputs, {len(wrong)} differ; seed {given.seed}; rows: {kinds}")
    return 1 if wrong or len(met) != 6 else 0


if __name__ == "__main__":
    sys.exit(main())
