"""built.py [--inputs N] [--seed S] TABLE: holds hunk_build of the library that LIBHUNK names to the model in vectors.

They are compared on the rows of TABLE, vectors/build.tsv, to which the model is held, too; on the rows of N drawn files of both
kinds, 1,000 where nothing else is said, which have to give the file again; on these where what they point at lies elsewhere; and on
five changed copies of each: with rows left out, doubled, exchanged and put in, fields changed, offsets at the ends of hunks. Each
answer is compared with more room than it needs, just as much, a byte less, and none. Where all that the rows point at is there, it
has also to be what hunk_check answers to the text that they spell: what is Strange is no file, or has other parts. Prints the first that differ, and how many
answers of each number were compared; ends with status 1 where one differs."""

import argparse
import collections
import ctypes
import os
import pathlib
import random
import struct
import sys

sys.dont_write_bytecode = True
sys.path.insert(0, str(pathlib.Path(__file__).resolve().parents[2] / "vectors"))
import build as model
import hunks
import parts
from drawn_files import drawn
from drawn_rows import changed, elsewhere
from parted import MARK, NO_ROOM, Answer

ROW = struct.Struct("=4I4Q")
library = ctypes.CDLL(os.environ["LIBHUNK"])
library.hunk_build.restype = library.hunk_check.restype = Answer
library.hunk_check.argtypes = (ctypes.c_char_p, ctypes.c_uint64, ctypes.c_void_p, ctypes.c_uint64)
library.hunk_build.argtypes = (ctypes.c_char_p, ctypes.c_uint64) * 2 + (ctypes.c_void_p, ctypes.c_uint64)


def answered(rows, data, room):
    """What the library answers where there is so much room, and what it leaves in it and in eight bytes more."""
    text = ctypes.create_string_buffer(MARK * (room + 8), room + 8)
    packed = b"".join(ROW.pack(*it) for it in rows)
    return library.hunk_build(packed, len(rows), data, len(data), text, room).told(), text.raw


def faults_of(rows, data, met):
    """What is not as the model has it."""
    wanted, text = model.build(rows, data)
    met[wanted[0]] += 1
    yield from reader_faults(rows, data, wanted)
    if text is None:
        for room in (0, 20 + 16 * len(rows) + len(data)):
            if (got := answered(rows, data, room)) != (wanted, MARK * (room + 8)):
                yield f"{got[0]} where {wanted} is wanted, or text was written"
        return
    for more in (0, 5):
        if (got := answered(rows, data, len(text) + more)) != (wanted, text + MARK * (more + 8)):
            yield f"{got[0]} where {wanted} is wanted, or another text than {text.hex()}"
    for room in (0, len(text) - 1):
        if (got := answered(rows, data, room)) != ((NO_ROOM, *wanted[1:]), MARK * (room + 8)):
            yield f"{got[0]} where {NO_ROOM} and {wanted[1:]} are wanted, or text was written"


def reader_faults(rows, data, wanted):
    """What the model answers otherwise than hunk_check to the text that the rows spell."""
    if any(it.content + it.content_bytes > len(data) for it in rows if it.content_bytes) or any(
        it.offsets + 4 * it.offset_count > len(data) for it in rows if it.offset_count
    ):
        return
    text, (number, _, place, count) = model.text_of(rows, data), wanted
    told, _, at, _ = library.hunk_check(text, len(text), None, 0).told()
    told = 0 if told == NO_ROOM else told
    if number == model.STRANGE:
        same = told or at != len(text) or seen(parts.parts(text), text) != seen(rows, data)
    elif number == hunks.EXT_KIND and rows[count].word > 255:
        same = at >= place
    else:
        same = (told, at) == (number, place)
    if not same:
        yield f"{number} at {place}, where the reader has {told} at {at}"


def seen(rows, data):
    """The rows with the bytes that they point at."""
    ends = [(it.content + it.content_bytes, it.offsets + 4 * it.offset_count) for it in rows]
    return [(it[:3], model.padded(data[it.content : end[0]]), data[it.offsets : end[1]]) for it, end in zip(rows, ends)]


# ---- The inputs.


def inputs(given, chance, wrong):
    """All rows that are tried, with the bytes they point at."""
    for name, rows, data, wanted in model.listed(given.table):
        if (got := model.build(rows, data)) != wanted:
            wrong.append(f"{name}: the model answers {got[0]}")
        yield rows, data
    for _ in range(given.inputs):
        data = drawn(chance)
        rows = parts.parts(data)
        if model.build(rows, data)[1] != data:
            wrong.append(f"{data.hex()}: the model gives another file of its parts")
        yield rows, data
        yield elsewhere(chance, rows, data)
        for _ in range(5):
            yield changed(chance, rows, data)


def main():
    parser = argparse.ArgumentParser(usage=__doc__)
    parser.add_argument("table")
    parser.add_argument("--inputs", type=int, default=1_000)
    parser.add_argument("--seed", type=int, default=1)
    given = parser.parse_args()
    chance, met, wrong, count = random.Random(given.seed), collections.Counter(), [], 0
    for rows, data in inputs(given, chance, wrong):
        count += 1
        wrong += [f"{rows} {data.hex()}: {it}" for it in faults_of(rows, data, met)]
    print(*wrong[:10], sep="\n", end="\n" if wrong else "")
    numbers = ", ".join(f"{times} of {number}" for number, times in sorted(met.items()))
    print(f"tests/c: {count} lists of rows were built, {len(wrong)} differ; seed {given.seed}; answers: {numbers}")
    return 1 if wrong else 0


if __name__ == "__main__":
    sys.exit(main())
