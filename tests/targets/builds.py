"""builds.py [--inputs N] [--seed S] TABLE: prints lists of parts and what has to be built of them, for fuzz.js in the folder
`package`: those of TABLE, vectors/build.tsv, and of N drawn files by the model beside that.

A line is JSON. `lists` has lists of parts, each of what, word, value, content and offsets, and for each `answer`: the number of a
refusal, its place and its row, or 0 and the file. Of a drawn file these are its parts, the same elsewhere, and changed copies; `file`
is that file, and `rows` what hunk_parts has to list of it, each row without its reserved field. Contents and files are hexadecimal
digits. Lists that a caller of JavaScript can't hand over are left out: such as say what no part is, or point outside."""

import argparse
import json
import pathlib
import random
import struct
import sys

sys.dont_write_bytecode = True
TOP = pathlib.Path(__file__).resolve().parents[2]
sys.path[:0] = [str(TOP / "vectors"), str(TOP / "tests/c")]
import build as model
import parts
from drawn_files import drawn
from drawn_rows import changed, elsewhere

CHANGES = 4


def is_there(row, data):
    """Whether a part of JavaScript can say the same."""
    ends = [row.content + row.content_bytes] * (row.content_bytes > 0) + [row.offsets + 4 * row.offset_count] * (row.offset_count > 0)
    return row.what in model.WHATS.values() and all(it <= len(data) for it in ends)


def part(row, data):
    """A row with its bytes."""
    content, offsets = data[row.content :][: row.content_bytes], data[row.offsets :][: 4 * row.offset_count]
    return [row.what, row.word, row.value, content.hex(), [it for it, in struct.iter_unpack(">I", offsets)]]


def listed(made):
    """The lists among these rows and bytes that can be handed over, each with what has to be answered."""
    for rows, data, ((number, _, place, row), text) in made:
        if all(is_there(it, data) for it in rows):
            yield {"parts": [part(it, data) for it in rows], "answer": [0, text.hex()] if number == 0 else [number, place, row]}


def of_table(path):
    return {"lists": [*listed((rows, data, wanted) for _, rows, data, wanted in model.listed(path))]}


def of_file(chance):
    """A drawn file."""
    data = drawn(chance)
    rows = parts.parts(data)
    made = [(rows, data), elsewhere(chance, rows, data), *(changed(chance, rows, data) for _ in range(CHANGES))]
    fields = [[it for name, it in row._asdict().items() if name != "reserved"] for row in rows]
    return {"file": data.hex(), "rows": fields, "lists": [*listed((*it, model.build(*it)) for it in made)]}


def main():
    parser = argparse.ArgumentParser(usage=__doc__)
    parser.add_argument("table")
    parser.add_argument("--inputs", type=int, default=100)
    parser.add_argument("--seed", type=int, default=1)
    given = parser.parse_args()
    chance = random.Random(given.seed)
    print(json.dumps(of_table(given.table)))
    for _ in range(given.inputs):
        print(json.dumps(of_file(chance)))


if __name__ == "__main__":
    main()
