"""file_parts.py VECTORS..: holds `hunk.parts` of bindings/python to the model of vectors/parts.py, on the texts of the suite.
Prints what differs, and ends with status 1 where something does."""

import pathlib
import sys

TOP = pathlib.Path(__file__).resolve().parents[2]
sys.path[:0] = [str(TOP / "bindings/python"), str(TOP / "vectors")]
import hunk
import parts
from hunks import Refused, read

WHATS = ("hunk", "unit", "block", "group", "symbol", "entry")


def wanted(data):
    """The parts of a file by the model, each with its bytes; or the place and the number of its refusal."""
    try:
        size = read(data).end
    except Refused as fault:
        return fault.place, fault.reason
    made = []
    for it in parts.parts(data[:size]):
        offsets = [int.from_bytes(data[it.offsets + 4 * i :][:4], "big") for i in range(it.offset_count)]
        content = data[it.content : it.content + it.content_bytes]
        made.append(hunk.Part(WHATS[it.what - 1], it.word, it.value, content, tuple(offsets)))
    return made


def told(data):
    try:
        return hunk.parts(data)
    except hunk.HunkError as error:
        return error.place, error.number


def main(paths):
    wrong = []
    for path in paths:
        for line in pathlib.Path(path).read_text(encoding="utf-8").splitlines()[1:]:
            _, name, text, *_ = line.split("\t")
            data = bytes.fromhex(text)
            wrong += [f"{name}: {told(each)}" for each in (data, data + bytes(3)) if told(each) != wanted(each)]
    print(*wrong, sep="\n", end="\n" if wrong else "")
    return 1 if wrong else 0


if __name__ == "__main__":
    sys.exit(main(sys.argv[1:]))
