"""file_warnings.py WARNINGS: holds `File.warnings` of bindings/python to vectors/warnings.tsv, and to what else the package says of
it: for files in other spellings, for those that are refused, and where the library has kinds that the package does not know.
Prints what differs, and ends with status 1 where something does."""

import pathlib
import struct
import sys
from unittest import mock

sys.path.insert(0, str(pathlib.Path(__file__).resolve().parents[2] / "bindings/python"))
import hunk
from hunk.items import WARNINGS

NAMES = ("OddOffset", "Twice", "Overlap", "InBss", "OutsideTarget", "SymbolOutside", "NoEntry", "MemoryIgnored")
# A hunk of a longword, whose relocation leads a byte too far; and what is told of it.
WARNED = bytes.fromhex(
    "000003f3 00000000 00000001 00000000 00000000 00000001 000003e9 00000001 00000005"
    "000003ec 00000001 00000000 00000000 00000000 000003f2")
WARNING = hunk.Warning(48, 0, "OutsideTarget", 0, 0, 5, 0)
# The same hunk, with a short block in the place of its relocations, and without END.
WIDE = WARNED[:36] + bytes.fromhex("000003fc 00010000 00000000")
# A BSS hunk of so many longwords, each of which is relocated: most of the file is offsets.
MANY = 100
DENSE = struct.pack(f">{11 + MANY + 2}I", 0x3F3, 0, 1, 0, 0, MANY, 0x3EB, MANY, 0x3EC, MANY, 0, *range(0, 4 * MANY, 4), 0, 0x3F2)
# An object file whose relocation has no target: that is a finding.
OBJECT = bytes.fromhex("000003e7 00000000 000003e9 00000001 00000000 000003ec 00000001 00000002 00000000 00000000 000003f2")


def wrong_rows(path):
    """The rows of the table with other warnings."""
    for line in pathlib.Path(path).read_text(encoding="utf-8").splitlines()[1:]:
        name, text, wanted = line.split("\t")
        told = (it._replace(kind=NAMES.index(it.kind) + 1) for it in hunk.read(bytes.fromhex(text)).warnings)
        if (got := "; ".join(" ".join(map(str, it)) for it in told)) != wanted:
            yield f"{name}: {got} where {wanted} is wanted"


def known(kinds):
    """The warnings of the file, where the package knows these kinds alone."""
    with mock.patch.dict(WARNINGS, {number: WARNINGS[number] for number in kinds}, clear=True):
        return hunk.read(WARNED).warnings


def wrong_calls():
    """What other calls come to, where that is not what is wanted."""
    calls = {
        "a file": (hunk.read(WARNED).warnings, [WARNING]),
        "bytes after it": (hunk.read(WARNED + WARNED).warnings, [WARNING]),
        "a whole file, with partial": (hunk.read(WARNED, partial=True).warnings, [WARNING]),
        "what stands before a fault": (hunk.read(WARNED[:-4], partial=True).warnings, []),
        "another spelling": (hunk.read(WIDE, wide=True).warnings, [WARNING]),
        "many offsets": ([it.kind for it in hunk.read(DENSE).warnings], ["NoEntry"] + MANY * ["InBss"]),
        "an object file": (hunk.read(OBJECT).warnings, []),
        "a kind that is known": (known([5]), [WARNING]),
        "a kind that is not": (known([1, 2]), []),
    }
    for name, (got, wanted) in calls.items():
        if got != wanted:
            yield f"{name}: {got} where {wanted} is wanted"
    if len(hunk.read(OBJECT).findings) != 1:
        yield "the object file has another number of findings"


def main(path):
    wrong = [*wrong_rows(path), *wrong_calls()]
    print(*wrong, sep="\n", end="\n" if wrong else "")
    return 1 if wrong else 0


if __name__ == "__main__":
    sys.exit(main(*sys.argv[1:]))
