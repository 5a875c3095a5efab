"""Makes a program of two hunks from nothing: two_hunks.py OUT

Its code adds two longwords of a table, which is a hunk of its own, and ends with the sum, 42, in d0."""

import sys
from typing import Sequence

import hunk

# lea table,a0; move.l (a0)+,d0; add.l (a0),d0; rts
CODE = bytes.fromhex("41f9 00000000 2018 d090 4e75")
TABLE = bytes.fromhex("00000014 00000016")


def program() -> bytes:
    part, kind = hunk.Part, hunk.Kind
    return hunk.build([
        part.hunk(3),
        part.block(kind.CODE, CODE),
        # The longword at 2 gets the address of hunk 1.
        part.block(kind.RELOC32),
        part.group(1, [2]),
        part.block(kind.SYMBOL),
        part.symbol(b"start", 0),
        part.end(),
        part.hunk(2),
        part.block(kind.DATA, TABLE),
        part.end(),
    ])


def main(words: Sequence[str]) -> None:
    if len(words) != 2:
        sys.exit("usage: two_hunks.py OUT")
    with open(words[1], "wb") as out:
        out.write(program())


if __name__ == "__main__":
    main(sys.argv)
