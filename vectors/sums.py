#!/usr/bin/env python3
"""sums.py FILE..: the three sums of each file by docs/SUMS.md alone, a line each: file, program, memory, `-` for none, and the name.

This shares nothing with the crates, nor with the package for Python."""
import hashlib
import sys

from hunks import BSS, CONTENTS, DEBUG, NAME, RELOC32, SYMBOL, Refused, kind_of, longs, read
from plain import plain

CODE, END = 0x3E9, 0x3F2


def is_stripped(word):
    """Whether a block is left out of the program: NAME, SYMBOL, DEBUG, and advisory blocks, whose type is no kind's."""
    return kind_of(word) in (NAME, SYMBOL, DEBUG, None)


def program(data, file):
    """What is left of the plain spelling without these blocks, and without what comes after the file."""
    hunks = file.hunks if file.units is None else [hunk for unit in file.units for hunk in unit]
    left, at = bytearray(), 0
    for block in (block for hunk in hunks for block in hunk.blocks):
        if is_stripped(block.word):
            left += data[at : block.at]
            at = block.end
    return bytes(left + data[at : file.end])


def groups_of(hunk):
    """The offsets of a hunk by target, each list in rising order; None where two of the hunk are 1 to 3 apart."""
    pairs = [(target, it) for block in hunk.blocks if kind_of(block.word) == RELOC32 for target, its in block.body for it in its]
    offsets = {it for _, it in pairs}
    if any(it + near in offsets for it in offsets for near in (1, 2, 3)):
        return None
    return {target: sorted(it for other, it in pairs if other == target) for target in sorted({it for it, _ in pairs})}


def memory(data, file):
    """The canonical file of a load file, or None."""
    made = data[: file.hunks[0].blocks[0].at]
    for hunk in file.hunks:
        (kind, words), = [(kind_of(it.word), it.body[1]) for it in hunk.blocks if kind_of(it.word) in CONTENTS]
        words = [] if kind == BSS else [*words]
        while words and words[-1] == 0:
            words.pop()
        groups = groups_of(hunk)
        if groups is None:
            return None
        made += longs(CODE, len(words), *words)
        if groups:
            made += longs(RELOC32)
            for target, offsets in groups.items():
                made += longs(len(offsets), target, *offsets)
            made += longs(0)
        made += longs(END)
    return made


def sums(data):
    """The sums of a file: None for one that it has not."""
    def of(some):
        return None if some is None else hashlib.sha256(some).hexdigest()

    text = plain(data)[0]
    try:
        file = read(text)
    except Refused:
        return of(data), None, None
    return of(data), of(program(text, file)), of(memory(text, file)) if file.units is None else None


def main(names):
    if not names:
        sys.exit(__doc__)
    for name in names:
        with open(name, "rb") as file:
            print(*(it or "-" for it in sums(file.read())), name)


if __name__ == "__main__":
    main(sys.argv[1:])
