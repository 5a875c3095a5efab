"""The warnings of a load file, by the section on them of docs/FORMAT.md: this shares nothing with the crates.

`warnings` gives the rows of warnings.tsv for a file that `read_load` of hunks.py has read.
"""
from collections import Counter, namedtuple

from hunks import BSS, CONTENTS, RELOC32, SYMBOL, declared, kind_of, longs

(ODD_OFFSET, TWICE, OVERLAP, IN_BSS, OUTSIDE_TARGET, SYMBOL_OUTSIDE, NO_ENTRY, MEMORY_IGNORED) = range(1, 9)
ATTRIBUTES = 3
# The register of a small data model points so many bytes into the data, however few there are.
SMALL_DATA = 0x7FFE
# So far before its start a pointer may lead, as that to an array whose first index is not 0.
BEFORE = 0x8000

Row = namedtuple("Row", "place hunk kind offset target value other")


class Content:
    """The content of a hunk, and its offsets that are relocated, each with how often."""

    def __init__(self, hunk):
        block = next(it for it in hunk.blocks if kind_of(it.word) in CONTENTS)
        self.is_bss = kind_of(block.word) == BSS
        self.bytes = longs(*block.body[1])
        groups = [it for block in hunk.blocks if kind_of(block.word) == RELOC32 for it in block.body]
        self.times = Counter(offset for _, offsets in groups for offset in offsets)

    def value_at(self, offset):
        """The longword before any relocation. After the content come zeros."""
        return int.from_bytes(self.bytes[offset : offset + 4].ljust(4, b"\0"), "big")

    def close_to(self, offset):
        """The least other offset whose longword overlaps that at this one; None where there is none."""
        near = (*range(offset - 3, offset), *range(offset + 1, offset + 4))
        return next((it for it in near if self.times[it]), None)


def is_outside(value, size):
    """Whether a value leads outside a hunk of so many bytes."""
    return size < value < 2**32 - BEFORE and value != SMALL_DATA


def offset_kinds(content, offset, value, size):
    """What is told of an offset whose target has so many bytes: each kind, and the other offset of an overlap."""
    if offset % 2:
        yield ODD_OFFSET, 0
    if content.times[offset] > 1:
        yield TWICE, 0
    if (other := content.close_to(offset)) is not None:
        yield OVERLAP, other
    if content.is_bss:
        yield IN_BSS, 0
    if is_outside(value, size):
        yield OUTSIDE_TARGET, 0


def of_groups(block, number, content, sizes):
    """Those of a RELOC32 block."""
    place = block.at + 4
    for target, offsets in block.body:
        for i, offset in enumerate(offsets):
            value = content.value_at(offset)
            for kind, other in offset_kinds(content, offset, value, sizes[target]):
                yield Row(place + 8 + 4 * i, number, kind, offset, target, value, other)
        place += 8 + 4 * len(offsets)


def of_symbols(block, number, size):
    """Those of a SYMBOL block, in a hunk of so many bytes."""
    place = block.at + 4
    for _, name, value in block.body:
        if is_outside(value, size):
            yield Row(place, number, SYMBOL_OUTSIDE, 0, number, value, 0)
        place += 8 + 4 * len(name)


def of_content(block, number, given):
    """Those of a content block, in a hunk for which the table asks for this memory."""
    asked = block.word >> 30
    if number == 0 and not block.body[1]:
        yield Row(block.at, 0, NO_ENTRY, 0, 0, 0, 0)
    if asked and given not in (asked, ATTRIBUTES):
        yield Row(block.at, number, MEMORY_IGNORED, 0, 0, asked, 0)


def warnings(file):
    """What is suspicious in a load file, in its order."""
    sizes, found = [declared(it.size) for it in file.hunks], []
    for number, hunk in enumerate(file.hunks):
        content = Content(hunk)
        for block in hunk.blocks:
            kind = kind_of(block.word)
            if kind in CONTENTS:
                found += of_content(block, number, hunk.size >> 30)
            elif kind == RELOC32:
                found += of_groups(block, number, content, sizes)
            elif kind == SYMBOL:
                found += of_symbols(block, number, sizes[number])
    return found


def text(rows):
    """The rows as warnings.tsv has them."""
    return "; ".join(" ".join(map(str, it)) for it in rows)
