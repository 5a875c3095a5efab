"""The kinds of warnings of load files, by their names. `docs/warnings` writes the table from docs/warnings.tsv."""

from __future__ import annotations

from hunk.tuples import NamedTuple



class Kind(NamedTuple):
    """A kind by its number: what it means, what stands at its place, what comes of it, and what a developer of the file does."""

    number: int
    meaning: str
    place: str
    effect: str
    developer: str


KINDS = {
    "OddOffset": Kind(
        1,
        "the offset of a relocation is odd",
        "the offset",
        "a 68000 stops in LoadSeg, by an address error",
        "align the pointer to an even offset",
    ),
    "Twice": Kind(
        2,
        "a longword is relocated more than once",
        "the offset",
        "two bases are added, so the pointer leads nowhere",
        "write each offset once",
    ),
    "Overlap": Kind(
        3,
        "two relocated longwords overlap",
        "the offset",
        "the second base is added to what the first has made",
        "correct the offsets: relocated longwords are at least 4 bytes apart",
    ),
    "InBss": Kind(
        4,
        "a longword of a BSS hunk is relocated",
        "the offset",
        "a program that takes the hunk for zeros finds an address",
        "give the hunk a DATA block, or drop the relocation",
    ),
    "OutsideTarget": Kind(
        5,
        "a relocated longword leads outside its target",
        "the offset",
        "the pointer leads into other memory",
        "correct the target, or the longword, which counts from the start of the target",
    ),
    "SymbolOutside": Kind(
        6,
        "the value of a symbol is outside its hunk",
        "the first longword of the symbol",
        "a debugger shows the name at another place",
        "correct the value, or the hunk's size in the table",
    ),
    "NoEntry": Kind(
        7,
        "the first hunk has no content",
        "the word of the content block",
        "a program begins with its first byte: zeros would run",
        "put what begins the program into the first hunk",
    ),
    "MemoryIgnored": Kind(
        8,
        "a content block asks for a memory that the table does not ask for",
        "the word of the content block",
        "LoadSeg reads the table alone, so graphics may miss chip memory",
        "set the same bits in the size word of the table",
    ),
}
