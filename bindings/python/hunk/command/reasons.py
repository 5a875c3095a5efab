"""The reasons for which files are refused, by their numbers. `docs/reasons` writes both tables from docs/reasons.tsv."""

from __future__ import annotations

import hunk
from hunk.tuples import NamedTuple

TYPE_CHECKING = False
if TYPE_CHECKING:
    from typing import Optional


class Reason(NamedTuple):
    """A reason by its name: its class, what it means, and what a developer of the file and an archive do about it."""

    name: str
    kind: str
    meaning: str
    developer: str
    archive: str


ROWS = {
    1: Reason("NotLoadFile", "no hunk file", "the first longword is not 3F3",
              "see whether it is the file that the linker wrote",
              "sort it by other tools: it may be data, a text, an icon or a disk image"),
    2: Reason("IsObject", "not supported", "a load file is needed, and this is an object file: link it first",
              "link it; show, validate and rewrite take it as it is",
              "keep it as an object file, and try it with validate"),
    3: Reason("Library", "not supported", "a library for a linker, with a LIB or INDEX block",
              "give it to a linker, and read what that writes",
              "keep it as a library: it is not known to be damaged"),
    4: Reason("Resident", "not supported", "the header names resident libraries, as for the first AmigaDOS",
              "link again, without resident libraries",
              "keep it: it is for the first AmigaDOS, or its second longword is damaged"),
    5: Reason("NoHunks", "damaged", "the header has a table of no hunks",
              "correct what wrote the header: a load file has at least one hunk",
              "keep it, mark it as damaged, and look for another copy"),
    6: Reason("TooManyHunks", "damaged", "the header has a table of more than 65,536 hunks",
              "correct the size of the table, or link into fewer hunks",
              "keep it, mark it as damaged, and look for another copy"),
    7: Reason("FirstHunk", "not supported", "the first hunk of the table is not 0",
              "link without overlays",
              "keep it: it is a program with overlays, or its header is damaged"),
    8: Reason("LastHunk", "not supported", "the last hunk is not the table size less 1, as in files with overlays",
              "link without overlays",
              "keep it: it is a program with overlays, or its header is damaged"),
    9: Reason("BothBits", "damaged", "a block word has bits 30 and 31 both set",
              "clear one of them, or correct a length before the word",
              "keep it, mark it as damaged, and look for another copy"),
    10: Reason("Advisory", "not judged", "reserved: no answer has this number",
              "nothing: it is never answered",
              "nothing: it is never answered"),
    11: Reason("Overlay", "not supported", "an OVERLAY block, of a file with overlays",
              "link without overlays",
              "keep it: it is a program with overlays, and not known to be damaged"),
    12: Reason("Break", "not supported", "a BREAK block, of a file with overlays",
              "link without overlays",
              "keep it: it is a program with overlays, and not known to be damaged"),
    13: Reason("ShortReloc", "not supported", "a block of short relocations, whose offsets have 16 bits",
              "read it with --wide, or link without short relocations",
              "keep it: it is for AmigaDOS from V37 on; try it with --wide"),
    14: Reason("NotInLoadFile", "not supported", "a block that only object files have: the file is only partly linked",
              "link it to its end, with nothing left open",
              "keep it: it is partly linked, and not known to be damaged"),
    15: Reason("Misplaced", "damaged", "a HEADER or UNIT where none may stand, or a block before the first UNIT",
              "correct a length before it, or cut files apart that were joined",
              "see whether it is two files in one; else mark it as damaged"),
    16: Reason("UnknownBlock", "damaged", "a type of block that is not known, without the bit of advisory blocks",
              "set bit 29 if readers may pass over it, or correct a length before it",
              "keep it, and note the type: it may be a vendor's own block"),
    17: Reason("SecondContent", "damaged", "a second CODE, DATA or BSS block in a hunk",
              "end each hunk with END before the next begins; --wide puts it in",
              "try it with --wide: what wrote it may leave END out; else mark it as damaged"),
    18: Reason("BeforeContent", "damaged", "a relocation or EXT block before the CODE, DATA or BSS block of its hunk",
              "write the blocks in the other order",
              "keep it, mark it as damaged, and look for another copy"),
    19: Reason("NoContent", "damaged", "a hunk ends without a CODE, DATA or BSS block",
              "give the hunk a BSS block, of size 0 if it has nothing",
              "keep it, mark it as damaged, and look for another copy"),
    20: Reason("ContentTooLong", "damaged", "more content than the hunk is declared to have",
              "correct the hunk's size in the table, or the size in the block",
              "keep it, mark it as damaged, and look for another copy"),
    21: Reason("NameWord", "damaged", "the top byte of the longword with the length of a name is not 0",
              "correct the length of the name, or a length before it",
              "keep it, mark it as damaged, and look for another copy"),
    22: Reason("NothingToRelocate", "damaged", "a relocation in a hunk of 0 bytes",
              "drop the relocation, or declare the hunk's size in the table",
              "keep it, mark it as damaged, and look for another copy"),
    23: Reason("BadTarget", "damaged", "the target of a relocation is no hunk of the file",
              "correct the target: hunks count from 0, those of this file alone",
              "keep it, mark it as damaged, and look for another copy"),
    24: Reason("BadOffset", "damaged", "a relocated longword runs past the end of its hunk",
              "correct the offset, or declare the hunk larger in the table",
              "keep it, mark it as damaged, and look for another copy"),
    25: Reason("ExtKind", "damaged", "an EXT entry of a type that is not known",
              "write a type that FORMAT.md lists, or correct a length before the entry",
              "keep it, and note the type: it may be an assembler's own"),
    26: Reason("Truncated", "damaged", "the input ends too soon",
              "see whether all of it was written and read, or correct a length before the end",
              "try it with --wide, as only its last END may be missing; else look for a longer copy"),
    27: Reason("Budget", "not judged", "the hunks declare more bytes than the budget allows",
              "give a larger budget, if the file is to be trusted with it",
              "try it with validate, which needs no budget"),
    28: Reason("FileLimit", "not judged", "as many bytes as may be read were read, and the file had not ended",
              "raise the limit; that of the program is fixed",
              "see whether it is a disk image or an archive: programs are smaller"),
    29: Reason("NoBase", "not judged", "a hunk has no base, or would pass the address 2^32",
              "load at a lower address, or give a base for each hunk",
              "try it with validate, which needs no address"),
    30: Reason("Read", "not judged", "the input could not be read",
              "read it again: the disk or the pipe failed",
              "read it again, or from another disk"),
    31: Reason("OutOfMemory", "not judged", "memory was refused",
              "free memory, or give a smaller budget",
              "try it again where more memory is free"),
}
# Those that are of another class where they are met at byte 0.
AT_0 = {
    26: Reason("Truncated", "no hunk file", "the input ends too soon",
              "see whether it was written at all: it has fewer than 4 bytes",
              "look for another copy: this one is empty, or nearly so"),
}
# Those that are of another class where a block has a word of this type, by both. The library tells just the reason.
AT_WORD = {
    (16, 0x4E9): Reason("UnknownBlock", "not supported", "a program with PowerPC code, in a CODE block of its own type",
              "keep it for a PowerPC, or link without PowerPC code",
              "keep it: it is for a 68000 with a PowerPC beside it, and not known to be damaged"),
    (16, 0x4EA): Reason("UnknownBlock", "not supported", "a program with PowerPC code, in a DATA block of its own type",
              "keep it for a PowerPC, or link without PowerPC code",
              "keep it: it is for a 68000 with a PowerPC beside it, and not known to be damaged"),
}
# What an offset of an object file may be wrong for, and what that means.
FINDINGS = {
    "BadTarget": "the target of the relocation at this offset is no hunk of its unit",
    "OutsideHunk": "what stands at this offset runs past the end of its hunk",
}

NOT_LOAD_FILE, FILE_LIMIT, OUT_OF_MEMORY = 1, 28, 31
NOT_JUDGED = "not judged"
CLASSES = ("no hunk file", "not supported", "damaged", NOT_JUDGED)
# The bits of a block word that are its type.
KIND_BITS = 0x1FFFFFFF
MEANINGS = {number: it.meaning for number, it in ROWS.items()}


def told_of(error: hunk.HunkError, data: Optional[bytes]) -> Optional[Reason]:
    """What else is known of a file that was refused so, by its bytes where they are there: by the place of the fault."""
    if error.place == 0 and error.number in AT_0:
        return AT_0[error.number]
    word = int.from_bytes((data or b"")[error.place : error.place + 4], "big")
    return AT_WORD.get((error.number, word & KIND_BITS))


def class_of(error: hunk.HunkError, data: Optional[bytes] = None) -> str:
    """What is known of the whole file that was refused so, of which these are the bytes."""
    row = told_of(error, data) or ROWS.get(error.number)
    return row.kind if row else NOT_JUDGED


def meaning_of(error: hunk.HunkError, data: Optional[bytes] = None) -> str:
    """Why the file was refused: in the words of the library, unless more is known."""
    row = told_of(error, data)
    return row.meaning if row else error.meaning


def kind_of_program(error: hunk.HunkError, data: Optional[bytes]) -> Optional[str]:
    """What a file is by the block for which it was refused; None where that says nothing."""
    row = told_of(error, data)
    return row.meaning if row and (error.place or error.number not in AT_0) else None
