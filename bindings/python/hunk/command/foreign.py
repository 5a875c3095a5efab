"""What a file is by its first bytes, where it is no hunk file; and what load files of one kind are. `docs/foreign` writes the table
from docs/foreign.tsv: the first row that fits counts."""

from __future__ import annotations

import hunk
from hunk.command.inputs import FIRST
from hunk.command.layout import CONTENTS
from hunk.tuples import NamedTuple

TYPE_CHECKING = False
if TYPE_CHECKING:
    from typing import Optional


class Sign(NamedTuple):
    """Bytes at a place, in hexadecimal digits with `??` for any byte, and what a file is that has them there."""

    place: int
    digits: str
    what: str

    def fits(self, first: bytes) -> bool:
        found = first[self.place : self.place + len(self.digits) // 2].hex().upper()
        return len(found) == len(self.digits) and all(one in ("?", other) for one, other in zip(self.digits, found))


SIGNS = (
    Sign(0, "7F454C46", "ELF file (AROS, AmigaOS 4, MorphOS, Unix)"),
    Sign(0, "464F524D????????494C424D", "IFF ILBM picture"),
    Sign(0, "464F524D????????38535658", "IFF 8SVX sound"),
    Sign(0, "464F524D????????414E494D", "IFF ANIM animation"),
    Sign(0, "464F524D????????46545854", "IFF FTXT text"),
    Sign(0, "464F524D????????43544C47", "IFF CTLG catalog"),
    Sign(0, "464F524D????????50524546", "IFF PREF preferences"),
    Sign(0, "464F524D????????????????", "IFF file"),
    Sign(0, "E3100001", "icon (.info)"),
    Sign(2, "2D6C68??2D", "LhA archive"),
    Sign(2, "2D6C7A??2D", "LhA archive"),
    Sign(0, "4C5A58", "LZX archive"),
    Sign(0, "504B0304", "zip archive"),
    Sign(0, "504B0506", "zip archive, empty"),
    Sign(0, "1F8B08", "gzip file"),
    Sign(0, "425A68", "bzip2 file"),
    Sign(0, "FD377A585A00", "xz file"),
    Sign(0, "377ABCAF271C", "7z archive"),
    Sign(0, "444D5321", "DMS disk archive"),
    Sign(0, "444F5300", "disk image, OFS"),
    Sign(0, "444F5301", "disk image, FFS"),
    Sign(0, "444F5302", "disk image, OFS international"),
    Sign(0, "444F5303", "disk image, FFS international"),
    Sign(0, "444F5304", "disk image, OFS with directory cache"),
    Sign(0, "444F5305", "disk image, FFS with directory cache"),
    Sign(0, "444F5306", "disk image, DOS 6"),
    Sign(0, "444F5307", "disk image, DOS 7"),
    Sign(0, "5244534B", "hard disk image"),
    Sign(0, "4B49434B", "Kickstart disk image"),
    Sign(0, "11114EF9", "Kickstart ROM"),
    Sign(0, "11144EF9", "Kickstart ROM"),
    Sign(0, "50503230", "PowerPacker data"),
    Sign(0, "58504B46", "XPK data"),
    Sign(0, "524E4301", "RNC data"),
    Sign(0, "524E4302", "RNC data"),
    Sign(0, "4D4D4430", "MED module"),
    Sign(0, "4D4D4431", "MED module"),
    Sign(0, "4D4D4432", "MED module"),
    Sign(0, "4D4D4433", "MED module"),
    Sign(1080, "4D2E4B2E", "ProTracker module"),
    Sign(257, "7573746172", "tar archive"),
    Sign(0, "2321", "script"),
    Sign(0, "40646174616261736520", "AmigaGuide text"),
    Sign(0, "474946383761", "GIF picture"),
    Sign(0, "474946383961", "GIF picture"),
    Sign(0, "89504E470D0A1A0A", "PNG picture"),
    Sign(0, "FFD8FF", "JPEG picture"),
    Sign(0, "25504446", "PDF file"),
)

# What a text may have of ASCII and ISO 8859-1: tab, line ends, form feed, escape, and what is printed.
TEXT = bytes((9, 10, 12, 13, 27)) + bytes(range(0x20, 0x7F)) + bytes(range(0xA0, 0x100))
# A slave of WHDLoad begins with a longword of code and these letters, by its whdload.i.
SLAVE = b"WHDLOADS"


def what_is(first: bytes) -> Optional[str]:
    """What a file is that begins so; None where that is not known."""
    first = first[:FIRST]
    found = next((it.what for it in SIGNS if it.fits(first)), None)
    if found or first.translate(None, TEXT):
        return found
    return "text" if first else "empty"


def what_is_accepted(file: hunk.File) -> str:
    """What a hunk file is."""
    if file.is_object:
        return "object file"
    first = next(file.content(it) for it in file.blocks if it.kind in CONTENTS)
    return "load file, WHDLoad slave" if first[4:12] == SLAVE else "load file"
