"""Files of ELF for the 68000, of 32 bits and high byte first: sections, symbols, relocations, and what is loaded.

bindings/javascript/elf.js writes the same bytes."""

from __future__ import annotations

import struct

from hunk.tuples import NamedTuple

TYPE_CHECKING = False
if TYPE_CHECKING:
    from typing import Dict, List, Sequence

RELOCATABLE, EXECUTABLE = 1, 2
PROGBITS, SYMTAB, STRTAB, RELA, NOBITS = 1, 2, 3, 4, 8
WRITE, ALLOC, CODE, INFO_LINK = 1, 2, 4, 0x40
# What a symbol belongs to that is in no section.
UNDEFINED, ABSOLUTE, COMMON = -1, 0xFFF1, 0xFFF2
LOCAL, GLOBAL, OF_SECTION = 0, 1, 3
# R_68K_32 and the others: by the bytes, and whether they count from their own place.
RELOCATIONS = {(4, False): 1, (2, False): 2, (1, False): 3, (4, True): 4, (2, True): 5, (1, True): 6}
M68K, LOADED, READ_WRITE, READ_RUN = 4, 1, 6, 5
HEADER = struct.Struct(">16sHHIIIIIHHHHHH")
SECTION, SEGMENT = struct.Struct(">10I"), struct.Struct(">8I")
SYMBOL, RELOCATION = struct.Struct(">IIIBBH"), struct.Struct(">IIi")
STEP = 4


class Relocation(NamedTuple):
    """What is added at an offset: a symbol, by its place among them, and a number; or a section where `section` is one."""

    offset: int
    kind: int
    addend: int
    symbol: int = -1
    section: int = -1


class Section(NamedTuple):
    """A part of memory. Without content it is `size` zero bytes, which the file does not have."""

    name: bytes
    flags: int
    address: int
    size: int
    content: bytes
    relocations: Sequence[Relocation] = ()


class Symbol(NamedTuple):
    """A name with its value. `section` counts from 0, or is UNDEFINED, ABSOLUTE or COMMON."""

    name: bytes
    value: int
    section: int
    binding: int = LOCAL
    size: int = 0


class Names:
    """A table of names, each ended by a zero byte, and each there once."""

    def __init__(self) -> None:
        self.bytes = bytearray(1)
        self._places: Dict[bytes, int] = {b"": 0}

    def place(self, name: bytes) -> int:
        if name not in self._places:
            self._places[name] = len(self.bytes)
            self.bytes += name + b"\0"
        return self._places[name]


class Writer:
    """Puts parts one after the other, each at a multiple of 4, and notes the heads of sections."""

    def __init__(self, start: int) -> None:
        self.bytes, self.names = bytearray(start), Names()
        self.heads = [bytes(SECTION.size)]

    def put(self, content: bytes) -> int:
        """Puts a part, and answers where it stands."""
        self.bytes += bytes(-len(self.bytes) % STEP)
        place = len(self.bytes)
        self.bytes += content
        return place

    def add(self, section: Section, kind: int, link: int = 0, info: int = 0, step: int = 0) -> int:
        """Adds a section, and answers where its content stands. An address that is no multiple of 4 has no alignment."""
        place = self.put(section.content)
        align = 1 if kind == STRTAB or section.address % STEP else STEP
        name = self.names.place(section.name)
        self.heads.append(SECTION.pack(name, kind, section.flags, section.address, place, section.size, link, info, align, step))
        return place


def table(name: bytes, content: bytes, flags: int = 0) -> Section:
    """A section that is not loaded."""
    return Section(name, flags, 0, len(content), content)


def index_of(section: int) -> int:
    """The number of a symbol's section in the file."""
    return section if section >= ABSOLUTE else section + 1


def symbol_rows(sections: Sequence[Section], ordered: Sequence[Symbol], strings: Names) -> bytes:
    """The table of symbols: an empty one, one for each section, and those with names."""
    rows = [bytes(SYMBOL.size)]
    rows += [SYMBOL.pack(0, it.address, 0, OF_SECTION, 0, i + 1) for i, it in enumerate(sections)]
    rows += [SYMBOL.pack(strings.place(it.name), it.value, it.size, it.binding << 4, 0, index_of(it.section)) for it in ordered]
    return b"".join(rows)


def relocation_rows(section: Section, places: Sequence[int]) -> bytes:
    """The relocations of a section. A symbol of theirs stands at its place in the table; a section's own is before them."""
    which = ((it, places[it.symbol] if it.section < 0 else it.section + 1) for it in section.relocations)
    return b"".join(RELOCATION.pack(it.offset, symbol << 8 | it.kind, it.addend) for it, symbol in which)


def put_sections(writer: Writer, sections: Sequence[Section]) -> List[bytes]:
    """Puts the sections that are memory. Answers a segment for each that has bytes."""
    segments = []
    for it in sections:
        place = writer.add(it, PROGBITS if it.content else NOBITS)
        access = READ_RUN if it.flags & CODE else READ_WRITE
        if it.size:
            segments.append(SEGMENT.pack(LOADED, place, it.address, it.address, len(it.content), it.size, access, 1))
    return segments


def put_tables(writer: Writer, sections: Sequence[Section], symbols: Sequence[Symbol]) -> None:
    """Puts the symbols, those that only this file knows before the others, and the relocations of each section."""
    order = sorted(range(len(symbols)), key=lambda i: symbols[i].binding)
    first, strings = 1 + len(sections), Names()
    places = [0] * len(symbols)
    for n, i in enumerate(order):
        places[i] = first + n
    rows = symbol_rows(sections, [symbols[i] for i in order], strings)
    local = first + sum(it.binding == LOCAL for it in symbols)
    writer.add(table(b".symtab", rows), SYMTAB, first + 1, local, SYMBOL.size)
    writer.add(table(b".strtab", bytes(strings.bytes)), STRTAB)
    for i, section in enumerate(sections):
        if section.relocations:
            rows = relocation_rows(section, places)
            writer.add(table(b".rela" + section.name, rows, INFO_LINK), RELA, first, i + 1, RELOCATION.size)


def write(kind: int, sections: Sequence[Section], symbols: Sequence[Symbol], entry: int = 0) -> bytes:
    """The bytes of a file. Where it is executable, each section is loaded to its address."""
    count = sum(it.size > 0 for it in sections) if kind == EXECUTABLE else 0
    writer = Writer(HEADER.size + SEGMENT.size * count)
    segments = put_sections(writer, sections)[:count]
    put_tables(writer, sections, symbols)
    writer.names.place(b".shstrtab")
    writer.add(table(b".shstrtab", bytes(writer.names.bytes)), STRTAB)
    heads = writer.put(b"".join(writer.heads))
    of_segments = (HEADER.size, SEGMENT.size) if count else (0, 0)
    head = HEADER.pack(b"\x7fELF\1\2\1", kind, M68K, 1, entry, of_segments[0], heads, 0, HEADER.size, of_segments[1], count,
                       SECTION.size, len(writer.heads), len(writer.heads) - 1)
    front = head + b"".join(segments)
    writer.bytes[: len(front)] = front
    return bytes(writer.bytes)
