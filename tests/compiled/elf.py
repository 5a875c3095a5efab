"""Makes load files of what compilers for the 68000 write as ELF. Each section that is loaded becomes a hunk, those with
code first, and each R_68K_32 a relocation. Relocations of other types count from their own place, or through a table of
addresses, and need none."""

import collections
import struct
from typing import NamedTuple

EXECUTABLE = 2
RELA, NOBITS, SYMTAB = 4, 8, 2
ALLOC, CODE, TLS = 2, 4, 0x400
R_68K_32 = 1
SECTION_SYMBOL = 3
MASK = 0xFFFFFFFF


class Section(NamedTuple):
    number: int
    kind: int
    flags: int
    address: int
    content: bytes
    size: int
    link: int
    info: int

    @property
    def is_hunk(self):
        return self.flags & (ALLOC | TLS) == ALLOC and self.kind != RELA and self.size > 0

    @property
    def longs(self):
        return (self.size + 3) // 4


class Symbol(NamedTuple):
    name: bytes
    value: int
    kind: int
    section: int


class Elf:
    """The sections, symbols and relocations of an ELF file whose high byte comes first."""

    def __init__(self, data):
        self.is_linked = struct.unpack_from(">H", data, 16)[0] == EXECUTABLE
        (at,), (size, count) = struct.unpack_from(">I", data, 32), struct.unpack_from(">HH", data, 46)
        self.sections = [self._section(data, i, at + size * i) for i in range(count)]
        table = next((it for it in self.sections if it.kind == SYMTAB), None)
        self.symbols = [*self._symbols(table)] if table else []

    @staticmethod
    def _section(data, number, head):
        _, kind, flags, address, place, size, link, info = struct.unpack_from(">8I", data, head)
        content = b"" if kind == NOBITS else data[place : place + size]
        return Section(number, kind, flags, address, content, size, link, info)

    def _symbols(self, table):
        names = self.sections[table.link].content
        for name, value, _, info, _, section in struct.iter_unpack(">IIIBBH", table.content):
            yield Symbol(names[name : names.index(b"\0", name)], value, info & 15, section)

    def hunks(self):
        """The sections that are hunks: those with code come first, as a program begins there."""
        return sorted((it for it in self.sections if it.is_hunk), key=lambda it: not it.flags & CODE)

    def relocations(self):
        """Each R_68K_32: the number of its section, where it stands there, its symbol, and what is added to this."""
        for it in self.sections:
            if it.kind != RELA:
                continue
            start = self.sections[it.info].address if self.is_linked else 0
            for place, which, addend in struct.iter_unpack(">IIi", it.content):
                if which & 0xFF == R_68K_32:
                    yield it.info, place - start, self.symbols[which >> 8], addend


class Converter:
    """Makes a load file. What a converter may get wrong stands in functions of their own, which faults.py has wrong."""

    def value(self, address, target, hunks):
        """What the content has to have at a relocation."""
        return address - (target.address if self.elf.is_linked else 0)

    def target(self, number, count):
        return number

    def offsets(self, offset, section):
        return (offset,)

    def patch(self, content, offset, value):
        struct.pack_into(">I", content, offset, value & MASK)

    def is_relocated(self, section):
        return True

    def convert(self, elf):
        """The load file, and how many relocations it has."""
        self.elf = elf
        hunks = elf.hunks()
        content = {it.number: bytearray(it.content) for it in hunks}
        relocated = self._relocate(hunks, content)
        words = [0x3F3, 0, len(hunks), 0, len(hunks) - 1, *(it.longs for it in hunks)]
        for it in hunks:
            words += self._content(it, content[it.number])
            words += (*self._groups(relocated[it.number]), *self._names(it), 0x3F2)
        count = sum(len(offsets) for groups in relocated.values() for offsets in groups.values())
        return struct.pack(f">{len(words)}I", *words), count

    def _relocate(self, hunks, content):
        """The offsets of each section, by their targets. The content gets what stands at them."""
        numbers = {it.number: i for i, it in enumerate(hunks)}
        relocated = {it.number: collections.defaultdict(list) for it in hunks}
        for number, offset, symbol, addend in self.elf.relocations():
            target = self._target_of(symbol, numbers, hunks)
            if number not in numbers or target is None or not self.is_relocated(self.elf.sections[number]):
                continue
            value = self.value(symbol.value + addend, target, hunks)
            self.patch(content[number], offset, value)
            which = self.target(numbers[target.number], len(hunks))
            relocated[number][which] += self.offsets(offset, self.elf.sections[number])
        return relocated

    def _target_of(self, symbol, numbers, hunks):
        """The section that a symbol leads to. A linker has some that it makes itself stand in none."""
        if symbol.section in numbers:
            return self.elf.sections[symbol.section]
        there = [it for it in hunks if self.elf.is_linked and it.address <= symbol.value <= it.address + it.size]
        return max(there, key=lambda it: it.address, default=None)

    @staticmethod
    def _content(section, content):
        if section.kind == NOBITS:
            return 0x3EB, section.longs
        longs = struct.unpack(f">{section.longs}I", bytes(content).ljust(4 * section.longs, b"\0"))
        return 0x3E9 if section.flags & CODE else 0x3EA, section.longs, *longs

    @staticmethod
    def _groups(groups):
        if not groups:
            return ()
        return 0x3EC, *(it for target, offsets in groups.items() for it in (len(offsets), target, *offsets)), 0

    def _names(self, section):
        """A SYMBOL block, of the names that the section has."""
        start, words = section.address if self.elf.is_linked else 0, []
        for it in self.elf.symbols:
            if it.section == section.number and it.name and it.kind != SECTION_SYMBOL:
                longs = (len(it.name) + 3) // 4
                words += [longs, *struct.unpack(f">{longs}I", it.name.ljust(4 * longs, b"\0")), it.value - start & MASK]
        return (0x3F0, *words, 0) if words else ()
