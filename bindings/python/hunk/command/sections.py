"""What a hunk file is in ELF: a section for each hunk, its names, and what changes its bytes."""

from __future__ import annotations

import hunk
from hunk.command import elf, words
from hunk.command.layout import COMMON, Layout, Patch, patches

TYPE_CHECKING = False
if TYPE_CHECKING:
    from typing import Dict, Iterator, List, Sequence

# The name of a hunk's section, and its flags.
FORMS = {hunk.Kind.CODE: (b".text", elf.ALLOC | elf.CODE), hunk.Kind.DATA: (b".data", elf.ALLOC | elf.WRITE),
         hunk.Kind.BSS: (b".bss", elf.ALLOC | elf.WRITE)}
# What counts from its own place, and what does not. Others count from a base register.
FROM_HERE = (hunk.Kind.RELOC16, hunk.Kind.RELOC8, hunk.Kind.RELRELOC32, hunk.EntryKind.REF16, hunk.EntryKind.REF8,
             hunk.EntryKind.RELREF32, hunk.EntryKind.RELCOMMON)
ABSOLUTE = (hunk.Kind.RELOC32, hunk.Kind.ABSRELOC16, hunk.EntryKind.REF32, hunk.EntryKind.COMMON, hunk.EntryKind.ABSREF16,
            hunk.EntryKind.ABSREF8)
# A branch of 8 bits counts from the byte after its own, and whether a linker for the Amiga adds that is not known.
NOT_TRIED = (hunk.Kind.RELOC8, hunk.EntryKind.REF8)
# Each hunk may have a section for its relocations, too, and numbers from FF00 on mean something else.
MOST_HUNKS = 0x7F00


class NoForm(Exception):
    """Says what of a file has no form in the other format, and at which byte it stands."""

    def __init__(self, place: int, text: str) -> None:
        super().__init__(f"byte {place}: {text}")


# ---- What has no form.


def refuse_twice(file: hunk.File, found: Sequence[Patch]) -> None:
    """Refuses bytes that are changed twice: ELF does not add there, the last one counts."""
    ordered = sorted(found, key=lambda it: (it.unit, it.hunk, it.offset))
    for one, other in zip(ordered, ordered[1:]):
        if (one.unit, one.hunk) == (other.unit, other.hunk) and other.offset < one.offset + one.width:
            which = words.hunk_text(file, other.unit, other.hunk)
            told = f"the bytes at {one.offset:#x} and {other.offset:#x} of hunk {which} are relocated, and overlap"
            raise NoForm(other.place, f"{told}: ELF does not add twice")


def refuse_kind(patch: Patch) -> None:
    if patch.kind not in (*FROM_HERE, *ABSOLUTE):
        raise NoForm(patch.place, f"{patch.kind.name} has no form in ELF: it counts from a base register")
    if patch.kind in NOT_TRIED:
        raise NoForm(patch.place, f"{patch.kind.name} is not converted: from which byte it counts is not known for sure")


def refuse_units(file: hunk.File) -> None:
    """Refuses what can't be one file of ELF."""
    if file.findings:
        it = file.findings[0]
        raise NoForm(it.place, f"{it.fault}: an offset or a target that is wrong has no form in ELF")
    if len(file.units) > 1:
        raise NoForm(file.units[1].place, f"there are {len(file.units)} units, and a file of ELF is one")
    if len(file.hunks) > MOST_HUNKS:
        raise NoForm(0, f"there are {len(file.hunks)} hunks, and a file of ELF has at most {MOST_HUNKS}")


# ---- Names. The library ends each at its first zero byte, as ELF does.


def merged(known: elf.Symbol, entry: hunk.Entry) -> elf.Symbol:
    """What a name is that an entry has once more: as it is defined, else a common block, else undefined."""
    new = symbol_of(entry)
    if known.section == elf.UNDEFINED:
        return new
    if known.section == elf.COMMON and new.section != elf.UNDEFINED:
        return new._replace(size=max(known.size, new.size)) if new.section == elf.COMMON else new
    if new.section not in (elf.UNDEFINED, elf.COMMON):
        raise NoForm(entry.place, f"{words.text_of(new.name)} is defined twice")
    return known


def symbol_of(entry: hunk.Entry) -> elf.Symbol:
    """The symbol of an entry of an EXT block. The value of a common block is what it is aligned to."""
    if entry.kind == hunk.EntryKind.SYMB:
        return elf.Symbol(entry.name, entry.value, entry.hunk)
    if entry.kind == hunk.EntryKind.DEF:
        return elf.Symbol(entry.name, entry.value, entry.hunk, elf.GLOBAL)
    if entry.kind == hunk.EntryKind.ABS:
        return elf.Symbol(entry.name, entry.value, elf.ABSOLUTE, elf.GLOBAL)
    if entry.kind in COMMON:
        return elf.Symbol(entry.name, elf.STEP, elf.COMMON, elf.GLOBAL, entry.value)
    return elf.Symbol(entry.name, 0, elf.UNDEFINED, elf.GLOBAL)


def symbols_of(file: hunk.File) -> List[elf.Symbol]:
    """The names of a file: those that only a debugger needs, and then each of EXT blocks once. An empty one is left out."""
    found: Dict[bytes, elf.Symbol] = {}
    own = [elf.Symbol(it.name, it.value, it.hunk) for it in file.symbols]
    for entry in file.entries:
        it = symbol_of(entry)
        if it.binding == elf.LOCAL:
            own.append(it)
        elif it.name:
            found[it.name] = merged(found[it.name], entry) if it.name in found else it
        elif entry.references:
            raise NoForm(entry.place, "what is referred to has no name")
    return [*(it for it in own if it.name), *found.values()]


# ---- Sections.


def section_name(it: hunk.Hunk) -> bytes:
    memory = "" if it.memory == "any" else f".{it.memory}"
    return FORMS[it.kind or hunk.Kind.BSS][0] + f".hunk{it.number}{memory}".encode()


def are_zero(file: hunk.File) -> List[bool]:
    """Of each hunk whether it is zero in memory: BSS, of which nothing is relocated."""
    changed = {(it.unit, it.hunk) for it in patches(file)}
    return [it.kind == hunk.Kind.BSS and (it.unit, it.number) not in changed for it in file.hunks]


def relocation(layout: Layout, patch: Patch, places: Dict[bytes, int]) -> elf.Relocation:
    """What changes bytes of a hunk, by the section or the name that they refer to."""
    refuse_kind(patch)
    value = layout.value_at(layout.places[patch.unit, patch.hunk], patch.offset, patch.width)
    sign = 1 << (8 * patch.width - 1)
    kind = elf.RELOCATIONS[patch.width, patch.kind in FROM_HERE]
    addend = (value + sign) % (2 * sign) - sign
    if patch.target < 0:
        return elf.Relocation(patch.offset, kind, addend, symbol=places[patch.name])
    return elf.Relocation(patch.offset, kind, addend, section=patch.target)


def sections_of(file: hunk.File, memory: Sequence[bytes], addresses: Sequence[int],
                relocations: Dict[int, List[elf.Relocation]]) -> List[elf.Section]:
    rows = zip(file.hunks, memory, addresses)
    return [elf.Section(section_name(it), FORMS[it.kind or hunk.Kind.BSS][1], address, it.size, content,
                        relocations.get(it.number, ())) for it, content, address in rows]


def contents(layout: Layout) -> Iterator[bytes]:
    """What a linker starts from: the content of each hunk with zeros after it, nothing where all is zero."""
    for place, is_zero in zip(layout.places.values(), are_zero(layout.file)):
        yield b"" if is_zero else layout.content(place).ljust(place.hunk.size, b"\0")


def relocatable(file: hunk.File) -> bytes:
    """The file of ELF that a linker takes."""
    refuse_units(file)
    layout, found, symbols = Layout(file), [*patches(file)], symbols_of(file)
    refuse_twice(file, found)
    places = {it.name: i for i, it in enumerate(symbols) if it.binding == elf.GLOBAL}
    relocations: Dict[int, List[elf.Relocation]] = {}
    for it in found:
        relocations.setdefault(it.hunk, []).append(relocation(layout, it, places))
    addresses = [0] * len(file.hunks)
    return elf.write(elf.RELOCATABLE, sections_of(file, [*contents(layout)], addresses, relocations), symbols)


def program(file: hunk.File, base: int, memory: Sequence[bytes]) -> bytes:
    """The program of ELF that is loaded at the base, of which this is the memory. It begins where its first hunk does."""
    refuse_units(file)
    places = Layout(file, base).places
    addresses = [it.base % (1 << 32) for it in places.values()]
    symbols = [elf.Symbol(it.name, (addresses[it.hunk] + it.value) % (1 << 32), it.hunk) for it in file.symbols]
    kept = [b"" if is_zero else it for it, is_zero in zip(memory, are_zero(file))]
    return elf.write(elf.EXECUTABLE, sections_of(file, kept, addresses, {}), [it for it in symbols if it.name], base)
