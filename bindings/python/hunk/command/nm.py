"""Lists the names of files, as GNU nm does."""

from __future__ import annotations

import argparse

import hunk
from hunk.command import inputs, jsonlines, words
from hunk.command.layout import COMMON, Layout
from hunk.tuples import NamedTuple

TYPE_CHECKING = False
if TYPE_CHECKING:
    from typing import Any, Dict, Iterator, Optional

NAME = "nm"
HELP = "the names of files with their values, as GNU nm prints them"
DESCRIPTION = """Lists the names of each file, sorted: T, D and B are names in CODE, DATA and BSS, A absolute values, C
common blocks with their bytes, and U other names that are referred to. A value is an address, with the
hunks one after the other from 0 or --base on."""

LETTERS = {hunk.Kind.CODE: "T", hunk.Kind.DATA: "D", hunk.Kind.BSS: "B"}


class Name(NamedTuple):
    """A name as it is listed. `is_external` is whether an EXT block has it; others are a debugger's."""

    name: bytes
    value: int
    letter: str
    is_external: bool


def add_arguments(parser: argparse.ArgumentParser) -> None:
    inputs.add_arguments(parser, json="name")
    parser.add_argument("-A", "-o", "--print-file-name", dest="with_file", action="store_true", help="the file before each name")
    parser.add_argument("-g", "--extern-only", dest="external", action="store_true", help="only names of EXT blocks")
    parser.add_argument("-n", "--numeric-sort", dest="by_value", action="store_true", help="sorted by value")
    parser.add_argument("-u", "--undefined-only", dest="undefined", action="store_true", help="only names that are not defined")
    parser.add_argument("--base", metavar="HEX", type=words.address, default=0, help="the address of the first hunk")


def of_entry(entry: hunk.Entry, letter: str, base: int) -> Name:
    """The name of an entry in a hunk with this letter and base."""
    if entry.kind in COMMON:
        return Name(entry.name, entry.value, "C", True)
    if entry.kind > hunk.EntryKind.ABS:
        return Name(entry.name, 0, "U", True)
    if entry.kind == hunk.EntryKind.ABS:
        return Name(entry.name, entry.value, "A", True)
    return Name(entry.name, (base + entry.value) % (1 << 32), letter, entry.kind == hunk.EntryKind.DEF)


def names_of(file: hunk.File, base: int) -> Iterator[Name]:
    """The names of a file. What is referred to in several hunks is one name."""
    places = Layout(file, base).places
    for symbol in file.symbols:
        place = places[symbol.unit, symbol.hunk]
        yield Name(symbol.name, (place.base + symbol.value) % (1 << 32), LETTERS[place.block.kind], False)
    undefined: set[bytes] = set()
    for entry in file.entries:
        place = places[entry.unit, entry.hunk]
        name = of_entry(entry, LETTERS[place.block.kind], place.base)
        if name.letter != "U" or name.name not in undefined:
            yield name
        if name.letter == "U":
            undefined.add(name.name)


def by_value(it: Name) -> tuple[int, int, bytes]:
    """Names without an address first, as their values are none."""
    return "UC".find(it.letter) % 3, it.value, it.name


def line(name: Name) -> str:
    value = " " * 8 if name.letter == "U" else f"{name.value:08x}"
    return f"{value} {name.letter} {words.text_of(name.name)}"


def object_of(file: str, name: Name) -> Dict[str, Any]:
    """The same as an object. A name of the file is taken for ISO 8859-1."""
    value = None if name.letter == "U" else name.value
    return {"name": file, "value": value, "letter": name.letter, "symbol": name.name.decode("latin-1"), "external": name.is_external}


def print_names(name: str, file: hunk.File, options: argparse.Namespace, head: Optional[str]) -> None:
    """The names of a file that are asked for."""
    found = [*names_of(file, options.base)]
    if not found:
        inputs.say(name, "no symbols")
    found = [it for it in found if it.is_external >= options.external and (it.letter == "U" or not options.undefined)]
    if head is not None and not options.with_file and not options.json:
        print(head)
    for it in sorted(found, key=by_value if options.by_value else None):
        print(jsonlines.text_of(object_of(name, it)) if options.json else f"{name}:{line(it)}" if options.with_file else line(it))


def run(options: argparse.Namespace) -> int:
    has_heads = inputs.are_many(options.names)
    return inputs.each(options, lambda name, file: print_names(name, file, options, f"\n{name}:" if has_heads else None))
