"""Writes a file with other memory, symbols, contents, or more hunks."""

from __future__ import annotations

import argparse
import os

import hunk
from hunk.command import inputs, making, outputs, words
from hunk.rows import MEMORY
from hunk.tuples import NamedTuple

TYPE_CHECKING = False
if TYPE_CHECKING:
    from typing import Any, Callable, Iterator, List, Tuple

NAME = "edit"
HELP = "write a file with other memory, symbols or contents of its hunks, or with more hunks"
DESCRIPTION = """Reads the load file or object file IN, changes it, and writes it to OUT. Hunks are named by their numbers, those of
object files as UNIT.HUNK, of the first unit also as HUNK. Hunks that are appended come first, so they can be named.
What follows a load file is left out. The file that comes of it has to be one that is accepted: relocations stay as
they are, and where one is past the end of a shorter content, that is refused. Then OUT stays as it was; it is
written whole or not at all, so it may be IN itself. `-` is standard input, and standard output. The lines
`wrote N bytes` and `rest N bytes left out` say what was written, unless OUT is standard output."""

ATTRIBUTES = "attributes"


class Which(NamedTuple):
    """A hunk of the command line."""

    unit: int
    hunk: int


class Appended(NamedTuple):
    """A hunk to append: its type, and the name of its content, or for BSS its bytes."""

    kind: hunk.Kind
    name: str
    size: int


# ---- What the command line says.


def split(text: str) -> Tuple[str, str]:
    """What stands before `=`, and after it."""
    before, is_there, after = text.partition("=")
    if not is_there:
        raise argparse.ArgumentTypeError(f"{text!r} has no =")
    return before, after


def which(text: str) -> Which:
    """A hunk, as HUNK or UNIT.HUNK."""
    unit, is_there, number = text.rpartition(".")
    return Which(words.count(unit) if is_there else 0, words.count(number))


def memory(text: str) -> Tuple[Which, str, int]:
    number, word = split(text)
    if word in MEMORY[:-1]:
        return which(number), word, 0
    return which(number), ATTRIBUTES, words.address(word)


def content(text: str) -> Tuple[Which, str]:
    number, name = split(text)
    return which(number), name


def appended(text: str) -> Appended:
    kind, name = split(text)
    if kind not in ("CODE", "DATA", "BSS"):
        raise argparse.ArgumentTypeError(f"{kind!r} is none of CODE, DATA and BSS")
    return Appended(hunk.Kind[kind], name, words.count(name) if kind == "BSS" else 0)


def add_arguments(parser: argparse.ArgumentParser) -> None:
    options: Tuple[Tuple[str, str, Callable[[str], Any], str], ...] = (
        ("--memory", "HUNK=MEMORY", memory, "any, chip, fast, or the attributes of AllocMem in hexadecimal digits"),
        ("--symbols", "MAP", str, "a file of lines HUNK OFFSET NAME, the offset in hexadecimal digits; each hunk that it names gets"
         " these symbols in place of its own"),
        ("--content", "HUNK=FILE", content, "the bytes of FILE as the content of the hunk, CODE or DATA"),
        ("--append", "KIND=FILE", appended, "a hunk at the end: CODE or DATA with the bytes of FILE, or BSS=N of N bytes"),
    )
    for name, value, kind, said in options:
        parser.add_argument(name, metavar=value, type=kind, action="append", default=[], help=said)
    parser.set_defaults(refuse=parser.error)
    outputs.add_arguments(parser)


def read_names(options: argparse.Namespace) -> List[str]:
    """The names of all files that are read."""
    contents = [name for _, name in options.content] + [it.name for it in options.append if it.kind != hunk.Kind.BSS]
    return [options.name, *options.symbols, *contents]


# ---- Changing the file.


def symbol_of(line: bytes) -> Tuple[Which, Tuple[bytes, int]]:
    """A line of a map. What is none is an ArgumentTypeError."""
    fields = line.split(None, 2)
    if len(fields) != 3:
        raise argparse.ArgumentTypeError("a line has a hunk, an offset and a name")
    number, offset = (it.decode("ascii", "replace") for it in fields[:2])
    return which(number), (fields[2].rstrip(), words.address(offset))


def symbols_of(name: str) -> Iterator[Tuple[Which, Tuple[bytes, int]]]:
    """The symbols of a map, each with its hunk. Empty lines have none."""
    for i, line in enumerate(making.read(name).splitlines(), 1):
        try:
            if line.strip():
                yield symbol_of(line)
        except argparse.ArgumentTypeError as error:
            raise making.NotMade(words.printed(os.fsencode(name)), f"line {i}: {error}") from None


def set_symbols(edit: hunk.Edit, names: List[str]) -> None:
    found: dict[Which, List[Tuple[bytes, int]]] = {}
    for name in names:
        for where, symbol in symbols_of(name):
            found.setdefault(where, []).append(symbol)
    for where, symbols in found.items():
        edit.set_symbols(where.hunk, symbols, where.unit)


def change(edit: hunk.Edit, options: argparse.Namespace) -> None:
    """Does all that the options say."""
    for it in options.append:
        is_bss = it.kind == hunk.Kind.BSS
        edit.append(it.kind, b"" if is_bss else making.read(it.name), (it.size + 3) // 4)
    for where, word, attributes in options.memory:
        edit.set_memory(where.hunk, word, attributes, where.unit)
    for where, name in options.content:
        edit.set_content(where.hunk, making.read(name), where.unit)
    set_symbols(edit, options.symbols)


def making_of(name: str, file: hunk.File, options: argparse.Namespace) -> Callable[[], bytes]:
    """What makes OUT of the file with this printed name."""
    def make() -> bytes:
        try:
            edit = hunk.Edit(file.data)
            change(edit, options)
            return making.built(name, edit.parts)
        except hunk.EditError as error:
            raise making.NotMade(name, str(error)) from None
        except MemoryError as error:
            raise making.NotMade(name, inputs.explained(inputs.alone(error))) from None

    return make


def run(options: argparse.Namespace) -> int:
    if read_names(options).count("-") > 1:
        options.refuse("standard input is named twice")
    found = inputs.Found(os.fsencode(options.name), True)
    file = inputs.opened(found, options.wide)
    if file is None:
        return 1
    return making.write(options.out, making_of(words.printed(found.name), file, options), len(file.data) - file.size)
