"""Tells what is suspicious in load files, and wrong with the offsets of object files."""

from __future__ import annotations

import argparse

import hunk
from hunk.command import inputs, jsonlines, words
from hunk.command.reasons import FINDINGS
from hunk.command.warning_kinds import KINDS
from hunk.rows import MEMORY

TYPE_CHECKING = False
if TYPE_CHECKING:
    from typing import Any, Dict, Iterator, Sequence

NAME = "lint"
HELP = "what is suspicious in load files, and wrong in object files: a line each"
DESCRIPTION = """Tells of each file what a linker or a converter may have got wrong, though AmigaDOS loads it:

  NAME: byte N: hunk H: KIND: what is suspicious

Of an object file it tells the findings of `hunkinfo validate`, with the hunk 1 of the unit 2 as 2.1. `hunk
explain KIND` says what to do about it. Of a file that is spelled otherwise (--wide) places are those of the
plain spelling. With --json each line is an object with the fields of such a row, and its text.

Exit status: 0 where nothing is told, 1 where something is, 2 where a file was refused or could not be read."""

TOLD, REFUSED = 1, 2
TEXTS = {
    "OddOffset": "the longword at {offset:#x} is relocated, which a 68000 can't do at an odd address",
    "Twice": "the longword at {offset:#x} is relocated more than once",
    "Overlap": "the longwords at {offset:#x} and {other:#x} are relocated, and overlap",
    "InBss": "the longword at {offset:#x} is relocated, and the hunk is BSS, which a program takes for zeros",
    "OutsideTarget": "the longword at {offset:#x} points to {there}, outside the {size} of that hunk",
    "SymbolOutside": "{symbol} has the value {value:#x}, outside the {size} of its hunk",
    "NoEntry": "the first hunk has no content, and a program begins there",
    "MemoryIgnored": "the block asks for {asked} memory, and the table for {given}: AmigaDOS reads the table alone",
    "BadTarget": "the target of the relocation at {offset:#x} is no hunk of its unit",
    "OutsideHunk": "what stands at {offset:#x} runs past the end of its hunk",
}


def kinds() -> Sequence[str]:
    """What may be told, by name."""
    return *KINDS, *FINDINGS


def kind_named(text: str) -> str:
    """A kind of the command line, in small or capital letters."""
    found = {it.lower(): it for it in kinds()}
    if text.lower() not in found:
        raise argparse.ArgumentTypeError(f"{text!r} is none of {', '.join(found.values())}")
    return found[text.lower()]


def add_arguments(parser: argparse.ArgumentParser) -> None:
    inputs.add_arguments(parser, json="warning or finding")
    parser.add_argument("--ignore", metavar="KIND", action="append", default=[], type=kind_named,
                        help="do not tell of this kind; may be given more than once")


class Names:
    """The symbols of a file, by their places."""

    def __init__(self, file: hunk.File) -> None:
        self.file = file
        self._names: Dict[int, bytes] = {}

    def text(self, place: int) -> str:
        if not self._names:
            self._names = {it.place: it.name for it in self.file.symbols}
        name = words.text_of(self._names[place])
        return f"the symbol {name}" if name else "a symbol without a name"


def text_of(it: hunk.Warning, file: hunk.File, names: Names) -> str:
    """What is suspicious, in words."""
    told: Dict[str, Any] = it._asdict()
    if it.kind in ("OutsideTarget", "SymbolOutside"):
        told["size"] = words.counted(file.hunks[it.target].size, "byte")
    if it.kind == "OutsideTarget":
        told["there"] = words.place_text(str(it.target), it.value)
    elif it.kind == "SymbolOutside":
        told["symbol"] = names.text(it.place)
    elif it.kind == "MemoryIgnored":
        told["asked"], told["given"] = MEMORY[it.value], file.hunks[it.hunk].memory
    return TEXTS[it.kind].format(**told)


def rows_of(file: hunk.File) -> Iterator[Dict[str, Any]]:
    """What is told of a file, in its order. A load file has no findings, and an object file no warnings."""
    names = Names(file)
    for it in file.warnings:
        yield {"place": it.place, "unit": 0, **it._asdict(), "text": text_of(it, file, names)}
    for finding in file.findings:
        made = finding._asdict()
        kind = made.pop("fault")
        yield {**made, "kind": kind, "text": TEXTS[kind].format(**made)}


def line_of(row: Dict[str, Any], file: hunk.File) -> str:
    which = words.hunk_text(file, row["unit"], row["hunk"])
    return f"byte {row['place']}: hunk {which}: {row['kind']}: {row['text']}"


def run(options: argparse.Namespace) -> int:
    status = 0

    def tell(name: str, file: hunk.File) -> None:
        nonlocal status
        for row in rows_of(file):
            if row["kind"] not in options.ignore:
                status = TOLD
                print(jsonlines.text_of({"name": name, **row}) if options.json else f"{name}: {line_of(row, file)}")

    return REFUSED if inputs.each(options, tell) else status
