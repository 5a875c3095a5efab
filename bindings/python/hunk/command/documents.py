"""Writes what stands in files as JSON."""

from __future__ import annotations

import argparse
import errno
import json
import os
import pkgutil
import sys

import hunk
from hunk.command import inputs
from hunk.command.layout import CONTENTS
from hunk.command.parted import of_part
from hunk.command.words import flag_words, kind_word

TYPE_CHECKING = False
if TYPE_CHECKING:
    from typing import Any, Callable, Dict, Iterable, Iterator, List, Sequence

    Document = Dict[str, Any]

NAME = "json"
HELP = "what stands in files, a document of JSON each"
DESCRIPTION = """Writes a document of JSON for each file; where several files are named, a list of them. --schema says what
a document has. Names in files are taken for ISO 8859-1, so each byte of them is a character. Of a file
that is spelled otherwise (--wide) places are those of the plain spelling. Of a file that is refused,
--partial writes what stands before the fault, with its `refusal`. --parts adds all that the file says,
as one flat list."""

# The bytes that are kept free while a document is made, and how much of its text is written at once.
SPARE, PIECE = 1 << 22, 1 << 16


class PrintSchema(argparse.Action):
    """Prints the schema, and ends."""

    def __call__(self, *_: Any) -> None:
        sys.stdout.write((pkgutil.get_data("hunk.command", "hunk.schema.json") or b"").decode())
        sys.stdout.flush()
        sys.exit(0)


def add_arguments(parser: argparse.ArgumentParser) -> None:
    inputs.add_arguments(parser, partial=True)
    parser.add_argument("--parts", action="store_true", help="with the file as a flat list of parts, where it is accepted")
    parser.add_argument("--lines", action="store_true", help="each document on a line of its own, and no list")
    parser.add_argument("--schema", action=PrintSchema, nargs=0, help="print the JSON Schema of a document")


# ---- The parts of a document.


def taking(rows: Sequence[Any]) -> Callable[[int, int], Sequence[Any]]:
    """A call that gives the rows of a hunk, where it is asked for each hunk in the order of the file."""
    at = 0

    def take(unit: int, number: int) -> Sequence[Any]:
        nonlocal at
        start = at
        while at < len(rows) and (rows[at].hunk, rows[at].unit) == (number, unit):
            at += 1
        return rows[start:at]

    return take


def text_of(name: bytes) -> str:
    return name.decode("latin-1")


def of_block(file: hunk.File, it: hunk.Block) -> Document:
    made: Document = {"place": it.place, "bytes": it.bytes, "type": int(it.kind), "kind": kind_word(it.kind)}
    made["flags"] = flag_words(it.flags)
    if it.kind == hunk.Kind.NAME:
        made["name"] = text_of(file.content(it).split(bytes(1))[0])
    return made


def of_symbol(it: hunk.Symbol) -> Document:
    return {"place": it.place, "value": it.value, "name": text_of(it.name)}


def of_relocation(it: hunk.Relocation) -> Document:
    return {"place": it.place, "kind": it.kind.name, "offset": it.offset, "width": it.width, "target": it.target}


def of_entry(it: hunk.Entry) -> Document:
    references = [{"place": each.place, "offset": each.offset, "width": each.width} for each in it.references]
    return {"place": it.place, "kind": it.kind.name, "value": it.value, "name": text_of(it.name), "references": references}


def of_hunks(file: hunk.File) -> Iterator[Document]:
    """The hunks, each with all that it has."""
    tables: tuple[Sequence[Any], ...] = (file.blocks, file.symbols, file.relocations, file.entries)
    blocks, symbols, relocations, entries = map(taking, tables)
    for it in file.hunks:
        which = it.unit, it.number
        its_blocks = blocks(*which)
        content = next(((block.content, block.content_bytes) for block in its_blocks if block.kind in CONTENTS), (0, 0))
        yield {
            "unit": it.unit, "hunk": it.number, "kind": it.kind and kind_word(it.kind), "bytes": it.size,
            "memory": it.memory, "attributes": it.attributes,
            "content": {"place": content[0], "bytes": content[1]},
            "blocks": [of_block(file, block) for block in its_blocks],
            "symbols": [*map(of_symbol, symbols(*which))],
            "relocations": [*map(of_relocation, relocations(*which))],
            "entries": [*map(of_entry, entries(*which))],
        }


def of_refusal(error: hunk.HunkError) -> Document:
    return {"place": error.place, "reason": error.reason, "number": error.number, "meaning": error.meaning}


def of_file(name: str, file: hunk.File) -> Document:
    """What a document has in front of its hunks."""
    units = [{"place": it.place, "name": text_of(it.name), "hunks": it.hunks} for it in file.units]
    return {
        "name": name, "kind": "object" if file.is_object else "load",
        "bytes": file.size, "rest": len(file.data) - file.size,
        **({"refusal": of_refusal(file.refusal)} if file.refusal else {}),
        "spelling": {"short_blocks": file.spelling.short_blocks, "ends": file.spelling.ends},
        "units": units, "findings": [it._asdict() for it in file.findings],
        "warnings": [it._asdict() for it in file.warnings],
    }


# ---- Writing them.


def texts_of(name: str, file: hunk.File, line_end: str, with_parts: bool) -> Iterator[str]:
    """The text of a document, hunk by hunk, as what it is made of takes more memory than the text."""
    text, made = json.JSONEncoder().encode, json.dumps(of_file(name, file))[:-1] + ', "hunks": ['
    for it in of_hunks(file):
        yield made + line_end + text(it)
        made = ","
    # An object file may have no hunks.
    yield ("" if made == "," else made) + line_end + "]"
    if with_parts and not file.refusal:
        made = ', "parts": ['
        for part in hunk.parts(file.data):
            yield made + line_end + text(of_part(part))
            made = ","
        yield line_end + "]"
    yield "}"


def whole_texts(name: str, file: hunk.File, line_end: str, with_parts: bool) -> List[str]:
    """All of a document. Where memory is refused, nothing of it is written yet; else some is left to write it with."""
    spare = bytearray(SPARE)
    made = [*texts_of(name, file, line_end, with_parts)]
    del spare
    return made


def write(texts: Iterable[str]) -> None:
    """Writes texts, a little at a time. What is begun and can't go on is no JSON, so nothing may follow."""
    try:
        for text in texts:
            for start in range(0, len(text), PIECE):
                sys.stdout.write(text[start : start + PIECE])
    except MemoryError:
        raise OSError(errno.ENOMEM, os.strerror(errno.ENOMEM)) from None


def run(options: argparse.Namespace) -> int:
    is_list = inputs.are_many(options.names) and not options.lines
    written = 0

    def write_next(name: str, file: hunk.File) -> None:
        nonlocal written
        texts = whole_texts(name, file, "" if options.lines else "\n", options.parts)
        write([",\n" if written and is_list else "", *texts, "" if is_list else "\n"])
        written += 1

    if is_list:
        print("[")
    status = inputs.each(options, write_next)
    if is_list:
        print("\n]" if written else "]")
    return status
