"""Prints what stands in files, in the words of `hunkinfo show`."""

from __future__ import annotations

import argparse
import itertools

import hunk
from hunk.command import inputs
from hunk.command.layout import COMMON
from hunk.command.words import flag_words, kind_word, text_of

TYPE_CHECKING = False
if TYPE_CHECKING:
    from typing import Any, Iterator

NAME = "show"
HELP = "list the hunks and blocks of files, as hunkinfo show does"
DESCRIPTION = """Lists the hunks and blocks of load files and object files, in the words of `hunkinfo show`:
docs/OUTPUT.md has each line. Where several files are named, `== NAME` stands before each. Of a file that is
refused, --partial lists what stands before the fault, and then its line `refused at byte`."""

ITS_WORD = {hunk.Kind.CODE: "memory", hunk.Kind.DATA: "memory", hunk.Kind.BSS: "memory", hunk.Kind.DEBUG: "content_bytes"}


def add_arguments(parser: argparse.ArgumentParser) -> None:
    inputs.add_arguments(parser, partial=True)


def block_lines(file: hunk.File, block: hunk.Block, items: dict[hunk.Kind, Iterator[Any]]) -> Iterator[str]:
    """The lines of a block, of which the next rows of each list are its items."""
    kind, flags = kind_word(block.kind), flag_words(block.flags)
    if kind == "ADVISORY":
        yield " ".join(["  ADVISORY", str(int(block.kind)), f"{block.content_bytes} bytes", *flags[1:]])
        return
    head = " ".join([f"  {kind}", *flags])
    if block.kind == hunk.Kind.NAME:
        yield f"{head} {text_of(file.content(block).split(bytes(1))[0])}"
    elif block.kind in ITS_WORD:
        yield f"{head} {getattr(block, ITS_WORD[block.kind])} bytes"
    elif block.kind == hunk.Kind.END:
        yield head
    else:
        yield f"{head} {block.items}"
        for it in itertools.islice(items[block.kind], block.items):
            yield from item_lines(it)


def item_lines(it: Any) -> Iterator[str]:
    """The lines of an item of a block."""
    if isinstance(it, hunk.Relocation):
        yield f"    {it.target} 0x{it.offset:08x}"
    elif isinstance(it, hunk.Symbol):
        yield f"    0x{it.value:08x} {text_of(it.name)}"
    elif it.kind <= hunk.EntryKind.ABS:
        yield f"    {it.kind.name} 0x{it.value:08x} {text_of(it.name)}"
    else:
        size = f"{it.value} " if it.kind in COMMON else ""
        yield f"    {it.kind.name} {size}{len(it.references)} {text_of(it.name)}"
        yield from (f"      0x{reference.offset:08x}" for reference in it.references)


def hunk_lines(file: hunk.File, unit: int, hunks: Iterator[hunk.Hunk], blocks: Iterator[Any],
               items: dict[hunk.Kind, Iterator[Any]]) -> Iterator[str]:
    """The lines of the hunks of a unit. The next groups of blocks are theirs."""
    for row in hunks:
        attributes = f" 0x{row.attributes:08x}" if row.memory == "attributes" else ""
        yield f"hunk {row.number} {row.size} bytes" + ("" if file.is_object else f" {row.memory}{attributes}")
        # Only the hunks at and after a fault have no blocks.
        for block in next(blocks, (None, ()))[1]:
            yield from block_lines(file, block, items)


def head(file: hunk.File) -> str:
    """The line of a file."""
    if file.is_object:
        return f"object file {len(file.units)} units"
    return f"load file {len(file.hunks)} hunks {sum(it.size for it in file.hunks)} bytes"


def rest_lines(file: hunk.File) -> Iterator[str]:
    """The line of what follows a load file, where something does."""
    if file.size < len(file.data):
        yield f"rest {len(file.data) - file.size} bytes"


def lines(file: hunk.File) -> Iterator[str]:
    """The lines of `hunkinfo show`."""
    yield head(file)
    relocations = iter(file.relocations)
    items: dict[hunk.Kind, Iterator[Any]] = dict.fromkeys(hunk.Kind, relocations)
    items.update({hunk.Kind.SYMBOL: iter(file.symbols), hunk.Kind.EXT: iter(file.entries)})
    blocks = itertools.groupby(file.blocks, lambda it: (it.unit, it.hunk))
    hunks = iter(file.hunks)
    for number, unit in enumerate(file.units):
        yield f"unit {number} {text_of(unit.name)}"
        yield from hunk_lines(file, number, itertools.islice(hunks, unit.hunks), blocks, items)
    yield from hunk_lines(file, 0, hunks, blocks, items)
    if file.refusal:
        yield str(file.refusal)
    else:
        yield from rest_lines(file)


def run(options: argparse.Namespace) -> int:
    has_heads = inputs.are_many(options.names)

    def show(name: str, file: hunk.File) -> None:
        if has_heads:
            print("==", name)
        for line in lines(file):
            print(line)

    return inputs.each(options, show)
