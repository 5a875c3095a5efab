"""Loads files at an address, and prints the bytes of their hunks."""

from __future__ import annotations

import argparse

import hunk
from hunk.command import inputs, outputs, words
from hunk.command.layout import Layout

TYPE_CHECKING = False
if TYPE_CHECKING:
    from typing import Iterator

NAME = "relocate"
HELP = "the bytes of hunks that are loaded at an address, as hunkinfo relocate, or as they are"
DESCRIPTION = """Loads each load file at --base, its hunks one after the other, and prints their bytes in the lines of `hunkinfo
relocate`: docs/OUTPUT.md has each. Where several files are named, `== NAME` stands before each. With --to bin
one file is named, and its bytes are printed as they are. `hunk convert` writes them to a file."""

WIDTH = 16


def add_arguments(parser: argparse.ArgumentParser) -> None:
    inputs.add_arguments(parser)
    parser.add_argument("--base", metavar="HEX", type=words.address, required=True, help="the address of the first hunk")
    parser.add_argument("--budget", metavar="N", type=words.count, default=hunk.BUDGET,
                        help="the most bytes that the hunks of a file may have together [default: 16777216]")
    parser.add_argument("--to", choices=("text", "bin"), default="text", help="lines of text, or the bytes as they are")
    parser.set_defaults(refuse=parser.error)


def lines(file: hunk.File, base: int, budget: int) -> Iterator[str]:
    """The lines of `hunkinfo relocate`."""
    places = Layout(file, base).places.values()
    for place, data in zip(places, hunk.load(file.data, base, budget)):
        yield f"hunk {place.hunk.number} base 0x{place.base:08x} {len(data)} bytes"
        for start in range(0, len(data), WIDTH):
            yield f"  {data[start : start + WIDTH].hex()}"


def run(options: argparse.Namespace) -> int:
    has_heads = inputs.are_many(options.names)
    if options.to == "bin" and has_heads:
        options.refuse("--to bin takes one file")

    def relocate(name: str, file: hunk.File) -> None:
        if options.to == "bin":
            outputs.to_output(hunk.load(file.data, options.base, options.budget))
            return
        for i, line in enumerate(lines(file, options.base, options.budget)):
            if i == 0 and has_heads:
                print("==", name)
            print(line)

    return inputs.each(options, relocate)
