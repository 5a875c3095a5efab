"""Writes a file without what a loader does not need."""

from __future__ import annotations

import argparse
import os

import hunk
from hunk.command import inputs, outputs, words

NAME = "strip"
HELP = "write a file without names, symbols and debug data, as hunkinfo rewrite --strip"
DESCRIPTION = """Reads the load file or object file IN, and writes it to OUT without its blocks NAME, SYMBOL and DEBUG, and
without advisory blocks. What follows a load file is left out, too. Where IN is refused, OUT stays as it was; it
is written whole or not at all, so it may be IN itself. `-` is standard input, and standard output. The lines
`wrote N bytes` and `rest N bytes left out` say what was written, unless OUT is standard output."""

OF_BLOCKS, AFTER = "bytes of NAME, SYMBOL, DEBUG and ADVISORY blocks", "bytes after the load file"


def add_arguments(parser: argparse.ArgumentParser) -> None:
    outputs.add_arguments(parser)


def tell(name: str, file: hunk.File, count: int, is_output: bool) -> None:
    """Says what was written, and what was left out."""
    rest = len(file.data) - file.size
    if not is_output:
        print(f"wrote {count} bytes")
        if rest:
            print(f"rest {rest} bytes left out")
    left_out = ((file.size - count, OF_BLOCKS), (rest, AFTER))
    told = ", ".join(f"{number} {what}" for number, what in left_out if number)
    if told:
        inputs.say(name, f"left out: {told}")


def run(options: argparse.Namespace) -> int:
    found = inputs.Found(os.fsencode(options.name), True)
    name, file = words.printed(found.name), inputs.opened(found, options.wide)
    if file is None:
        return 1
    try:
        stripped = hunk.strip(file.data)
    except (hunk.HunkError, MemoryError) as error:
        inputs.say_refused(name, error)
        return 1
    is_output = outputs.is_output(os.fsencode(options.out))
    status, count = outputs.write(options.out, [stripped])
    if status == outputs.WRITTEN:
        tell(name, file, count, is_output)
    return status
