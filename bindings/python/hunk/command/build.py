"""Writes the file that a document of JSON spells."""

from __future__ import annotations

import argparse
import json
import os

from hunk.command import making, words
from hunk.command.unparted import parts_of

NAME = "build"
HELP = "write the file that a document of `hunk json --parts` spells"
DESCRIPTION = """Reads a document of JSON, as `hunk json --parts` writes it, and writes the file that its `parts` spell to OUT: a
load file where the first part is a hunk, else an object file. Nothing else of the document is looked at. Where
something is refused, OUT stays as it was; it is written whole or not at all. `-` is standard input, and standard
output. The line `wrote N bytes` says what was written, unless OUT is standard output."""


def add_arguments(parser: argparse.ArgumentParser) -> None:
    parser.add_argument("name", metavar="JSON", help="a document; - is standard input")
    parser.add_argument("out", metavar="OUT", help="the file to write; - is standard output")


def made(name: str) -> bytes:
    """The file that the document of this name spells."""
    data, shown = making.read(name), words.printed(os.fsencode(name))
    try:
        parts = parts_of(json.loads(data))
    except RecursionError:
        raise making.NotMade(shown, "it is nested too deeply") from None
    except ValueError as error:
        raise making.NotMade(shown, str(error)) from None
    return making.built(shown, parts)


def run(options: argparse.Namespace) -> int:
    return making.write(options.out, lambda: made(options.name))
