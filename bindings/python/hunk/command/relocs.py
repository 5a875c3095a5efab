"""Lists the relocations and references of files."""

from __future__ import annotations

import argparse

import hunk
from hunk.command import inputs, jsonlines
from hunk.command.layout import Layout, Patch, patches
from hunk.command.words import hunk_text, place_text, text_of

TYPE_CHECKING = False
if TYPE_CHECKING:
    from typing import Any, Dict, Iterator, Sequence

NAME = "relocs"
HELP = "each relocation, with its target and the symbol that stands there"
DESCRIPTION = """Lists each relocation in the order of the file: the hunk, the offset in it, how many bytes are changed,
the kind, what the bytes point to, and the symbols that stand there. `1+0x4` is the offset 4 of hunk 1; of
an object file the hunk 2.1 is the hunk 1 of the unit 2. References of EXT blocks follow, with the name
that they refer to. Where several files are named, `== NAME` stands before each."""


def add_arguments(parser: argparse.ArgumentParser) -> None:
    inputs.add_arguments(parser, json="relocation or reference")


class Targets:
    """What the bytes of a file point to."""

    def __init__(self, file: hunk.File) -> None:
        self.file, self.layout = file, Layout(file)
        self.names = self.layout.names()

    def value(self, patch: Patch) -> int:
        """The number that stands there, with its sign."""
        value = self.layout.value_at(self.layout.places[patch.unit, patch.hunk], patch.offset, patch.width)
        sign = 1 << (8 * patch.width - 1)
        return (value + sign) % (2 * sign) - sign

    def symbols(self, patch: Patch) -> Sequence[bytes]:
        """The name that the bytes refer to, or the symbols that stand where they point to."""
        if patch.target < 0:
            return [patch.name]
        return self.names.get((patch.unit, patch.target, self.value(patch)), [])

    def text(self, patch: Patch) -> str:
        """What the bytes point to, and the symbols there."""
        names = [*map(text_of, self.symbols(patch))]
        if patch.target < 0:
            return names[0]
        return " ".join([place_text(hunk_text(self.file, patch.unit, patch.target), self.value(patch)), *names])


def lines(file: hunk.File) -> Iterator[str]:
    targets = Targets(file)
    for it in patches(file):
        which = hunk_text(file, it.unit, it.hunk)
        yield f"{which:>5} 0x{it.offset:08x} {it.width} {it.kind.name:10} {targets.text(it)}"


def objects(name: str, file: hunk.File) -> Iterator[Dict[str, Any]]:
    """The same as objects. A reference has no target. Names of the file are taken for ISO 8859-1."""
    targets = Targets(file)
    for it in patches(file):
        symbols = [each.decode("latin-1") for each in targets.symbols(it)]
        yield {"name": name, "place": it.place, "unit": it.unit, "hunk": it.hunk, "offset": it.offset, "width": it.width,
               "kind": it.kind.name, "target": None if it.target < 0 else it.target, "value": targets.value(it), "symbols": symbols}


def run(options: argparse.Namespace) -> int:
    has_heads = inputs.are_many(options.names)

    def print_relocations(name: str, file: hunk.File) -> None:
        if options.json:
            for made in objects(name, file):
                print(jsonlines.text_of(made))
            return
        if has_heads:
            print("==", name)
        for line in lines(file):
            print(line)

    return inputs.each(options, print_relocations)
