"""Checks files, and prints what `hunkinfo validate` does."""

from __future__ import annotations

import argparse

import hunk
from hunk.command import inputs, jsonlines, show

TYPE_CHECKING = False
if TYPE_CHECKING:
    from typing import Any, Dict, Iterator

NAME = "validate"
HELP = "whether files are good, and the findings of object files, as hunkinfo validate"
DESCRIPTION = """Prints of each load file its hunks and bytes, and of each object file its findings: relocations whose target is
no hunk of the unit, and what runs past the end of its hunk. The lines are those of `hunkinfo validate`:
docs/OUTPUT.md has each. Where several files are named, `== NAME` stands before each. With --json there is an
object on a line for each file. The status is 1 where a file has findings, is refused, or can't be read."""

HAS_FINDINGS = 1


def add_arguments(parser: argparse.ArgumentParser) -> None:
    inputs.add_arguments(parser, json="file")


def lines(file: hunk.File) -> Iterator[str]:
    """The lines of `hunkinfo validate`."""
    if not file.is_object:
        yield show.head(file)
        yield from show.rest_lines(file)
        return
    for it in file.findings:
        yield f"unit {it.unit} hunk {it.hunk} offset 0x{it.offset:08x} {it.fault}"
    yield f"{show.head(file)} {len(file.findings)} findings"


def document(name: str, file: hunk.File) -> Dict[str, Any]:
    """The same as an object, with the byte of each finding."""
    made: Dict[str, Any] = {"name": name, "kind": "object" if file.is_object else "load", "units": len(file.units)}
    made.update(hunks=len(file.hunks), memory=sum(it.size for it in file.hunks), rest=len(file.data) - file.size)
    return {**made, "findings": [it._asdict() for it in file.findings]}


def run(options: argparse.Namespace) -> int:
    has_heads, status = inputs.are_many(options.names), 0

    def tell(name: str, file: hunk.File) -> None:
        nonlocal status
        if options.json:
            print(jsonlines.text_of(document(name, file)))
        else:
            made = [*lines(file)]
            print("\n".join([f"== {name}", *made] if has_heads else made))
        status = HAS_FINDINGS if file.findings else status

    return inputs.each(options, tell) or status
