"""Prints how many bytes of memory files need, as GNU size does."""

from __future__ import annotations

import argparse

import hunk
from hunk.command import inputs, jsonlines, words

TYPE_CHECKING = False
if TYPE_CHECKING:
    from typing import Any, Dict, Iterable, Iterator, Optional

    from hunk.command.layout import Place

NAME = "size"
HELP = "how many bytes of memory files need, as GNU size prints it"
DESCRIPTION = """Prints the bytes in memory of the hunks of each file in the Berkeley form of GNU size: those of CODE are
text, those of DATA data, and those of BSS bss, each with the zero bytes that the file does not have.
With -A there is a line a hunk, with the memory that it asks for: any, chip, fast or attributes. A hunk
has no address, so that is 0, unless --base says where the first lies. Of an object file the hunk 1.0
is the hunk 0 of the unit 1. With --json the object of the totals has no name."""

COLUMNS = (hunk.Kind.CODE, hunk.Kind.DATA, hunk.Kind.BSS)
HEAD = "   text\t   data\t    bss\t    dec\t    hex\tfilename"


def add_arguments(parser: argparse.ArgumentParser) -> None:
    inputs.add_arguments(parser, json="file, with -A for each hunk")
    parser.add_argument("-A", dest="by_hunk", action="store_true", help="the SysV form: a line a hunk")
    parser.add_argument("-t", "--totals", action="store_true", help="the totals of all files, in the Berkeley form")
    parser.add_argument("--base", metavar="HEX", type=words.address, help="with -A: the address of the first hunk")


def row(sizes: list[int], name: str) -> str:
    total = sum(sizes)
    return "\t".join([*(f"{it:7}" for it in sizes), f"{total:7}", f"{total:7x}", name])


def placed(file: hunk.File, base: Optional[int]) -> Iterable[Place]:
    """The hunks of a file, one after the other. Totals begin sooner without the module."""
    from hunk.command.layout import Layout

    return Layout(file, base or 0).places.values()


def print_hunks(name: str, file: hunk.File, base: Optional[int]) -> None:
    """The SysV form of a file."""
    places = placed(file, base)
    rows = [["section", "size", "addr", "memory"]]
    for place in places:
        it = place.hunk
        which = f"{words.hunk_text(file, it.unit, it.number)}:{it.kind.name if it.kind else ''}"
        memory = f"{it.memory} 0x{it.attributes:08x}" if it.memory == "attributes" else it.memory
        rows.append([which, str(it.size), str(0 if base is None else place.base), memory])
    rows.append(["Total", str(sum(it.hunk.size for it in places)), "", ""])
    first, second, third = (max(len(it[column]) for it in rows) for column in range(3))
    print(f"{name}  :")
    for section, size, address, memory in rows:
        print(f"{section:{first}}   {size:>{second}}   {address:>{third}}   {memory}".rstrip())
    print("\n")


def hunk_objects(name: str, file: hunk.File, base: Optional[int]) -> Iterator[Dict[str, Any]]:
    """The same of each hunk as an object. Without a base it has no address."""
    for place in placed(file, base):
        it = place.hunk
        kind = it.kind.name if it.kind else None
        yield {"name": name, "unit": it.unit, "hunk": it.number, "kind": kind, "bytes": it.size,
               "address": None if base is None else place.base, "memory": it.memory, "attributes": it.attributes}


def size_text(sizes: list[int], name: Optional[str], is_json: bool) -> str:
    """The line of a file, or of the totals, which have no name."""
    if is_json:
        return jsonlines.text_of({"name": name, **dict(zip(("text", "data", "bss"), sizes)), "total": sum(sizes)})
    return row(sizes, "(TOTALS)" if name is None else name)


def run_by_hunk(options: argparse.Namespace) -> int:
    def tell(name: str, file: hunk.File) -> None:
        if not options.json:
            print_hunks(name, file, options.base)
            return
        for it in hunk_objects(name, file, options.base):
            print(jsonlines.text_of(it))

    return inputs.each(options, tell)


def run(options: argparse.Namespace) -> int:
    if options.by_hunk:
        return run_by_hunk(options)
    totals = [0, 0, 0]

    def print_sizes(name: str, file: hunk.File) -> None:
        sizes = [sum(it.size for it in file.hunks if it.kind is kind) for kind in COLUMNS]
        totals[:] = map(int.__add__, totals, sizes)
        print(size_text(sizes, name, options.json))

    if not options.json:
        print(HEAD)
    status = inputs.each(options, print_sizes)
    if options.totals:
        print(size_text(totals, None, options.json))
    return status
