"""Tells what differs between two files."""

from __future__ import annotations

import argparse
import collections
import os

import hunk
from hunk.command import inputs, show
from hunk.command.documents import taking
from hunk.command.layout import Layout, Place
from hunk.command.words import counted, flag_words, hunk_text, kind_word, printed, text_of
from hunk.tuples import NamedTuple

TYPE_CHECKING = False
if TYPE_CHECKING:
    from typing import Any, Hashable, Iterator, Sequence, Tuple

    Items = Sequence[Tuple[Hashable, str]]

NAME = "diff"
HELP = "what differs between two files: hunks, blocks, symbols, relocations, content"
DESCRIPTION = """Compares two files hunk by hunk, and prints a line for each thing that differs: hunks and their memory,
which blocks a hunk has, its names, relocations and references, and its content, with the first offset
that differs. What only one of them has is counted, and listed with --items, `<` of A and `>` of B.
The status is 0 where they are the same, 1 where they differ, and 2 where one is refused or can't be read."""

SAME, DIFFER, TROUBLE = 0, 1, 2
# Blocks whose content is in no other list.
OWN = ("NAME", "DEBUG", "ADVISORY")
PIECE = 4096


def add_arguments(parser: argparse.ArgumentParser) -> None:
    parser.add_argument("first", metavar="A", help="a file; - is standard input")
    parser.add_argument("second", metavar="B", help="another")
    parser.add_argument("--wide", action="store_true", help=inputs.WIDE)
    parser.add_argument("--items", action="store_true", help="list the items that only one of them has")


class Content(NamedTuple):
    """A hunk with all that it has: each list by its name, its items with the lines that tell of them."""

    place: Place
    data: bytes
    lists: dict[str, Items]


# ---- What is compared.


def block_item(file: hunk.File, it: hunk.Block) -> tuple[Hashable, str]:
    """A block without what its hunk tells of it."""
    kind = kind_word(it.kind)
    is_own = kind in OWN
    its_lines = show.block_lines(file, it, collections.defaultdict(lambda: iter(())))
    text = next(its_lines).strip() if is_own else " ".join([kind, *flag_words(it.flags)])
    return (it.kind, it.flags, file.content(it) if is_own else b""), text


def item(it: Any, *key: Hashable) -> tuple[Hashable, str]:
    """An item by what it says, wherever it stands in the file."""
    text = " ".join(line.strip() for line in show.item_lines(it))
    return key, f"{it.kind.name} {text}" if isinstance(it, hunk.Relocation) else text


def contents(file: hunk.File) -> dict[tuple[int, int], Content]:
    """The hunks of a file by unit and number."""
    layout, found = Layout(file), {}
    tables: tuple[Sequence[Any], ...] = (file.blocks, file.symbols, file.relocations, file.entries)
    blocks, symbols, relocations, entries = map(taking, tables)
    for key, place in layout.places.items():
        lists: dict[str, Items] = {
            "blocks": [block_item(file, it) for it in blocks(*key)],
            "symbols": [item(it, it.value, it.name) for it in symbols(*key)],
            "relocations": [item(it, it.kind, it.target, it.offset) for it in relocations(*key)],
            "entries": [item(it, it.kind, it.value, it.name, tuple(i.offset for i in it.references)) for it in entries(*key)],
        }
        found[key] = Content(place, layout.content(place), lists)
    return found


# ---- Comparing.


def bytes_text(a: bytes, b: bytes) -> str:
    """How many bytes differ, and the first; nothing where none do."""
    common, count, first = min(len(a), len(b)), 0, -1
    for start in range(0, common, PIECE):
        piece, other = a[start : min(common, start + PIECE)], b[start : min(common, start + PIECE)]
        if piece == other:
            continue
        places = [i for i, (one, two) in enumerate(zip(piece, other)) if one != two]
        first = start + places[0] if first < 0 else first
        count += len(places)
    told = f"1 byte differs, at {first:#010x}" if count == 1 else f"{count} bytes differ, the first at {first:#010x}"
    parts = [told] if count else []
    if len(a) != len(b):
        parts.append(f"{counted(abs(len(a) - len(b)), 'byte')} more in {'A' if len(a) > len(b) else 'B'}")
    return ", ".join(parts)


def compare_items(what: str, a: Items, b: Items, is_listed: bool) -> Iterator[str]:
    """The lines of a list of a hunk."""
    keys, others = collections.Counter(it for it, _ in a), collections.Counter(it for it, _ in b)
    only_a, only_b = keys - others, others - keys
    if not only_a and not only_b:
        if [it for it, _ in a] != [it for it, _ in b]:
            yield f"{what} in another order"
        return
    yield f"{what}: {sum(only_a.values())} only in A, {sum(only_b.values())} only in B"
    for sign, items, left in (("<", a, only_a), (">", b, only_b)) if is_listed else ():
        for key, text in items:
            if left[key] > 0:
                left[key] -= 1
                yield f"  {sign} {text}"


def kind_text(it: Content) -> str:
    row, memory = it.place.hunk, it.place.hunk.memory
    return f"{it.place.block.kind.name} {row.size} bytes {memory}{f' 0x{row.attributes:08x}' if row.attributes else ''}"


def compare_hunks(which: str, a: Content, b: Content, is_listed: bool) -> Iterator[str]:
    """The lines of a hunk that both have."""
    if kind_text(a) != kind_text(b):
        yield f"hunk {which}: {kind_text(a)} in A, {kind_text(b)} in B"
    told = bytes_text(a.data, b.data)
    if told:
        yield f"hunk {which}: content: {told}"
    for what, items in a.lists.items():
        for line in compare_items(what, items, b.lists[what], is_listed):
            yield line if line.startswith("  ") else f"hunk {which}: {line}"


def compare_units(a: hunk.File, b: hunk.File) -> Iterator[str]:
    if len(a.units) != len(b.units):
        yield f"units: {len(a.units)} in A, {len(b.units)} in B"
    for number, (one, two) in enumerate(zip(a.units, b.units)):
        if one.name != two.name:
            yield f"unit {number}: {text_of(one.name)} in A, {text_of(two.name)} in B"


def compare(a: hunk.File, b: hunk.File, is_listed: bool) -> Iterator[str]:
    """The lines of all that differs."""
    if a.is_object != b.is_object:
        yield "A is an object file, B a load file" if a.is_object else "A is a load file, B an object file"
        return
    yield from compare_units(a, b)
    ours, theirs = contents(a), contents(b)
    for key in sorted({*ours, *theirs}):
        which, one, two = hunk_text(a, *key), ours.get(key), theirs.get(key)
        if one and two:
            yield from compare_hunks(which, one, two, is_listed)
        elif one or two:
            yield f"hunk {which}: only in {'A' if one else 'B'}: {kind_text(one or two)}"  # type: ignore[arg-type]
    told = bytes_text(a.data[a.size :], b.data[b.size :])
    if told:
        yield f"rest: {told}"


def compare_files(names: Sequence[bytes], options: argparse.Namespace) -> int:
    """Prints what differs between the files of these two names, and answers the status."""
    a, b = [inputs.opened(inputs.Found(name, True), options.wide) for name in names]
    if a is None or b is None:
        return TROUBLE
    if a.data == b.data:
        return SAME
    is_told = False
    for line in compare(a, b, options.items):
        is_told = True
        print(line)
    if not is_told:
        print(f"in the file: {bytes_text(a.data, b.data)}")
    return DIFFER


def run(options: argparse.Namespace) -> int:
    names = [os.fsencode(it) for it in (options.first, options.second)]
    try:
        return compare_files(names, options)
    except MemoryError as error:
        inputs.say_refused(" and ".join(map(printed, names)), error)
        return TROUBLE
