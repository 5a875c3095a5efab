"""Draws where everything in a file lies, in the file and in memory."""

from __future__ import annotations

import argparse

import hunk
from hunk.command import drawing, inputs, words
from hunk.command.drawing import Part, Strip
from hunk.command.layout import Layout, Place, patches

TYPE_CHECKING = False
if TYPE_CHECKING:
    from typing import Iterator

NAME = "map"
HELP = "a picture of the hunks, in the file and in memory, as SVG"
DESCRIPTION = """Draws each file as a picture in SVG, one below the other. First the file, in lines from left to right: each
block with its kind and bytes. A tick stands below a long that is relocated or refers to a name, and a red
mark where an offset is wrong. Then the memory, with the hunks one after the other: a line leads from each
long that is relocated to where it points. Light and dark follow the viewer's settings."""

COLORS = {
    "HEADER": "#5f6b80", "UNIT": "#5f6b80", "NAME": "#9a4f8f", "CODE": "#2f6fde", "DATA": "#1f7f5f", "BSS": "#62751c",
    "EXT": "#b0601a", "SYMBOL": "#8a4fc0", "DEBUG": "#7d5a3c", "END": "#4b525e", "REST": "#75797f",
}
RELOCATIONS, OTHER = "#0f7a8a", "#59677b"
# Lines that lie closer are one, and more than these can't be told apart.
MOST_ARCS = 2000


def add_arguments(parser: argparse.ArgumentParser) -> None:
    inputs.add_arguments(parser)
    parser.add_argument("--base", metavar="HEX", type=words.address, default=0, help="the address of the first hunk in memory")


def color_of(kind: str) -> str:
    return COLORS.get(kind, RELOCATIONS if "REL" in kind else OTHER)


# ---- The file.


def pieces_of(file: hunk.File) -> Iterator[tuple[int, int, str, str]]:
    """All of the file in order, its places, kinds, and what is told: what no block has is the header, or units."""
    starts = {it.place: it for it in file.units}
    found = {it.place: (it.place, it.place + it.bytes, it.kind.name, f"unit {it.unit} hunk {it.hunk}") for it in file.blocks}
    edges = sorted({0, file.size, *starts, *found, *(it[1] for it in found.values())})
    for start, end in zip(edges, edges[1:]):
        name = words.text_of(starts[start].name) if start in starts else ""
        yield found.get(start, (start, end, "UNIT" if start in starts else "HEADER", name))
    if file.size < len(file.data):
        yield file.size, len(file.data), "REST", "after the file"


def file_part(start: int, end: int, kind: str, told: str) -> Part:
    return Part(start, end, f"{kind} {end - start}", color_of(kind), f"{kind} at byte {start}, {end - start} bytes, {told}")


def marked(layout: Layout) -> set[int]:
    """The bytes of the file that lie where a long is relocated, or refers to a name."""
    known = ((layout.places[it.unit, it.hunk].block, it.offset) for it in patches(layout.file))
    return {block.content + offset for block, offset in known if offset < block.content_bytes}


def draw_file(layout: Layout, top: int) -> tuple[int, list[str]]:
    """The picture of the file below a height, and where it ends."""
    file, strip = layout.file, Strip(len(layout.file.data), top)
    sizes: dict[str, int] = {}
    for piece in pieces_of(file):
        strip.draw(file_part(*piece))
        sizes[piece[2]] = sizes.get(piece[2], 0) + piece[1] - piece[0]
    for place in sorted(marked(layout)):
        strip.tick(place)
    for it in file.findings:
        strip.flag(it.place, f"{it.fault} at byte {it.place}: unit {it.unit} hunk {it.hunk} offset {it.offset}")
    rows = [(f"{kind} {size}", color_of(kind)) for kind, size in sizes.items()]
    return strip.bottom + 22 + len(rows) // 6 * 22, [*strip.text(), *drawing.legend(rows, strip.bottom + 16)]


# ---- Memory.


def memory_parts(layout: Layout, place: Place) -> Iterator[Part]:
    """A hunk in memory: its content, and the zero bytes that follow that."""
    it, kind, base = place.hunk, place.block.kind.name, layout.base
    which = words.hunk_text(layout.file, it.unit, it.number)
    told = f"hunk {which}, {kind}, {it.size} bytes in {it.memory} memory at {place.base:08x}"
    start, end = place.base - base, place.base - base + it.size
    middle = min(end, start + place.block.content_bytes)
    label = f"{which} {kind} {it.size}{'' if it.memory == 'any' else ' ' + it.memory}"
    yield Part(start, middle, label, color_of(kind), told)
    yield Part(middle, end, label if middle == start else "", color_of(kind), f"{told}: zero bytes", "part zero")


def arcs_of(layout: Layout) -> Iterator[tuple[int, int, str]]:
    """Each relocation of a target that is there: its byte of memory, the one that it points to, and what is told."""
    for it in patches(layout.file):
        target, place = layout.places.get((it.unit, it.target)), layout.places[it.unit, it.hunk]
        if target is None or it.offset + it.width > place.hunk.size:
            continue
        value = layout.value_at(place, it.offset, it.width)
        to = words.place_text(words.hunk_text(layout.file, it.unit, it.target), value)
        told = f"{words.place_text(words.hunk_text(layout.file, it.unit, it.hunk), it.offset)} points to {to}, {it.kind.name}"
        yield place.base - layout.base + it.offset, target.base - layout.base + min(value, target.hunk.size), told


def draw_memory(layout: Layout, top: int) -> tuple[int, list[str]]:
    """The picture of the memory below a height, and where it ends."""
    total = sum(it.hunk.size for it in layout.places.values())
    strip, drawn, left_out = Strip(total, top + 22, layout.base), 0, 0
    for place in layout.places.values():
        for part in memory_parts(layout, place):
            strip.draw(part)
    for start, end, told in arcs_of(layout):
        strip.tick(start)
        if drawn < MOST_ARCS:
            drawn += strip.arc(start, min(end, total - 1), told)
        else:
            left_out += 1
    title = f"In memory: {total} bytes" + (f"; of {words.counted(left_out, 'relocation')} no line is drawn" if left_out else "")
    return strip.bottom + 22, [drawing.heading(title, top + 6), *strip.text()]


def picture_of(name: str, file: hunk.File, base: int) -> tuple[int, list[str]]:
    """The height of a file's picture, and its elements."""
    layout = Layout(file, base)
    kind, hunks, found = "object" if file.is_object else "load", len(file.hunks), len(file.findings)
    title = f"{name}: {kind} file, {words.counted(hunks, 'hunk')}, {file.size} bytes, {words.counted(found, 'finding')}"
    middle, its_file = draw_file(layout, 50)
    high, its_memory = draw_memory(layout, middle + 14)
    return high, [drawing.heading(title, 24), *its_file, *its_memory]


def run(options: argparse.Namespace) -> int:
    pictures: list[tuple[int, list[str]]] = []
    status = inputs.each(options, lambda name, file: pictures.append(picture_of(name, file, options.base)))
    if pictures:
        for line in drawing.document(pictures):
            print(line)
    return status
