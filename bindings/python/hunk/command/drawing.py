"""Draws bytes in lines from left to right, as elements of SVG."""

from __future__ import annotations

import html

from hunk.tuples import NamedTuple

TYPE_CHECKING = False
if TYPE_CHECKING:
    from typing import Iterator, Sequence

LEFT, WIDTH, HIGH, STEP, LINES = 84, 960, 26, 40, 40
ALL_WIDE = LEFT + WIDTH + 16
STYLE = """
  svg { background: #fff; font: 12px system-ui, sans-serif; --ink: #1c1e21; --soft: #667; --bad: #c5221f }
  @media (prefers-color-scheme: dark) { svg { background: #17191d; --ink: #e4e6ea; --soft: #9aa4b2; --bad: #ff8a80 } }
  text { fill: var(--ink) } .soft { fill: var(--soft) } .on { fill: #fff; font-size: 11px }
  .tick { stroke: var(--ink) } .bad { fill: var(--bad) } .part { stroke: #0004 } .zero { opacity: .75 }
  .arc { stroke: var(--ink); fill: none; opacity: .4 } .arc:hover { opacity: 1; stroke-width: 3 }
"""


class Part(NamedTuple):
    """Bytes that are drawn as a box: where they are, the label, and what is told of them."""

    start: int
    end: int
    label: str
    color: str
    told: str
    style: str = "part"


def escaped(text: str) -> str:
    return html.escape(text, quote=False)


class Strip:
    """So many bytes, as lines below `top`, each of the same number of bytes. `first` is the address of the first."""

    def __init__(self, size: int, top: int, first: int = 0) -> None:
        self.each = max(64, -(-size // LINES // 4) * 4)
        self.top, self.first, self.lines = top, first, -(-size // self.each)
        self.out: list[str] = []
        self.taken: set[tuple[str, int, int]] = set()

    @property
    def bottom(self) -> int:
        return self.top + self.lines * STEP

    def is_taken(self, what: str, x: float, y: float) -> bool:
        """Whether such a thing was drawn at this point before: one will do."""
        spot = what, round(x), round(y)
        taken = spot in self.taken
        self.taken.add(spot)
        return taken

    def spot(self, place: int) -> tuple[float, int]:
        """Where a byte is drawn."""
        return LEFT + place % self.each * WIDTH / self.each, self.top + place // self.each * STEP

    def draw(self, part: Part) -> None:
        start = part.start
        while start < part.end:
            end = min(part.end, (start // self.each + 1) * self.each)
            self.box(*self.spot(start), (end - start) * WIDTH / self.each, part)
            start = end

    def box(self, x: float, y: int, wide: float, part: Part) -> None:
        if wide < 1 and self.is_taken("box", x, y):
            return
        self.out.append(f'<g><title>{escaped(part.told)}</title><rect class="{part.style}" x="{x:.1f}" y="{y}" '
                        f'width="{wide:.1f}" height="{HIGH}" fill="{part.color}"/>')
        if wide > 7 * len(part.label):
            self.out.append(f'<text class="on" x="{x + 4:.1f}" y="{y + 17}">{escaped(part.label)}</text>')
        self.out.append("</g>")

    def tick(self, place: int) -> None:
        """A tick below a byte."""
        x, y = self.spot(place)
        if not self.is_taken("tick", x, y):
            self.out.append(f'<path class="tick" d="M{x:.0f} {y + HIGH}v6"/>')

    def flag(self, place: int, told: str) -> None:
        """A red mark above a byte."""
        x, y = self.spot(place)
        if not self.is_taken(told.split(" ")[0], x, y):
            self.out.append(f'<path class="bad" d="M{x:.1f} {y}l-5 -9h10z"><title>{escaped(told)}</title></path>')

    def arc(self, start: int, end: int, told: str) -> bool:
        """A line from below a byte to the box of another. Whether it was drawn: lines that lie close have one."""
        (x, y), (to_x, to_y) = self.spot(start), self.spot(end)
        if self.is_taken(f"{round(x / 4)} {y}", to_x / 4, to_y):
            return False
        y, to_y = y + HIGH, to_y + HIGH
        bend = 12 + abs(to_x - x) / 40
        curve = f"M{x:.0f} {y}C{x:.0f} {y + bend:.0f} {to_x:.0f} {to_y + bend:.0f} {to_x:.0f} {to_y}"
        self.out.append(f'<path class="arc" d="{curve}"><title>{escaped(told)}</title></path>')
        return True

    def text(self) -> Iterator[str]:
        """All that was drawn, with the place of each line before it."""
        for i in range(self.lines):
            yield f'<text class="soft" x="8" y="{self.top + 17 + i * STEP}">{self.first + i * self.each:08x}</text>'
        yield from self.out


def heading(text: str, y: int) -> str:
    return f'<text x="8" y="{y}">{escaped(text)}</text>'


def legend(rows: Sequence[tuple[str, str]], top: int) -> Iterator[str]:
    """Texts with their colors, six in a line."""
    for i, (text, color) in enumerate(rows):
        x, y = LEFT + i % 6 * 160, top + i // 6 * 22
        yield f'<rect x="{x}" y="{y - 10}" width="12" height="12" fill="{color}"/>'
        yield f'<text x="{x + 18}" y="{y}">{escaped(text)}</text>'


def document(pictures: Sequence[tuple[int, list[str]]]) -> Iterator[str]:
    """The lines of an SVG document with these pictures, each of a height and elements, one below the other."""
    high = sum(it for it, _ in pictures)
    yield f'<svg xmlns="http://www.w3.org/2000/svg" viewBox="0 0 {ALL_WIDE} {high}" width="{ALL_WIDE}" height="{high}">'
    yield f"<style>{STYLE}</style>"
    top = 0
    for height, elements in pictures:
        yield f'<g transform="translate(0 {top})">'
        yield from elements
        yield "</g>"
        top += height
    yield "</svg>"
