"""Parts of a file by their JSON, as `hunk json --parts` writes it. What is no part is a ValueError."""

from __future__ import annotations

import hunk
from hunk.rows import MEMORY

TYPE_CHECKING = False
if TYPE_CHECKING:
    from typing import Any, Callable, Dict, List, Mapping, Tuple

    from hunk.command.parted import Made

KINDS, ENTRIES = {it.name: it for it in hunk.Kind}, {it.name: it for it in hunk.EntryKind}
FLAGS = {"advisory": 1, "chip": 2, "fast": 4}


# So much of a wrong value is shown.
SHOWN = 60


def shown(value: Any) -> str:
    text = repr(value)
    return text if len(text) <= SHOWN else f"{text[:SHOWN]}.."


class Left:
    """The keys of an object that were not taken yet."""

    def __init__(self, made: Any) -> None:
        if not isinstance(made, dict):
            raise ValueError("it is no object")
        self.made: Made = dict(made)

    def take(self, key: str, default: Any) -> Any:
        if key not in self.made and default is None:
            raise ValueError(f"it has no {key}")
        return self.made.pop(key, default)

    def number(self, key: str, bits: int, default: Any = None) -> int:
        return number(self.take(key, default), bits, key)

    def one_of(self, key: str, words: Mapping[str, int], default: Any = None) -> int:
        word = self.take(key, default)
        if not isinstance(word, str) or word not in words:
            raise ValueError(f"{key} is none of {', '.join(words)}: {shown(word)}")
        return words[word]

    def text(self, key: str, default: Any = None) -> str:
        value = self.take(key, default)
        if not isinstance(value, str):
            raise ValueError(f"{key} is no text: {shown(value)}")
        return value

    def items(self, key: str, default: Any = None) -> List[Any]:
        value = self.take(key, default)
        if not isinstance(value, list):
            raise ValueError(f"{key} is no list: {shown(value)}")
        return value

    def content(self) -> bytes:
        digits = self.text("content", "")
        try:
            return bytes.fromhex(digits)
        except ValueError:
            raise ValueError(f"content is no bytes in hexadecimal digits: {shown(digits)}") from None

    def name(self) -> Tuple[bool, bytes]:
        """Whether a name is given, and not a content, and which."""
        if "name" not in self.made:
            return False, self.content()
        name = self.text("name")
        try:
            return True, name.encode("latin-1")
        except UnicodeEncodeError:
            raise ValueError(f"a character of the name is no byte: {shown(name)}") from None


def number(value: Any, bits: int, key: str) -> int:
    if not isinstance(value, int) or isinstance(value, bool) or not 0 <= value < 1 << bits:
        raise ValueError(f"{key} is no number of {bits} bits: {shown(value)}")
    return value


def flag_of(word: Any) -> int:
    if not isinstance(word, str) or word not in FLAGS:
        raise ValueError(f"a flag is none of {', '.join(FLAGS)}: {shown(word)}")
    return FLAGS[word]


def hunk_of(left: Left) -> hunk.Part:
    memory = left.one_of("memory", {it: i for i, it in enumerate(MEMORY)}, "any")
    return hunk.Part.hunk(left.number("longs", 30), MEMORY[memory], left.number("attributes", 32, 0))


def unit_of(left: Left) -> hunk.Part:
    return hunk.Part.unit(left.name()[1])


def block_of(left: Left) -> hunk.Part:
    kind = left.one_of("kind", {**KINDS, "ADVISORY": -1})
    flags = sum({*map(flag_of, left.items("flags", []))})
    if kind == hunk.Kind.BSS:
        return hunk.Part.bss(left.number("longs", 30), flags, left.number("bits", 2, 0))
    number = left.number("type", 29) if kind < 0 else kind
    bits = left.number("bits", 2, 0)
    content = left.name()[1] if kind == hunk.Kind.NAME else left.content()
    return hunk.Part.block(number, content, flags, bits)


def offsets_of(left: Left, default: Any = None) -> List[int]:
    return [number(it, 32, "an offset") for it in left.items("offsets", default)]


def group_of(left: Left) -> hunk.Part:
    return hunk.Part.group(left.number("target", 32), offsets_of(left))


def symbol_of(left: Left) -> hunk.Part:
    top, value, (is_name, name) = left.number("top", 8, 0), left.number("value", 32), left.name()
    return hunk.Part.symbol(name, value, top) if is_name else hunk.Part("symbol", top, value, name)


def entry_of(left: Left) -> hunk.Part:
    kind, value, offsets = left.one_of("kind", ENTRIES), left.number("value", 32, 0), offsets_of(left, [])
    is_name, name = left.name()
    return hunk.Part.entry(kind, name, value, offsets) if is_name else hunk.Part("entry", kind, value, name, tuple(offsets))


READERS: Dict[str, Callable[[Left], hunk.Part]] = {
    "hunk": hunk_of, "unit": unit_of, "block": block_of, "group": group_of, "symbol": symbol_of, "entry": entry_of,
}


def part_of(made: Any) -> hunk.Part:
    """The part that an object of JSON says."""
    left = Left(made)
    what = left.text("part")
    if what not in READERS:
        raise ValueError(f"part is none of {', '.join(READERS)}: {shown(what)}")
    part = READERS[what](left)
    if left.made:
        raise ValueError(f"it has {shown(next(iter(left.made)))}, which no such {what} has")
    return part


def parts_of(document: Any) -> List[hunk.Part]:
    """The parts that a document has, of which nothing else is looked at."""
    if not isinstance(document, dict) or not isinstance(document.get("parts"), list):
        raise ValueError("it is no document of `hunk json --parts`: it has no list `parts`")
    made = []
    for i, it in enumerate(document["parts"]):
        try:
            made.append(part_of(it))
        except ValueError as error:
            raise ValueError(f"part {i}: {error}") from None
    return made
