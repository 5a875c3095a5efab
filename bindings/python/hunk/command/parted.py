"""The parts of a file in JSON, each with what it says and nothing else.

A name or data stands as `name` where that, filled up with zero bytes to whole longwords, is the content; else as `content`, in
hexadecimal digits. What is 0 or empty in most files stands there only where it is not."""

from __future__ import annotations

import hunk
from hunk.command.layout import CONTENTS
from hunk.command.words import flag_words, kind_word
from hunk.lists import FLAGS, KINDS
from hunk.rows import MEMORY

TYPE_CHECKING = False
if TYPE_CHECKING:
    from typing import Any, Callable, Dict

    Made = Dict[str, Any]

LONGS = (1 << 30) - 1
DEFINITIONS, COMMONS = (0, 1, 2), (130, 137)


def named(content: bytes, is_marked: bool) -> Made:
    """A name, which may be empty. Where nothing else marks its item, an empty one has a longword of 0."""
    name = content.rstrip(bytes(1))
    filled = name + bytes(-len(name) % 4)
    if not filled and not is_marked:
        filled = bytes(4)
    if filled == content and 0 not in name:
        return {"name": name.decode("latin-1")}
    return {"content": content.hex()}


def of_hunk(it: hunk.Part) -> Made:
    memory = it.word >> 30
    return {"longs": it.word & LONGS, "memory": MEMORY[memory], **({"attributes": it.value} if memory == 3 else {})}


def of_unit(it: hunk.Part) -> Made:
    return named(it.content, True)


def of_block(it: hunk.Part) -> Made:
    kind, flags = KINDS[it.word & 0x1FFFFFFF], flag_words(FLAGS[it.word >> 29])
    word = kind_word(kind)
    made: Made = {"kind": word, **({"type": int(kind)} if word == "ADVISORY" else {}), **({"flags": [*flags]} if flags else {})}
    if kind in CONTENTS and it.value >> 30:
        made["bits"] = it.value >> 30
    if kind == hunk.Kind.BSS:
        return {**made, "longs": it.value & LONGS}
    if kind == hunk.Kind.NAME:
        return {**made, **named(it.content, True)}
    holds = kind in CONTENTS or kind == hunk.Kind.DEBUG or word == "ADVISORY"
    return {**made, **({"content": it.content.hex()} if holds else {})}


def of_group(it: hunk.Part) -> Made:
    return {"target": it.word, "offsets": [*it.offsets]}


def of_symbol(it: hunk.Part) -> Made:
    return {**named(it.content, it.word > 0), "value": it.value, **({"top": it.word} if it.word else {})}


def of_entry(it: hunk.Part) -> Made:
    defines, is_common = it.word in DEFINITIONS, it.word in COMMONS
    made: Made = {"kind": hunk.EntryKind(it.word).name, **named(it.content, it.word > 0)}
    if defines or is_common:
        made["value"] = it.value
    return made if defines else {**made, "offsets": [*it.offsets]}


MAKERS: Dict[str, Callable[[hunk.Part], Made]] = {
    "hunk": of_hunk, "unit": of_unit, "block": of_block, "group": of_group, "symbol": of_symbol, "entry": of_entry,
}


def of_part(it: hunk.Part) -> Made:
    return {"part": it.what, **MAKERS[it.what](it)}
