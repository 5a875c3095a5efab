"""Writes a program whose hunks of DATA are in chip memory, where the custom chips find pictures and sounds: to_chip.py IN OUT"""

import sys
from typing import Sequence

import hunk


def to_chip(data: bytes) -> bytes:
    edit = hunk.Edit(data)
    for it in hunk.read(data).hunks:
        if it.kind == hunk.Kind.DATA:
            edit.set_memory(it.number, "chip", unit=it.unit)
    return edit.build()


def main(words: Sequence[str]) -> None:
    if len(words) != 3:
        sys.exit("usage: to_chip.py IN OUT")
    with open(words[1], "rb") as opened:
        data = opened.read()
    try:
        made = to_chip(data)
    except hunk.HunkError as error:
        sys.exit(f"to_chip.py: {error}: {error.meaning}")
    with open(words[2], "wb") as out:
        out.write(made)


if __name__ == "__main__":
    main(sys.argv)
