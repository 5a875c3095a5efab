"""Prints the symbols of a load file by address: symbols.py FILE [BASE]

Its hunks lie one after the other from BASE (1000, in hexadecimal) on. The number says how many longs point to the address."""

import collections
import itertools
import sys
from typing import Sequence

import hunk


def main(words: Sequence[str]) -> None:
    if len(words) not in (2, 3):
        sys.exit("usage: symbols.py FILE [BASE]")
    base = int(words[2], 16) if len(words) > 2 else 0x1000
    with open(words[1], "rb") as opened:
        data = opened.read()
    try:
        file, segments = hunk.read(data), hunk.load(data, base)
    except hunk.HunkError as error:
        sys.exit(f"symbols.py: {error}: {error.meaning}")
    starts = list(itertools.accumulate(map(len, segments), initial=base))
    longs = (segments[it.hunk][it.offset : it.offset + 4] for it in file.relocations)
    uses = collections.Counter(int.from_bytes(it, "big") for it in longs)
    for symbol in sorted(file.symbols, key=lambda it: (it.hunk, it.value)):
        address = starts[symbol.hunk] + symbol.value
        print(f"{address:08x} {uses[address]} {symbol.name.decode('latin-1')}")


if __name__ == "__main__":
    main(sys.argv)
