"""calls.py FILE..: as calls.c, by the package of bindings/python; `column` is a sum of two columns."""

import pathlib
import sys
import time

import hunk

ROUNDS, LEAST = 25, 4_000_000


def took(act, times):
    start = time.process_time_ns()
    for _ in range(times):
        act()
    return time.process_time_ns() - start


def tell(file, what, act):
    times = 1
    while (first := took(act, times)) < LEAST:
        times *= 2
    rounds = ROUNDS if first < 20 * LEAST else 5
    print(file, what, f"{min(took(act, times) for _ in range(rounds)) / times / 1000:.2f}")


def of_symbols(rows):
    total = 0
    for it in rows:
        total += it.value + len(it.name)
    return total


def of_relocations(rows):
    total = 0
    for it in rows:
        total += it.offset + it.target
    return total


def main(paths):
    for path in paths:
        data = pathlib.Path(path).read_bytes()
        name, total, numbers = ("relocations", of_relocations, ("offset", "target"))
        if path == "symbols":
            name, total, numbers = ("symbols", of_symbols, ("value", "name_bytes"))
        rows = getattr(hunk.read(data), name)
        tell(path, "load", lambda: hunk.load(data))
        tell(path, "read", lambda: hunk.read(data))
        tell(path, "list", lambda: getattr(hunk.read(data), name))
        tell(path, "rows", lambda: total(rows))
        tell(path, "column", lambda: sum(sum(rows.column(it)) for it in numbers))


main(sys.argv[1:])
