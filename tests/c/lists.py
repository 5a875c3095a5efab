"""lists.py: holds the lists of a File of bindings/python to lists of its rows, and counts what is asked of the library and made.
Prints what differs, and ends with status 1 where something does."""

import copy
import pathlib
import pickle
import sys
import typing
from unittest import mock

sys.path.insert(0, str(pathlib.Path(__file__).resolve().parents[2] / "bindings/python"))
import hunk
import hunk.items
import hunk.loading
import hunk.reading

# A unit `u` of CODE of 8 bytes, with three relocations of hunk 5, one outside; a definition, two references of one name and one
# of another; and two symbols.
OBJECT = bytes.fromhex(
    "000003e7 00000001 75000000 000003e9 00000002 00000000 00000000"
    "000003ec 00000003 00000000 00000000 00000004 00000008 00000000"
    "000003ef 01000001 5f610000 00000004 81000001 5f620000 00000002 00000000 00000004 83000001 5f630000 00000001 00000002 00000000"
    "000003f0 00000001 78000000 00000001 00000002 79797979 7a000000 00000002 00000000 000003f2")


def named(count):
    """A hunk of a longword with so many symbols `a`, whose values are 0, 1 and so on."""
    return bytes.fromhex(
        "000003f3 00000000 00000001 00000000 00000000 00000001 000003e9 00000001 00000000 000003f0"
        + "".join(f"00000001 61000000 {it:08x}" for it in range(count)) + "00000000 000003f2")


NAMED = named(100)
LISTS = ("units", "blocks", "symbols", "relocations", "entries", "references", "findings", "warnings")
SLICES = [slice(*it) for it in ((None,), (1, None), (None, -1), (1, 2), (2, 1), (None, None, 2), (None, None, -1), (-1, 0, -2))]


def counted(where, name, act):
    """What `act` answers, and how often it came to the call of this name."""
    with mock.patch.object(where, name, wraps=getattr(where, name)) as call:
        return act(), call.call_count


def wrong_lists(file):
    """Where a list of a file is not as the list of its rows is."""
    for name in LISTS:
        rows = getattr(file, name)
        made = [*rows]
        places = [*range(len(made)), *range(-len(made), 0)]
        parts = {
            "length": (len(rows), len(made)),
            "rows": ([rows[it] for it in places], [made[it] for it in places]),
            "slices": ([rows[it] for it in SLICES], [made[it] for it in SLICES]),
            "slices of slices": ([rows[1:][it] for it in SLICES], [made[1:][it] for it in SLICES]),
            "rows of slices": ([[*rows[it]] for it in SLICES], [made[it] for it in SLICES]),
            "reversed": ([*reversed(rows)], made[::-1]),
            "equality": ([rows == made, made == rows, rows != made, rows == [*made, 0], rows == ()], [True, True] + [False] * 3),
            "text": (repr(rows), repr(made)),
            "pickled": (pickle.loads(pickle.dumps(rows)), made),
            "a copy": (copy.deepcopy(rows)[::-1], made[::-1]),
        }
        numbers = [it for it in rows.columns if made and isinstance(getattr(made[0], it, None), int)]
        for it in numbers:
            parts[f"column {it}"] = [*rows.column(it)], [getattr(row, it) for row in made]
            parts[f"column {it} of slices"] = [[*rows[which].column(it)] for which in SLICES], [
                [getattr(row, it) for row in made[which]] for which in SLICES]
        for part, (got, wanted) in parts.items():
            if got != wanted:
                yield f"{name}, {part}: {got} where {wanted} is wanted"


def opened_and_one():
    """Of which rows the list of symbols makes one: of none until one is asked for."""
    symbols = hunk.read(NAMED).symbols
    return symbols[7].value, symbols[50:][-1].value, len(symbols[3:9])


def wrong_large():
    """What is wrong with memory of megabytes: that of rows, and of a hunk."""
    longs = 300_000
    symbols, bss = hunk.read(named(30_000)).symbols, hunk.build([hunk.Part.hunk(longs), hunk.Part.bss(longs), hunk.Part.end()])
    calls = {
        "rows": ([*symbols.column("value")], [*range(30_000)]),
        "rows of a slice": ([it.value for it in symbols[29_998:]], [29_998, 29_999]),
        "pickled": (pickle.loads(pickle.dumps(symbols))[-1], symbols[-1]),
        "a copy": (copy.deepcopy(symbols)[-1], symbols[-1]),
        "a load": (hunk.load(bss), [bytes(4 * longs)]),
        "strip": (hunk.strip(named(200_000))[-8:], bytes.fromhex("00000000 000003f2")),
    }
    return [f"large: {name}: {str(got)[-40:]}" for name, (got, wanted) in calls.items() if got != wanted]


def wrong_calls():
    offsets = hunk.read(OBJECT).relocations
    asked = hunk.reading
    names = hunk.read(OBJECT).entries
    calls = {
        "a column": ([*offsets.column("offset")], [0, 4, 8]),
        "its format": ((offsets.column("offset").format, offsets.column("place").format), ("I", "Q")),
        "a view and no copy": (offsets.column("offset").obj is offsets[1:].column("place").obj, True),
        "a view to read": (offsets.column("offset").readonly, True),
        "numbers of kinds": ([*names.column("kind")], [1, 129, 131]),
        "places of names": ([OBJECT[it : it + 2] for it in names.column("name")], [b"_a", b"_b", b"_c"]),
        "references": ([[it.offset for it in entry.references] for entry in names], [[], [0, 4], [2]]),
        "entries of references": ([*hunk.read(OBJECT).references.column("entry")], [1, 1, 2]),
        "rows that are made": (counted(hunk.items, "row_of", opened_and_one), ((7, 99, 6), 2)),
        "read asks for no list": (counted(asked, "_symbols", lambda: hunk.read(NAMED).size)[1], 0),
        "a list asks once": (counted(asked, "_relocations", lambda: hunk.read(OBJECT).relocations)[1], 1),
        "a list is kept": (counted(asked, "_symbols", lambda: [it.symbols for it in [hunk.read(OBJECT)] * 3])[1], 1),
        "many rows": (counted(asked, "_symbols", lambda: len(hunk.read(NAMED).symbols)), (100, 2)),
        "load asks once": (counted(hunk.loading, "read_header", lambda: hunk.load(NAMED)), ([bytes(4)], 1)),
    }
    for name, (got, wanted) in calls.items():
        if got != wanted:
            yield f"{name}: {got} where {wanted} is wanted"
    for what, call, wanted in (("column", lambda: offsets.column("name"), KeyError), ("row", lambda: offsets[3], IndexError)):
        try:
            yield f"{call()} where there is no such {what}"
        except wanted:
            pass


def wrong_tuples():
    """Where the named tuples of the package are not as those of `typing`."""
    kinds = (hunk.Hunk, hunk.Unit, hunk.Block, hunk.Symbol, hunk.Relocation, hunk.Reference, hunk.Entry, hunk.Finding, hunk.Warning,
             hunk.Spelling, hunk.Part)
    fields = {"size": 4, "memory": "any", "attributes": 0, "unit": 0, "number": 0, "kind": None}
    it = hunk.Hunk(4, "any", 0)
    parts = {
        "fields": ((it._asdict(), it), (fields, (4, "any", 0, 0, 0, None))),
        "defaults": (hunk.Hunk._field_defaults, {"unit": 0, "number": 0, "kind": None}),
        "text": (repr(hunk.Reference(1, offset=2, width=3)), "Reference(place=1, offset=2, width=3)"),
        "another field": (it._replace(size=8), (8, *it[1:])),
        "pickled": (pickle.loads(pickle.dumps(it)), it),
        "names": ([(kind.__name__, getattr(hunk, kind.__name__)) for kind in kinds], [(kind.__name__, kind) for kind in kinds]),
        "what is told of each": ([kind.__name__ for kind in kinds if kind.__doc__.startswith(kind.__name__)], []),
        "methods": (hunk.Part.end(), hunk.Part("block", hunk.Kind.END)),
    }
    # Before 3.10 Python has no `|` of types.
    if sys.version_info >= (3, 10):
        parts["types"] = [[*typing.get_type_hints(kind)] for kind in kinds], [[*kind._fields] for kind in kinds]
    return [f"{name}: {got} where {wanted} is wanted" for name, (got, wanted) in parts.items() if got != wanted]


def main():
    files = (OBJECT, NAMED, NAMED[:-4] + bytes(4))
    wrong = [it for data in files for it in wrong_lists(hunk.read(data, partial=True))]
    wrong += [*wrong_calls(), *wrong_large(), *wrong_tuples()]
    pickled = pickle.loads(pickle.dumps(hunk.read(OBJECT)))
    if pickled.entries != hunk.read(OBJECT).entries:
        wrong.append("a File that was pickled has other entries")
    print(*wrong, sep="\n", end="\n" if wrong else "")
    return 1 if wrong else 0


if __name__ == "__main__":
    sys.exit(main())
