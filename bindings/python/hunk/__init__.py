"""Hunk files of AmigaDOS, by the C library libhunk: loads, checks and strips them, and reads what stands in them.

    import hunk

    for segment in hunk.load(data, base=0x21000):
        ...
    for symbol in hunk.read(data).symbols:
        print(symbol.hunk, symbol.value, symbol.name)
    for part in hunk.parts(data):
        print(part.what, part.word, part.content)
    data = hunk.build([hunk.Part.hunk(1), hunk.Part.block(hunk.Kind.CODE, b"NuNq"), hunk.Part.end()])

`data` is a bytes-like object; anything else raises a TypeError. Bytes that are refused raise a HunkError, which says why
and at which byte; `hunk.read` with `partial=True` gives what stands before it. Parts that spell no file raise a BuildError.
The module `hunk.stream`, to import by itself, loads a file that comes piece by piece. `hunk.library` says which library is taken.
"""

from __future__ import annotations

import importlib

# Type checkers take it for true. No module imports `typing` when it runs, which takes a tenth of the time of a short command.
TYPE_CHECKING = False
if TYPE_CHECKING:
    from typing import Any, List

    from hunk.building import BuildError, Part, build, parts
    from hunk.editing import Edit, EditError
    from hunk.errors import HunkError
    from hunk.items import Entry, EntryKind, Finding, Reference, Relocation, Symbol, Unit, Warning
    from hunk.loading import load, load_at, table
    from hunk.reading import File, check, read
    from hunk.lists import Rows
    from hunk.rows import BUDGET, Block, Data, Flags, Hunk, Kind, Spelling
    from hunk.spellings import input_place, plain, spelling, strip

__version__ = "0.3.0"
__all__ = [
    "BUDGET",
    "Block",
    "BuildError",
    "Data",
    "Edit",
    "EditError",
    "Entry",
    "EntryKind",
    "File",
    "Finding",
    "Flags",
    "Hunk",
    "HunkError",
    "Kind",
    "Part",
    "Reference",
    "Relocation",
    "Rows",
    "Spelling",
    "Symbol",
    "Unit",
    "Warning",
    "build",
    "check",
    "input_place",
    "load",
    "load_at",
    "parts",
    "plain",
    "read",
    "spelling",
    "strip",
    "table",
]

# Where the names stand: a module is imported when the first of its names is asked for. So what needs no library does without it.
_NAMES = {
    "building": ("BuildError", "Part", "build", "parts"),
    "editing": ("Edit", "EditError"),
    "errors": ("HunkError",),
    "items": ("Entry", "EntryKind", "Finding", "Reference", "Relocation", "Symbol", "Unit", "Warning"),
    "lists": ("Rows",),
    "loading": ("load", "load_at", "table"),
    "reading": ("File", "check", "read"),
    "rows": ("BUDGET", "Block", "Data", "Flags", "Hunk", "Kind", "Spelling"),
    "spellings": ("input_place", "plain", "spelling", "strip"),
}
_PLACES = {name: module for module, names in _NAMES.items() for name in names}


def __getattr__(name: str) -> Any:
    """Imports the module of a name, or the module that is asked for."""
    if name in (*_NAMES, "library"):
        return importlib.import_module(f"hunk.{name}")
    if name not in _PLACES:
        raise AttributeError(f"module 'hunk' has no attribute {name!r}")
    value = globals()[name] = getattr(importlib.import_module(f"hunk.{_PLACES[name]}"), name)
    return value


def __dir__() -> List[str]:
    return sorted({*globals(), *_NAMES, *__all__})
