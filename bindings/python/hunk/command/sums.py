"""Sums by which the same program is known again, whatever else its file has. docs/SUMS.md says how others compute them."""

from __future__ import annotations

import hashlib
import struct

import hunk
from hunk.command.layout import CONTENTS
from hunk.tuples import NamedTuple

TYPE_CHECKING = False
if TYPE_CHECKING:
    from typing import Dict, Iterator, List, Optional, Sequence


class Sums(NamedTuple):
    """SHA-256 of the bytes of a file, of its program, and of its memory, in lower-case digits; None where there is none."""

    file: str
    program: str
    memory: Optional[str]


def are_apart(offsets: Sequence[int]) -> bool:
    """Whether the relocated longwords at these offsets are the same or do not overlap: else it counts which comes first."""
    rising = sorted(set(offsets))
    return all(after - before >= 4 for before, after in zip(rising, rising[1:]))


def longs(*values: int) -> bytes:
    return struct.pack(f">{len(values)}I", *values)


def content_of(data: bytes) -> bytes:
    """A content without the zero longwords at its end."""
    data = data.rstrip(b"\0")
    return data + bytes(-len(data) % 4)


def hunk_parts(content: bytes, groups: Dict[int, List[int]]) -> Iterator[bytes]:
    """A canonical hunk, whose relocations are these offsets by their targets."""
    yield longs(hunk.Kind.CODE, len(content) // 4)
    yield content
    if groups:
        yield longs(hunk.Kind.RELOC32)
        for target, offsets in sorted(groups.items()):
            yield longs(len(offsets), target, *sorted(offsets))
        yield longs(0)
    yield longs(hunk.Kind.END)


def canonical(file: hunk.File) -> Optional[bytes]:
    """The file that all load files with the same table and memory have in common; None where relocated longwords overlap."""
    groups: List[Dict[int, List[int]]] = [{} for _ in file.hunks]
    for it in file.relocations:
        groups[it.hunk].setdefault(it.target, []).append(it.offset)
    if not all(are_apart([offset for offsets in its.values() for offset in offsets]) for its in groups):
        return None
    # The header ends where the first block begins.
    parts = [file.data[: file.blocks[0].place]]
    contents = (file.content(it) for it in file.blocks if it.kind in CONTENTS)
    for content, its in zip(contents, groups):
        parts += hunk_parts(content_of(content), its)
    return b"".join(parts)


def sum_of(data: bytes) -> str:
    return hashlib.sha256(data).hexdigest()


def memory_sum(file: hunk.File) -> Optional[str]:
    """That of the memory of a load file, unless relocated longwords overlap; an object file has none."""
    made = None if file.is_object else canonical(file)
    return None if made is None else sum_of(made)


def sums_of(file: hunk.File, data: bytes) -> Sums:
    """Those of a file that was accepted, in its plain spelling, of these bytes."""
    return Sums(sum_of(data), sum_of(hunk.strip(file.data)), memory_sum(file))
