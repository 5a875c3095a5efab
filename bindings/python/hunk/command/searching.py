"""The search of `hunk find` through files: what it prints, and what it writes to a folder."""

from __future__ import annotations

import argparse
import io
import itertools
import mmap
import os
import stat
import sys

import hunk
from hunk.command import extracting, inputs, reasons, words
from hunk.command.disks import Disk, is_image
from hunk.command.finding import Finder, Hit
from hunk.command.progress import Progress

TYPE_CHECKING = False
if TYPE_CHECKING:
    from typing import BinaryIO, Iterator, Set, Tuple, Union

    from hunk.command.disks import Bytes

NONE_FOUND, CANNOT_WRITE = 1, 3
# Of what can't be mapped.
MOST_READ = 1 << 30
MEGABYTE = 1_000_000


# ---- The bytes of a file.


def read_pieces(file: Union[io.FileIO, BinaryIO]) -> bytes:
    """What a pipe gives, up to the most."""
    pieces, left = [], MOST_READ
    while left and (piece := file.read(min(left, inputs.PIECE))):
        pieces.append(piece)
        left -= len(piece)
    if not left:
        raise hunk.HunkError("FileLimit", reasons.FILE_LIMIT, MOST_READ, meaning=reasons.MEANINGS[reasons.FILE_LIMIT])
    return b"".join(pieces)


def bytes_of(found: inputs.Found) -> Bytes:
    """The bytes of a file: a map of one that has a length, which is private so that the library can be given its address."""
    if found.error:
        raise found.error
    if found.is_named and found.name == inputs.STANDARD_INPUT:
        return read_pieces(inputs.standard_input())
    if not found.is_named and not stat.S_ISREG(os.stat(found.name).st_mode):
        raise inputs.NoFile
    with open(found.name, "rb", buffering=0) as file:
        state = os.fstat(file.fileno())
        if stat.S_ISREG(state.st_mode) and state.st_size:
            return mmap.mmap(file.fileno(), 0, access=mmap.ACCESS_COPY)
        return read_pieces(file)


# ---- What is found.


class Search:
    """The search through all files: what it prints, and the folder that it writes to."""

    def __init__(self, options: argparse.Namespace) -> None:
        self.is_wide, self.is_raw = options.wide, options.raw
        self.folder = extracting.Folder(options.extract) if options.extract is not None else None
        self.progress = Progress(sys.stderr.isatty() and not sys.stdout.isatty())
        self.files = self.hits = self.status = 0

    def fail(self, name: str, text: str, status: int = NONE_FOUND) -> None:
        self.progress.clear()
        self.status = max(self.status, status)
        inputs.say(name, text)

    def _hits_of(self, data: Bytes) -> Iterator[Hit]:
        def tell(place: int) -> None:
            if self.progress.is_due():
                self.progress.tell(f"{place // MEGABYTE} of {len(data) // MEGABYTE} MB, {words.counted(self.hits, 'hunk file')}")

        with Finder(data, self.is_wide, tell) as finder:
            yield from finder.hits()

    def _all_of(self, name: str, data: Bytes) -> Iterator[Tuple[str, Hit, Bytes]]:
        """The hunk files in bytes, each with a name and the bytes in which it stands: of a disk image those of its files, and then
        what is in none of these."""
        if self.is_raw or not is_image(data):
            yield from ((name, hit, data) for hit in self._hits_of(data))
            return
        disk = Disk(data)
        known: Set[int] = set()
        for file in itertools.chain(disk.files(), disk.deleted()):
            content = file.content(data)
            hits = [*self._hits_of(content)]
            known.update(file.places([it.place for it in hits]))
            yield from ((f"{name}!{path_text(file.names)}", hit, content) for hit in hits)
        for hit in self._hits_of(data):
            if hit.place not in known and not disk.is_joined(hit.place, hit.size):
                yield name, hit, data

    def look_in(self, found: inputs.Found) -> None:
        """Tells of what is found in a file, unless it can't be read."""
        name = words.printed(found.name)
        self.files += 1
        try:
            data = bytes_of(found)
        except (hunk.HunkError, OSError, inputs.NoFile, MemoryError) as error:
            self.fail(name, inputs.explained(inputs.alone(error)))
            return
        for where, hit, within in self._all_of(name, data):
            self.hits += 1
            inside = "-" if hit.inside is None else hit.inside
            print(hit.place, hit.size, hit.what, hit.hunks, hit.memory, inside, where, sep="\t")
            if self.folder:
                # The folders of the input are left out.
                last = words.printed(os.path.basename(found.name)) + where[len(name) :]
                self._extract(self.folder.name_for(last, hit.place), within[hit.place : hit.place + hit.size])

    def _extract(self, path: str, data: bytes) -> None:
        shown = words.printed(os.fsencode(path))
        try:
            done = extracting.put(path, data)
        except OSError as error:
            self.fail(shown, f"writing failed: {error.strerror or error}", CANNOT_WRITE)
            return
        if done == extracting.OTHER_THERE:
            self.fail(shown, "another file has this name, and is kept")
        elif done == extracting.THERE:
            self.progress.clear()
            inputs.say(shown, "is there already")


def path_text(names: Tuple[bytes, ...]) -> str:
    """A path in a disk image. A slash in a name would part it."""
    return "/".join(words.printed(it).replace("/", "\\x2f") for it in names)


def look_at(search: Search, name: bytes) -> None:
    """Tells of what is found in the file of this name, or in those of the folder; not in what was written."""
    for found in inputs.found_at(name):
        if search.folder is None or found.is_named or not search.folder.has(found.name):
            try:
                search.look_in(found)
            except MemoryError as error:
                search.fail(words.printed(found.name), inputs.explained(inputs.alone(error)))


def search_all(options: argparse.Namespace) -> int:
    """Looks in all files, and answers the status."""
    search = Search(options)
    for name in map(os.fsencode, options.names):
        try:
            look_at(search, name)
        except MemoryError as error:
            # A folder may have more names than memory holds.
            search.fail(words.printed(name), inputs.explained(inputs.alone(error)))
    search.progress.clear()
    sys.stdout.flush()
    print(f"{words.counted(search.hits, 'hunk file')} in {words.counted(search.files, 'file')}", file=sys.stderr)
    return search.status or (0 if search.hits else NONE_FOUND)
