"""The folder of `hunk find --extract`: each file gets a name of its own there. Nothing that is there is overwritten, and no file is
left half."""

from __future__ import annotations

import contextlib
import os
import re
import stat

TYPE_CHECKING = False
if TYPE_CHECKING:
    from typing import Set

# What a name may have, and how much of what it is made from.
OTHER = re.compile(r"[^A-Za-z0-9._!-]")
LONGEST = 120
WRITTEN, THERE, OTHER_THERE = "written", "there", "other"


def plain(text: str) -> str:
    """A name that is one in each system, stays in its folder, and is no word of a command line."""
    name = OTHER.sub("_", text)[-LONGEST:]
    return "_" + name[1:] if name[:1] in (".", "-") else name


def has_bytes(path: str, data: bytes) -> bool:
    """Whether a file has these bytes. What is no file proper has none."""
    state = os.lstat(path)
    if not stat.S_ISREG(state.st_mode) or state.st_size != len(data):
        return False
    with open(path, "rb") as file:
        return file.read() == data


def write_whole(path: str, data: bytes) -> None:
    """Writes a new file with these bytes, which are then on the disk. A FileExistsError says that one is there."""
    flags = os.O_WRONLY | os.O_CREAT | os.O_EXCL | getattr(os, "O_BINARY", 0)
    part = f"{path}.{os.getpid()}.part"
    try:
        with open(os.open(part, flags, 0o666), "wb") as file:
            file.write(data)
            file.flush()
            os.fsync(file.fileno())
        give_name(part, path)
    finally:
        with contextlib.suppress(OSError):
            os.unlink(part)


def give_name(part: str, path: str) -> None:
    """Gives a file its name, unless another one has it."""
    try:
        os.link(part, path)
    except FileExistsError:
        raise
    except (OSError, AttributeError, NotImplementedError):
        # A file has just one name in some file systems.
        if os.path.lexists(path):
            raise FileExistsError(path) from None
        os.rename(part, path)


class Folder:
    """A folder that files are written to, and their names."""

    def __init__(self, path: str) -> None:
        self.path = path
        self._names: Set[str] = set()

    def has(self, name: bytes) -> bool:
        """Whether a file lies in it."""
        with contextlib.suppress(OSError):
            return os.path.samefile(os.path.dirname(name) or b".", self.path)
        return False

    def name_for(self, text: str, place: int) -> str:
        """The path of the file that stands at a place of what the text names; another one each time."""
        name = first = f"{plain(text)}+{place:x}"
        number = 1
        while name in self._names:
            number += 1
            name = f"{first}-{number}"
        self._names.add(name)
        return os.path.join(self.path, name)


def put(path: str, data: bytes) -> str:
    """Writes a file, unless one of its name is there. Says whether it was written, or which is there."""
    os.makedirs(os.path.dirname(path) or ".", exist_ok=True)
    try:
        if not os.path.lexists(path):
            write_whole(path, data)
            return WRITTEN
    except FileExistsError:
        pass
    return THERE if has_bytes(path, data) else OTHER_THERE
