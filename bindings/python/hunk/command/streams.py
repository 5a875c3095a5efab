"""The standard streams, whatever the command was started with: some may be closed, and standard error may take nothing."""

from __future__ import annotations

import contextlib
import io
import os
import sys

TYPE_CHECKING = False
if TYPE_CHECKING:
    from typing import Any, Optional

# Each descriptor, and what it gets where it is closed, so that no file gets its number: what can't be read, what can't be
# written, and what goes nowhere.
DESCRIPTORS = ((0, os.O_WRONLY), (1, os.O_RDONLY), (2, os.O_WRONLY))


class Said(io.FileIO):
    """Standard error. What it does not take is left out, and nothing else changes for that."""

    def write(self, data: Any) -> int:
        left = memoryview(data)
        with contextlib.suppress(OSError):
            while left:
                # What would have to be waited for is left out, too.
                left = left[super().write(left) or len(left) :]
        return len(data)


def hold() -> None:
    """Opens what is closed. It is inherited, as by processes that judge files."""
    for number, mode in DESCRIPTORS:
        try:
            os.fstat(number)
        except OSError:
            # The lowest number that is free is this one.
            os.set_inheritable(os.open(os.devnull, mode), True)


def prepare() -> None:
    """Makes the streams fit to be used. Another one that a caller in Python has put in their place stays."""
    hold()
    if sys.stderr is None or sys.stderr is sys.__stderr__:
        encoding = getattr(sys.stderr, "encoding", None) or "utf-8"
        taken: Any = Said(2, "w", closefd=False)
        sys.stderr = io.TextIOWrapper(taken, encoding, "backslashreplace", write_through=True)
    if sys.stdout is None:
        sys.stdout = open(1, "w", encoding="utf-8", closefd=False)
    if isinstance(sys.stdout, io.TextIOWrapper):
        sys.stdout.reconfigure(encoding="utf-8", newline="\n")


def stream_of(state: os.stat_result) -> Optional[str]:
    """The standard stream, by its name, that goes to what has this state."""
    return next((what for number, what in ((1, "output"), (2, "error")) if os.path.samestat(state, os.fstat(number))), None)


def give_up_output() -> None:
    """Lets what is printed from now on, and what was not written yet, go nowhere."""
    with contextlib.suppress(OSError):
        os.dup2(os.open(os.devnull, os.O_WRONLY), sys.stdout.fileno())


def let_go() -> None:
    """Leaves the streams, in a process that has no use for them: who reads what the others print sees its end."""
    with contextlib.suppress(OSError):
        nowhere = os.open(os.devnull, os.O_RDWR)
        for number, _ in DESCRIPTORS:
            os.dup2(nowhere, number)
