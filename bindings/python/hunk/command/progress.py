"""How far a command is, on a terminal that shows nothing else."""

from __future__ import annotations

import sys
import time

SECONDS_BETWEEN = 0.1


class Progress:
    """A line of standard error that is written anew."""

    def __init__(self, is_shown: bool) -> None:
        self.is_shown, self.last, self.begun = is_shown, 0.0, time.monotonic()

    def is_due(self) -> bool:
        """Whether it is time to tell again."""
        return self.is_shown and time.monotonic() - self.last >= SECONDS_BETWEEN

    def tell(self, text: str) -> None:
        if self.is_due():
            self.last = time.monotonic()
            print(f"\r{text}, {self.last - self.begun:.0f} s ", end="", file=sys.stderr, flush=True)

    def clear(self) -> None:
        if self.is_shown and self.last:
            print("\r\x1b[K", end="", file=sys.stderr, flush=True)
