"""What is raised of bytes that are refused. It needs no library."""

from __future__ import annotations

TYPE_CHECKING = False
if TYPE_CHECKING:
    from typing import Optional


class HunkError(ValueError):
    """Says that the bytes are refused: `reason` by its name, `number` by its number, at the byte `place`.

    `hunk` is the hunk without a base where the reason is NoBase, else None. `meaning` is the reason in a sentence."""

    def __init__(self, reason: str, number: int, place: int, hunk: Optional[int] = None, meaning: str = "") -> None:
        super().__init__(reason, number, place, hunk, meaning)
        self.reason, self.number, self.place, self.hunk, self.meaning = reason, number, place, hunk, meaning

    def __str__(self) -> str:
        which = "" if self.hunk is None else f" hunk {self.hunk}"
        return f"refused at byte {self.place}: {self.reason} ({self.number}){which}"
