"""Makes the file OUT of parts, and says why there is none."""

from __future__ import annotations

import os
import sys

import hunk
from hunk.command import inputs, outputs, words

TYPE_CHECKING = False
if TYPE_CHECKING:
    from typing import Callable, Sequence

NOT_MADE, NO_CALL = 1, 2


class NotMade(Exception):
    """Says why a file, by its printed name, keeps OUT from being made."""

    def __init__(self, name: str, why: str) -> None:
        super().__init__(name, why)
        self.name, self.why = name, why


def read(name: str) -> bytes:
    """All bytes of a file that need be no hunk file, or of standard input."""
    path = os.fsencode(name)
    try:
        if path == inputs.STANDARD_INPUT:
            return inputs.standard_input().read()
        with open(path, "rb", buffering=0) as file:
            return file.readall()
    except (OSError, MemoryError) as error:
        why = inputs.explained(inputs.alone(error))
    except ValueError as error:
        why = str(error)
    raise NotMade(words.printed(path), why)


def place_of(parts: Sequence[hunk.Part], row: int) -> str:
    """Which part it is, and of which hunk of a load file."""
    if row == len(parts):
        return "the end of the parts"
    number = sum(it.what == "hunk" for it in parts[: row + 1]) - 1
    return f"part {row}, {parts[row].what}" + (f" of hunk {number}" if number >= 0 and parts[row].what != "hunk" else "")


def built(name: str, parts: Sequence[hunk.Part]) -> bytes:
    """The file of parts that the file of this printed name has led to."""
    try:
        return hunk.build(parts)
    except hunk.BuildError as error:
        why = f"{place_of(parts, error.row)}: refused at byte {error.place} of OUT: {error.reason}: {error.meaning}"
    raise NotMade(name, why)


def write(out: str, make: Callable[[], bytes], rest: int = 0) -> int:
    """Writes OUT, which the call makes, and says what was written, and how much of IN was left out. Answers the status; why
    nothing was made is told."""
    try:
        made = make()
    except NotMade as error:
        inputs.say(error.name, error.why)
        return NOT_MADE
    except ImportError as error:
        print(f"hunk: {error}", file=sys.stderr)
        return NO_CALL
    is_output = outputs.is_output(os.fsencode(out))
    status, count = outputs.write(out, [made])
    if status == outputs.WRITTEN and not is_output:
        print(f"wrote {count} bytes" + (f"\nrest {rest} bytes left out" if rest else ""))
    return status
