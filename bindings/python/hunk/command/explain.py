"""Explains reasons, by their names and numbers, and findings and warnings, by their names."""

from __future__ import annotations

import argparse

from hunk.command.judging import FINDINGS as OF_FINDINGS
from hunk.command.reasons import AT_0, AT_WORD, FINDINGS, ROWS, Reason
from hunk.command.warning_kinds import KINDS, Kind

TYPE_CHECKING = False
if TYPE_CHECKING:
    from typing import Dict, Iterator, List

NAME = "explain"
HELP = "what a reason or a warning means, and what to do about it"
# What the list has in the place of a class.
OF_WARNINGS = "warnings"
DESCRIPTION = """Says of each reason for which files are refused its number and its class, what it means, what the developer
of the file does about it, and what an archive does; of a warning of `hunk lint` what it means, what stands at
its byte, what comes of it, and what the developer does; of a finding in an object file, what it means.
Without a name all are listed, a line each: number, name, class, and what it means."""


def add_arguments(parser: argparse.ArgumentParser) -> None:
    parser.add_argument("texts", metavar="REASON", nargs="*", type=text_of,
                        help="its name, as BadOffset, in small or capital letters; or the number of a reason")


def sentence(text: str) -> str:
    return f"{text[0].upper()}{text[1:]}."


def reason_text(number: str, it: Reason) -> str:
    head = f"{it.name} ({number}), {it.kind}\n  {sentence(it.meaning)}"
    return f"{head}\n  Developer: {it.developer}.\n  Archive: {it.archive}."


def warning_text(name: str, it: Kind) -> str:
    head = f"{name} ({it.number}), a warning\n  {sentence(it.meaning)}\n  Place: {it.place}."
    return f"{head}\n  Effect: {it.effect}.\n  Developer: {it.developer}."


def known() -> Dict[str, List[str]]:
    """What there is to say, by the words that ask for it. A name of a reason and of a finding asks for both."""
    found: Dict[str, List[str]] = {}
    keyed = [(number, "", it) for number, it in ROWS.items()]
    keyed += [(number, " at byte 0", it) for number, it in AT_0.items()]
    keyed += [(number, f" at word {word:X}", it) for (number, word), it in AT_WORD.items()]
    for number, where, it in keyed:
        for said in (it.name.lower(), str(number)):
            found.setdefault(said, []).append(reason_text(f"{number}{where}", it))
    for name, meaning in FINDINGS.items():
        found.setdefault(name.lower(), []).append(f"{name}, a finding\n  {sentence(meaning)}")
    for name, kind in KINDS.items():
        found.setdefault(name.lower(), []).append(warning_text(name, kind))
    return found


def names() -> List[str]:
    """What is explained, by name."""
    return [*dict.fromkeys([*(it.name for it in ROWS.values()), *FINDINGS, *KINDS])]


def near(word: str) -> List[str]:
    """The names in which a word stands; where there are none, those that are spelled like it."""
    import difflib

    found = {name.lower(): name for name in names()}
    having = [it for it in found if word and word in it]
    return [found[it] for it in having or difflib.get_close_matches(word, found, cutoff=0.5)]


def text_of(word: str) -> str:
    """What is said of a word of the command line."""
    texts = known().get(word.lower())
    if texts:
        return "\n".join(texts)
    found = near(word.lower())
    told = f"near it: {', '.join(found)}" if found else "hunk explain lists all"
    raise argparse.ArgumentTypeError(f"{word!r} is no reason; {told}")


def lines() -> Iterator[str]:
    """All of them, a line each."""
    rows = [(str(number), it.name, it.kind, it.meaning) for number, it in ROWS.items()]
    rows += [(str(number), it.name, it.kind, f"{it.meaning}, at byte 0") for number, it in AT_0.items()]
    rows += [(str(number), it.name, it.kind, it.meaning) for (number, _), it in AT_WORD.items()]
    rows.sort(key=lambda it: int(it[0]))
    rows += [("-", name, OF_FINDINGS, meaning) for name, meaning in FINDINGS.items()]
    rows += [("-", name, OF_WARNINGS, kind.meaning) for name, kind in KINDS.items()]
    widths = [max(map(len, column)) for column in zip(*rows)]
    for number, name, kind, meaning in rows:
        yield f"{number:>{widths[0]}} {name:{widths[1]}} {kind:{widths[2]}} {meaning}"


def run(options: argparse.Namespace) -> int:
    for text in options.texts or lines():
        print(text)
    return 0
