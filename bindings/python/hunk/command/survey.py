"""Sorts folders of unknown files by what is known of each."""

from __future__ import annotations

import argparse
import collections
import contextlib
import functools
import heapq
import itertools
import os
import sys
import time

from hunk.command import inputs, words
from hunk.command.inputs import Found
from hunk.command.forms import Csv, Form, Json, Tabs
from hunk.command.judging import CLASSES, Asked, Row, judge
from hunk.command.progress import Progress
from hunk.command.reasons import MEANINGS, NOT_JUDGED, OUT_OF_MEMORY
from hunk.command.resumed import TableError
from hunk.command.table import Table
from hunk.command.workers import MOST, Part, Workers

TYPE_CHECKING = False
if TYPE_CHECKING:
    from typing import Generator, Iterable, Iterator, List, Optional

NAME = "survey"
HELP = "sort folders of unknown files by what they are: a row a file"
DESCRIPTION = """Sorts files, and those in folders and their subfolders, by what is known of each. Standard output gets a row
a file, sorted by name, of these fields with a tab between them:

  class   load           a load file
          object         an object file
          findings       an object file in which an offset is wrong
          wide           a file that is refused, and that is read with --wide: it is spelled otherwise
          no hunk file, not supported, damaged, not judged: why a file is refused, as docs/reasons.tsv has it;
                         what can't be opened or read is not judged, nor a hunk file of 64 MiB or more
  reason  of the refusal, the first finding, or the system's error; - where there is none
  byte    where the reason was met; - where there is none. Of class wide both are those without --wide
  rest    the bytes after a file that is accepted; - of any other
  sha256, first   with --sha256: the sum of the file, and the first name with the same; - where it is the first
  file, program, memory, same, first   with --same: sums of the bytes, of the program without names, symbols
          and debug data, and of what is loaded; the first of these that an earlier file has, and that file
  what    with --what: what the file is by its first bytes, as `LhA archive`; - where that is not known
  name    what is no printable text of UTF-8 in it, and the backslash, is `\\x` and two digits for each byte

With --json each row is an object of JSON on a line, null in the place of -. With --csv the first line names the
fields, these have commas between them, and - is left out. Standard error gets how many
files each class has, and on a terminal how many are done. The status is 1 where a file was not judged.
Links to files are followed, and those to folders are not."""

# What takes less is not worth the time that processes need to begin.
SECONDS_ALONE = 1.0
CHUNK, CHUNKS_AHEAD = 32, 4


def add_arguments(parser: argparse.ArgumentParser) -> None:
    inputs.add_arguments(parser, wide=False)
    forms, sums = parser.add_mutually_exclusive_group(), parser.add_mutually_exclusive_group()
    forms.add_argument("--json", action="store_true", help="write an object of JSON on a line for each file")
    forms.add_argument("--csv", action="store_true", help="write rows of CSV, with a first line that names the fields")
    sums.add_argument("--sha256", action="store_true", help="tell the sum of each file, and which have the same bytes")
    sums.add_argument("--same", action="store_true", help="tell three sums of each file, and which have the same program or memory")
    parser.add_argument("--what", action="store_true", help="tell what each file is by its first bytes")
    parser.add_argument("--resume", metavar="TABLE",
                        help="write the rows to this file, and pass over what has one there: so an interrupted run goes on. "
                        "It is new or empty, or one that --resume began: its first line names the fields")
    parser.add_argument("--jobs", metavar="N", type=words.count, help="how many processes judge files, at most 61 "
                        "[default: one, and after a second one for each processor]")


def processors() -> int:
    """How many this process may use."""
    try:
        return len(os.sched_getaffinity(0))
    except AttributeError:
        return os.cpu_count() or 1


# ---- The rows, in order.


def found_below(names: Iterable[str]) -> Iterator[Found]:
    """What is at the names and below them, by name, each once. A pipe that is named is no file, too."""
    each = (inputs.found_at(os.fsencode(name)) for name in dict.fromkeys(names))
    last = None
    for found in heapq.merge(*each, key=lambda it: it.name):
        if found.name != last:
            yield Found(found.name, found.name == inputs.STANDARD_INPUT, found.error)
        last = found.name


def chunks(found: Iterator[Found]) -> Iterator[List[Found]]:
    while True:
        chunk = [*itertools.islice(found, CHUNK)]
        if not chunk:
            return
        yield chunk


def judge_alone(found: Iterable[Found], asked: Asked, seconds: float = float("inf")) -> Iterator[List[Row]]:
    """The rows of the files of so many seconds."""
    begun = time.monotonic()
    for it in found:
        yield [judge(it, asked)]
        if time.monotonic() - begun > seconds:
            return


def judge_chunk(chunk: List[Found], asked: Asked) -> List[Row]:
    return [judge(it, asked) for it in chunk]


def judge_by(workers: Workers, found: Iterator[Found], asked: Asked, ahead: int) -> Iterator[List[Row]]:
    """The rows of files that processes judge, of which so many chunks are waited for."""
    waiting: collections.deque[Part] = collections.deque()

    def done(most: int) -> Iterator[List[Row]]:
        """The rows of the first chunks: of those that are judged, and of others until at most so many wait."""
        while waiting and (waiting[0].answer is not None or len(waiting) > most):
            if waiting[0].worker:
                workers.receive()
                continue
            part = waiting.popleft()
            # What no process has judged is judged here.
            yield from judge_alone(part.given, asked) if part.answer is None else [part.answer]

    for chunk in chunks(found):
        waiting.append(Part(chunk))
        # Other processes have no standard input. It may be waited for, after what comes before it.
        is_ours = any(it.name == inputs.STANDARD_INPUT for it in chunk)
        while not is_ours and not workers.give(waiting[-1]):
            is_ours = not workers.are_there()
            workers.receive()
            yield from done(ahead)
        yield from done(0 if is_ours else ahead)
    yield from done(0)


def workers_for(jobs: int, asked: Asked) -> Optional[Workers]:
    """Processes that judge files; None where one is enough, or the system knows none."""
    if jobs > 1:
        with contextlib.suppress(ImportError, NotImplementedError, OSError, MemoryError):
            return Workers(jobs, functools.partial(judge_chunk, asked=asked))
    return None


def rows_of(found: Iterator[Found], asked: Asked, jobs: Optional[int]) -> Generator[List[Row], None, None]:
    """The rows of files, some at a time, in their order."""
    if jobs is None:
        yield from judge_alone(found, asked, SECONDS_ALONE)
        jobs = processors()
    first = next(found, None)
    if first is None:
        return
    found, workers = itertools.chain([first], found), workers_for(jobs, asked)
    if workers is None:
        yield from judge_alone(found, asked)
        return
    with workers:
        yield from judge_by(workers, found, asked, CHUNKS_AHEAD * min(jobs, MOST))


# ---- What is told meanwhile.


def summary(table: Table) -> str:
    """How many files each class has."""
    told = f"{words.counted(sum(table.counts.values()), 'file')}: " + ", ".join(f"{table.counts[it]} {it}" for it in CLASSES)
    if table.asked.same:
        return f"{told}; {table.copies} the same as one before"
    return told + (f"; {table.copies} with the bytes of one before" if table.asked.sum else "")


def form_of(options: argparse.Namespace) -> Form:
    return Json() if options.json else Csv() if options.csv else Tabs()


def run(options: argparse.Namespace) -> int:
    asked = Asked(options.sha256, options.same, options.what)
    try:
        table = Table(options.resume, form_of(options), asked)
    except (TableError, OSError, MemoryError) as error:
        why = getattr(error, "strerror", None) or str(error) or MEANINGS[OUT_OF_MEMORY]
        print(f"hunk: {words.printed(os.fsencode(options.resume))}: {why}", file=sys.stderr)
        return 2
    progress = Progress(sys.stderr.isatty() and (options.resume is not None or not sys.stdout.isatty()))
    with table:
        missing = (it for it in found_below(options.names) if not table.has(it.name))
        with contextlib.closing(rows_of(missing, asked, options.jobs)) as judged:
            try:
                for rows in judged:
                    table.write(rows)
                    progress.tell(words.counted(sum(table.counts.values()), "file"))
            finally:
                progress.clear()
    sys.stdout.flush()
    print(summary(table), file=sys.stderr)
    return 1 if table.counts[NOT_JUDGED] else 0
