"""The command `hunk`: what stands in hunk files of AmigaDOS.

    hunk COMMAND FILE..
    hunk explain REASON..

Each command is a module beside this one, with its name, its help, its arguments and its run, which answers the status: 0 where
all is well, 1 where a file was refused or could not be read (the others are done), 2 of a command line that is refused or where
the library is not there, 3 where nothing more can be written, 130 of ^C, and 141 where nobody reads any more of what is printed.
The module of a command is imported when that is called, so that no other takes time to begin.
"""

from __future__ import annotations

import argparse
import contextlib
import gc
import importlib
import os
import sys

import hunk
from hunk.command import inputs, streams

TYPE_CHECKING = False
if TYPE_CHECKING:
    from typing import Any, Iterator, Optional, Sequence

# The commands, by what people want.
GROUPS = (
    ("See what stands in files", ("show", "size", "nm", "relocs", "dump", "json", "map")),
    ("Find out what is wrong", ("validate", "lint", "explain")),
    ("Sort, find and compare files", ("survey", "find", "diff", "same")),
    ("Make other files of them", ("relocate", "strip", "convert", "edit", "build")),
)
NAMES = tuple(name for _, names in GROUPS for name in names)
# The modules that have another name than their command.
MODULES = {"json": "documents", "map": "picture", "diff": "differences"}
COMPLETIONS = {"bash": "hunk.bash", "zsh": "_hunk", "fish": "hunk.fish"}
NOT_READ, NO_LIBRARY, CANNOT_WRITE, INTERRUPTED, NOBODY_READS = 1, 2, 3, 130, 141
# Those of a terminal that does not say how many it has.
COLUMNS = 80
# The name in an ImportError where the library is not there.
LIBRARY = "libhunk"

USAGE = "hunk [-h] [--version] [--completions SHELL] COMMAND .."
DESCRIPTION = "Tells what stands in hunk files of AmigaDOS, executables and object files, and makes other files of them."
EPILOG = """strip, convert and edit take a file IN, and build a document of JSON, and write a file OUT; diff and same take two
files. All others but explain take files, folders with their subfolders, and - for standard input. `hunk COMMAND
--help` says more.

What can't be read or is refused is told on standard error, and the others go on:
  hunk: NAME: refused at byte N: REASON: what it means (no hunk file, not supported, damaged or not judged)
`hunk explain REASON` says what to do about it.

Exit status:
  0    done
  1    a file was refused or could not be read; of validate also: it has findings; of diff: the files differ;
       of same: nothing is the same; of lint: something was told; of find: nothing was found
  2    the command line was refused, or the library is not there; of diff, same and lint: a file was refused or could
       not be read
  3    writing failed
  130  interrupted
  141  what reads the output has ended, as with | head"""


def module_of(name: str) -> Any:
    """The module of a command."""
    return importlib.import_module(f"hunk.command.{MODULES.get(name, name)}")


def columns() -> int:
    """The columns of the terminal that help is printed on."""
    asked = os.environ.get("COLUMNS", "")
    if asked.isdecimal() and len(asked) < 6 and int(asked):
        return int(asked)
    try:
        return os.get_terminal_size(1).columns or COLUMNS
    except OSError:
        return COLUMNS


class Form(argparse.RawDescriptionHelpFormatter):
    """The form of help. Each argument that is added makes one, too, and without a width argparse would import shutil to ask for it:
    that takes a fifth of the time in which Python itself starts."""

    def __init__(self, prog: str) -> None:
        super().__init__(prog, width=columns() - 2)


class Parser(argparse.ArgumentParser):
    """A parser that does not pass over what it can't print, as argparse does in some versions."""

    def _print_message(self, message: str, file: Any = None) -> None:
        (file or sys.stderr).write(message)


class PrintCompletions(argparse.Action):
    """Prints what a shell completes of a command line of `hunk`, and ends."""

    def __call__(self, parser: Any, options: Any, shell: Any, word: Any = None) -> None:
        import pkgutil

        sys.stdout.write((pkgutil.get_data("hunk", f"completions/{COMPLETIONS[shell]}") or b"").decode())
        sys.stdout.flush()
        parser.exit()


class TopParser(Parser):
    """The parser of `hunk` itself. Its help has the commands in their groups."""

    def format_help(self) -> str:
        self.description = "\n\n".join([DESCRIPTION, *group_texts()])
        return super().format_help()


def group_texts() -> Iterator[str]:
    """Each group of commands, with a line for each."""
    width = max(map(len, NAMES))
    for title, names in GROUPS:
        yield "\n".join([f"{title}:", *(f"  {it:{width}}  {module_of(it).HELP}" for it in names)])


def named(words: Sequence[str]) -> Sequence[str]:
    """The command that a command line names; where it names none, all that it might."""
    first = next((it for it in words if it == "-" or not it.startswith("-")), "")
    return (first,) if first in NAMES else NAMES


def make_parser(words: Sequence[str]) -> Parser:
    """The parser of these words, which has just the command that they name."""
    parser = TopParser(prog="hunk", usage=USAGE, epilog=EPILOG, formatter_class=Form)
    parser.add_argument("--version", action="version", version=f"hunk {hunk.__version__}", help="print the version")
    parser.add_argument("--completions", action=PrintCompletions, choices=tuple(COMPLETIONS), metavar="SHELL",
                        help="print what bash, zsh or fish completes of a command line")
    made = parser.add_subparsers(prog="hunk", metavar="COMMAND", required=True, help=argparse.SUPPRESS, parser_class=Parser)
    for name in named(words):
        module = module_of(name)
        subparser = made.add_parser(name, description=module.DESCRIPTION, formatter_class=Form)
        module.add_arguments(subparser)
        subparser.set_defaults(run=module.run)
    return parser


def run(words: Sequence[str]) -> int:
    """Does what the words say, and answers the status. All that is printed is then written."""
    try:
        options = make_parser(words).parse_args(words)
        status = options.run(options)
    except SystemExit as ended:
        # Help was printed, or what is wrong with the words.
        status = ended.code
    except ImportError as error:
        if error.name != LIBRARY:
            raise
        print(f"hunk: {error}", file=sys.stderr)
        status = NO_LIBRARY
    except MemoryError as error:
        print(f"hunk: {inputs.explained(inputs.alone(error))}", file=sys.stderr)
        status = NOT_READ
    sys.stdout.flush()
    return int(status)


def main(words: Optional[Sequence[str]] = None) -> int:
    """Runs the command with these words, or those of the command line. Answers its status."""
    if words is None and hasattr(gc, "freeze"):
        # What was imported stays to the end of the process, so no time is spent on looking for garbage in it.
        gc.freeze()
    try:
        streams.prepare()
        return run(sys.argv[1:] if words is None else words)
    except KeyboardInterrupt:
        with contextlib.suppress(OSError):
            sys.stdout.flush()
        streams.give_up_output()
        return INTERRUPTED
    except BrokenPipeError:
        streams.give_up_output()
        return NOBODY_READS
    except OSError as error:
        print(f"hunk: writing failed: {error.strerror or error}", file=sys.stderr)
        streams.give_up_output()
        return CANNOT_WRITE
