"""Finds hunk files inside other files: disk images, ROMs, dumps of memory, archives."""

from __future__ import annotations

import argparse

from hunk.command import inputs

NAME = "find"
HELP = "find hunk files inside disk images, ROMs, dumps and archives"
DESCRIPTION = """Looks at each place of a file where the first longword of a hunk file stands, at any byte, and tells of those from
which on a hunk file is accepted: a line each, with a tab between the fields:

  place   the byte at which it begins; in a file of a disk image, in that file
  bytes   how many it has. An object file is known up to its last END
  what    load, object; with --wide also wide: a load file that is accepted in its plain spelling
  hunks   how many
  memory  the bytes of all hunks in memory
  inside  the place of the hunk file in which this one begins, or -
  name    the file; in a disk image with `!` and its path there

The files of a disk image (OFS, FFS) have the names of its directories. A deleted one is `!deleted/BLOCK/NAME`, by its
header, or `!deleted/BLOCK`, by its first data block. What else stands in the image has no name there. Files are read
whole, whatever their length; of a pipe at most 1 GiB. With --extract each is written to a folder, under a name that is
made of its name here and its place, unless one of this name is there.

Exit status: 0 where one was found, 1 where none was, where a file could not be read, or where another file has the
name of one that is to be written, 3 where writing failed."""


def add_arguments(parser: argparse.ArgumentParser) -> None:
    inputs.add_arguments(parser, wide=False)
    parser.add_argument("--wide", action="store_true", help="find load files with short relocations or without END, too")
    parser.add_argument("--raw", action="store_true", help="do not read the directories of disk images")
    parser.add_argument("--extract", metavar="FOLDER", help="write each hunk file to this folder")


def run(options: argparse.Namespace) -> int:
    # No other command needs these modules.
    from hunk.command.searching import search_all

    return search_all(options)
