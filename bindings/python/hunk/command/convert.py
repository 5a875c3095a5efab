"""Writes a file in another format: ELF, or the memory of a load as bytes, S-records or Intel hexadecimal text."""

from __future__ import annotations

import argparse
import os

import hunk
from hunk.command import inputs, outputs, records, words
from hunk.command.layout import Layout
from hunk.command.sections import NoForm, are_zero, program, relocatable

TYPE_CHECKING = False
if TYPE_CHECKING:
    from typing import Iterable, List, Optional

NAME = "convert"
HELP = "write a file as ELF, for gdb and Ghidra, or its memory as bytes, S-records or Intel hex"
DESCRIPTION = """Writes the file IN to OUT in another format:

  elf    ELF for the 68000. Of a load file with --base, a program at that address; else what a linker takes, with
         a section for each hunk, its symbols and relocations. An object file is always the latter.
  bin    the memory of a load file that is loaded at --base
  srec   the same as Motorola S-records of 32 bits, without the hunks that are zero
  ihex   the same as Intel hexadecimal text

Hunks lie one after the other. What has no form there is refused by its name and its byte, and then OUT stays as
it was: of ELF relocated bytes that overlap, relocations to a base register (DREL, DEXT), and those of 8 bits that
count from their own place. Of a file that is spelled otherwise (--wide) bytes are those of the plain spelling.
OUT is written whole or not at all. `-` is standard input, and standard output."""

FORMATS = ("elf", "bin", "srec", "ihex")


def add_arguments(parser: argparse.ArgumentParser) -> None:
    parser.add_argument("--to", choices=FORMATS, required=True, help="the format of OUT")
    parser.add_argument("--base", metavar="HEX", type=words.address, help="the address of the first hunk")
    parser.set_defaults(refuse=parser.error)
    outputs.add_arguments(parser)


def refuse_size(file: hunk.File, is_loaded: bool) -> None:
    """Refuses more memory than OUT may have. Zeros take none in a file of ELF that is not loaded."""
    counted = (it.size for it, is_zero in zip(file.hunks, are_zero(file)) if is_loaded or not is_zero)
    if sum(counted) >= inputs.LIMIT:
        raise NoForm(0, "the hunks have 64 MiB or more of memory")


def parts_of(file: hunk.File, base: int, memory: List[bytes]) -> Iterable[records.Part]:
    """The bytes of all hunks that are not zero, each with its address."""
    places = Layout(file, base).places.values()
    return [(it.base, content) for it, content, is_zero in zip(places, memory, are_zero(file)) if not is_zero]


def converted(file: hunk.File, to: str, base: Optional[int]) -> Iterable[bytes]:
    """The bytes of OUT. What could be refused is refused before the first of them is asked for."""
    if file.is_object and (to != "elf" or base is not None):
        raise NoForm(0, "an object file has no addresses: link it first, or leave --base out for a file of ELF")
    refuse_size(file, base is not None)
    if base is None:
        return [relocatable(file)]
    memory = hunk.load(file.data, base, inputs.LIMIT)
    if to == "elf":
        return [program(file, base, memory)]
    if to == "bin":
        return memory
    parts = parts_of(file, base, memory)
    return records.s_records(parts, base) if to == "srec" else records.hex_records(parts, base)


def run(options: argparse.Namespace) -> int:
    if options.to != "elf" and options.base is None:
        options.refuse(f"--to {options.to} needs --base")
    found = inputs.Found(os.fsencode(options.name), True)
    name, file = words.printed(found.name), inputs.opened(found, options.wide)
    if file is None:
        return 1
    try:
        return outputs.write(options.out, converted(file, options.to, options.base))[0]
    except NoForm as error:
        inputs.say(name, str(error))
    except (hunk.HunkError, MemoryError) as error:
        inputs.say_refused(name, error)
    return 1
