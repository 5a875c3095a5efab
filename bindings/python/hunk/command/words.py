"""How names and numbers are printed, and read from a command line."""

from __future__ import annotations

import argparse
from functools import lru_cache

import hunk

HEX_DIGITS = "0123456789ABCDEFabcdef"


def printed(name: bytes) -> str:
    """The name of a file on one line. What is no printable text of UTF-8, and the backslash, is `\\x` and two digits a byte."""
    def spelled(character: str) -> str:
        kept = character.isprintable() and character != "\\"
        return character if kept else "".join(f"\\x{byte:02x}" for byte in character.encode("utf-8", "surrogateescape"))

    return "".join(map(spelled, name.decode("utf-8", "surrogateescape")))


def text_of(name: bytes) -> str:
    """A name that stands in a file, as `hunkinfo show` prints it."""
    return "".join(chr(it) if 0x20 <= it < 0x7F and it != 0x5C else f"\\x{it:02x}" for it in name)


def counted(count: int, what: str) -> str:
    return f"{count} {what}" if count == 1 else f"{count} {what}s"


@lru_cache(maxsize=None)
def flag_words(flags: hunk.Flags) -> tuple[str, ...]:
    """The flags of a block. An enumeration is slow to ask."""
    return tuple(str(it.name).lower() for it in hunk.Flags if it in flags)


@lru_cache(maxsize=1024)
def kind_word(kind: hunk.Kind) -> str:
    """The name of a block's type. One that is not known is of an advisory block."""
    return "ADVISORY" if kind.name.startswith("TYPE_") else kind.name


def hunk_text(file: hunk.File, unit: int, number: int) -> str:
    """Which hunk it is: by its number in a load file, by its unit and number in an object file."""
    return f"{unit}.{number}" if file.is_object else f"{number}"


def place_text(which: str, offset: int) -> str:
    """An offset from the start of a hunk, as `1+0x4`. What is 2^31 or more is taken for negative."""
    offset = (offset + (1 << 31)) % (1 << 32) - (1 << 31)
    return f"{which}{'-' if offset < 0 else '+'}{abs(offset):#x}"


def address(text: str) -> int:
    """An address of the command line, in hexadecimal digits, with 0x in front of them or without."""
    digits = text[2:] if text[:2] in ("0x", "0X") else text
    # Python itself takes signs, spaces and digits of other scripts, too.
    value = int(digits, 16) if digits and not digits.strip(HEX_DIGITS) else -1
    if not 0 <= value < 1 << 32:
        raise argparse.ArgumentTypeError(f"{text!r} is no address of 32 bits in hexadecimal digits")
    return value


def count(text: str) -> int:
    """A number of the command line of at most 64 bits, in decimal digits."""
    digits = (text.lstrip("0") or text[-1:]) if text.isascii() and text.isdigit() else ""
    # What has more digits is not looked at: Python may refuse to.
    if not (digits and len(digits) <= 20 and int(digits) < 1 << 64):
        raise argparse.ArgumentTypeError(f"{text!r} is no number of 64 bits in decimal digits")
    return int(digits)
