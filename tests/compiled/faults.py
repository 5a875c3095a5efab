"""Converters that are wrong in one way each. Beside it stands which part of all relocations `hunk lint` has to tell of,
at least and at most, and why."""

import struct
from fractions import Fraction

from elf import CODE, Converter

ALL = (1, 1)


class AddressesLeft(Converter):
    """The content keeps the addresses for which the program was linked: 80000000 and more, outside of any hunk."""

    told = ALL

    def value(self, address, target, hunks):
        return address


class NotPatched(Converter):
    """The content stays as the linker has left it, which is the same."""

    told = ALL

    def patch(self, content, offset, value):
        pass


class FlatOffsets(Converter):
    """Values count from the start of the program, not from that of their hunk. So those of the first hunk are right.
    Others may lead to some place within theirs."""

    told = (Fraction(1, 3), 1)

    def value(self, address, target, hunks):
        return address - min(it.address for it in hunks)


class LowByteFirst(Converter):
    """The low byte comes first. That leaves 0 as it is, and a few others within their hunk."""

    told = (Fraction(19, 20), 1)

    def patch(self, content, offset, value):
        struct.pack_into("<I", content, offset, value & 0xFFFFFFFF)


class NextTarget(Converter):
    """Targets are counted from 1. The hunk after the one that is meant is mostly smaller."""

    told = (Fraction(1, 2), 1)

    def target(self, number, count):
        return (number + 1) % count


class OneTooHigh(Converter):
    """Offsets are one too high, and so odd. A load file may not have them past the end of a hunk: there they stay."""

    told = (Fraction(99, 100), 1)

    def offsets(self, offset, section):
        return (min(offset + 1, 4 * section.longs - 4),)


class TwoTooHigh(Converter):
    """Offsets are two too high, as where a word before the content is counted. The longword there begins with the lower
    half of the value, and so nearly always leads outside."""

    told = (Fraction(99, 100), 1)

    def offsets(self, offset, section):
        return (min(offset + 2, 4 * section.longs - 4),)


class WrittenTwice(Converter):
    """Each relocation is written twice."""

    told = ALL

    def offsets(self, offset, section):
        return offset, offset


class DataLost(Converter):
    """The relocations of data are left out. Nothing in the file is left to see that by."""

    told = (0, 0)

    def is_relocated(self, section):
        return bool(section.flags & CODE)


FAULTS = (AddressesLeft, NotPatched, FlatOffsets, LowByteFirst, NextTarget, OneTooHigh, TwoTooHigh, WrittenTwice,
          DataLost)
