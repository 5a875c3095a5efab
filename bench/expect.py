#!/usr/bin/env python3
"""expect.py FILE FOLDER: what hunkinfo has to answer for a file of make.py, by a reader of its own for the blocks of such files.

FOLDER/COMMAND has what is printed, and then a line with the status. COMMAND is show, validate, relocate (at 00021000), rewrite
or strip. FOLDER/rewrite.out and FOLDER/strip.out have what is written."""
import pathlib
import sys
from itertools import accumulate

BASE = 0x21000
UNIT, SYMBOL, DEBUG, END, HEADER = 0x3E7, 0x3F0, 0x3F1, 0x3F2, 0x3F3


class File:
    """The bytes of a file, which are taken by longwords."""

    def __init__(self, data):
        self.data, self.at = data, 0

    def take(self, longs):
        start, self.at = self.at, self.at + 4 * longs
        return self.data[start : self.at]

    def long(self):
        return int.from_bytes(self.take(1), "big")

    def longs_to_zero(self):
        while long := self.long():
            yield long

    def name(self, longs):
        return self.take(longs).split(b"\0")[0].decode()


class Hunk:
    """The blocks of a hunk: the lines of `show`, the content, each offset as (target, offset), and what `strip` leaves."""

    def __init__(self, file):
        self.lines, self.content, self.offsets, self.stripped = [], b"", [], b""
        kind = None
        while kind != END:
            start = file.at
            kind = file.long()
            self.lines += getattr(self, f"lines_of_{kind:x}")(file)
            if kind not in (SYMBOL, DEBUG):
                self.stripped += file.data[start : file.at]

    def lines_of_3e9(self, file):
        self.content = file.take(file.long())
        return [f"  CODE {len(self.content)} bytes"]

    def lines_of_3ec(self, file):
        offsets = []
        for count in file.longs_to_zero():
            target = file.long()
            offsets += [(target, file.long()) for _ in range(count)]
        self.offsets += offsets
        return [f"  RELOC32 {len(offsets)}"] + [f"    {target} 0x{offset:08x}" for target, offset in offsets]

    def lines_of_3ef(self, file):
        entries = []
        for word in file.longs_to_zero():
            assert word >> 24 == 0x81, "of the references only REF32 is read"
            name = file.name(word & 0xFFFFFF)
            entries += [(name, [file.long() for _ in range(file.long())])]
        lines = [f"  EXT {len(entries)}"]
        for name, offsets in entries:
            lines += [f"    REF32 {len(offsets)} {name}"] + [f"      0x{offset:08x}" for offset in offsets]
            self.offsets += [(0, offset) for offset in offsets]
        return lines

    def lines_of_3f0(self, file):
        symbols = [(file.name(longs), file.long()) for longs in file.longs_to_zero()]
        return [f"  SYMBOL {len(symbols)}"] + [f"    0x{value:08x} {name}" for name, value in symbols]

    def lines_of_3f1(self, file):
        return [f"  DEBUG {len(file.take(file.long()))} bytes"]

    def lines_of_3f2(self, _):
        return ["  END"]

    def findings(self):
        """What is wrong with the offsets, where it is the only hunk of its unit."""
        for target, offset in self.offsets:
            if target > 0:
                yield f"offset 0x{offset:08x} BadTarget"
            if offset + 4 > len(self.content):
                yield f"offset 0x{offset:08x} OutsideHunk"

    def relocated(self, bases):
        memory = bytearray(self.content)
        for target, offset in self.offsets:
            long = int.from_bytes(memory[offset : offset + 4], "big") + bases[target]
            memory[offset : offset + 4] = (long % (1 << 32)).to_bytes(4, "big")
        return memory


def load_file(file):
    """The lines of the commands for a load file, whose hunks are as long as their contents, and what `strip` leaves."""
    _, _, count, _, _ = (file.long() for _ in range(5))
    sizes = [4 * file.long() for _ in range(count)]
    stripped = [file.data[: file.at]]
    bases = list(accumulate(sizes, initial=BASE))
    show = [f"load file {count} hunks {sum(sizes)} bytes"]
    validate = show[:]
    relocate = []
    for number, size in enumerate(sizes):
        hunk = Hunk(file)
        assert len(hunk.content) == size
        memory = hunk.relocated(bases)
        show += [f"hunk {number} {size} bytes any"] + hunk.lines
        relocate += [f"hunk {number} base 0x{bases[number]:08x} {size} bytes"]
        relocate += ["  " + memory[at : at + 16].hex() for at in range(0, size, 16)]
        stripped += [hunk.stripped]
    return {"show": show, "validate": validate, "relocate": relocate}, stripped


def object_file(file):
    """The same for an object file, whose units have one hunk each."""
    show, validate, stripped = [], [], []
    units = 0
    while file.at < len(file.data):
        start = file.at
        assert file.long() == UNIT
        name = file.name(file.long())
        stripped += [file.data[start : file.at]]
        hunk = Hunk(file)
        show += [f"unit {units} {name}", f"hunk 0 {len(hunk.content)} bytes"] + hunk.lines
        validate += [f"unit {units} hunk 0 {finding}" for finding in hunk.findings()]
        stripped += [hunk.stripped]
        units += 1
    validate += [f"object file {units} units {len(validate)} findings"]
    return {"show": [f"object file {units} units"] + show, "validate": validate}, stripped


def main(path, folder):
    data = pathlib.Path(path).read_bytes()
    file = File(data)
    lines, stripped = (load_file if data[:4] == HEADER.to_bytes(4, "big") else object_file)(file)
    assert file.at == len(data)
    for command, out in ("rewrite", data), ("strip", b"".join(stripped)):
        lines[command] = [f"wrote {len(out)} bytes"]
        pathlib.Path(folder, f"{command}.out").write_bytes(out)
    for command, printed in lines.items():
        status = 1 if command == "validate" and len(printed) > 1 else 0
        pathlib.Path(folder, command).write_text("\n".join(printed + [f"status {status}\n"]))


main(*sys.argv[1:])
