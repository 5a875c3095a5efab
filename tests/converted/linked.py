"""What the tools of GNU make of what `hunk convert` writes: of load files, and of two object files that a linker joins."""

import re
import subprocess

import tools
from compared import asked, called, same

BASE = 0x21000


class Loaded:
    """A load file in memory, by what hunkinfo prints: of each hunk its name in ELF, its address and its bytes; and its relocations,
    by hunk and offset."""

    def __init__(self, program, path, words):
        self.hunks, self.bytes = [], b""
        base = f"{BASE:08x}"
        for line in asked(program, "relocate", "--base", base, *words, path):
            if line.startswith("hunk "):
                self.hunks.append((int(line.split()[3], 16), int(line.split()[4])))
            else:
                self.bytes += bytes.fromhex(line)
        self.offsets, self.names = [], []
        for line in asked(program, "show", *words, path) if self.hunks else ():
            if head := re.fullmatch(r"hunk (\d+) \d+ bytes (\w+)( 0x\w+)?", line):
                number, memory = head[1], "" if head[2] == "any" else f".{head[2]}"
            elif content := re.match(r"  (CODE|DATA|BSS)\b", line):
                kind = {"CODE": "text", "DATA": "data", "BSS": "bss"}[content[1]]
                self.names.append(f".{kind}.hunk{number}{memory}")
            elif row := re.fullmatch(r"    (\d+) (0x[0-9a-f]{8})", line):
                self.offsets.append((len(self.names) - 1, int(row[2], 16), int(row[1])))

    def overlaps(self):
        """Whether bytes are relocated twice."""
        found = sorted(it[:2] for it in self.offsets)
        return any(one[0] == other[0] and other[1] < one[1] + 4 for one, other in zip(found, found[1:]))

    def is_at(self, data):
        """Whether these are the bytes, from the first hunk on that is not zero, without zeros at the end."""
        first, there = BASE, {number for number, _, _ in self.offsets}
        for i, (address, size) in enumerate(self.hunks):
            first = address
            if size and (not self.names[i].startswith(".bss") or i in there):
                break
        wanted = self.bytes[first - BASE :]
        return wanted[: len(data)] == data and not any(wanted[len(data) :])


# ---- What other tools make of what is converted.


def look_at_object(name, path, loaded, words):
    """The file that a linker takes."""
    made = path.with_suffix(".o")
    printed, said, status = called("convert", "--to", "elf", *words, path, made)
    if loaded.overlaps():
        refused = re.search(r": byte \d+: the bytes at .* are relocated, and overlap: ELF does not add twice$", said.rstrip())
        same(f"{name}: what overlaps", (printed, refused is not None, status, made.exists()), ("", True, 1, False))
        return
    same(f"{name} to ELF", (printed, status), ("", 0))
    linked = tools.linked(made, [(section, address) for section, (address, _) in zip(loaded.names, loaded.hunks)])
    same(f"{name}, linked", loaded.is_at(tools.flat(linked)), True)
    wanted = sorted((loaded.names[hunk], offset, "R_68K_32", loaded.names[target]) for hunk, offset, target in loaded.offsets)
    got = sorted((section, offset, kind, re.sub(r"[+-]0x[0-9a-f]+$", "", text)) for section, offset, kind, text in tools.relocations(made))
    same(f"{name}: objdump -r", got, wanted)
    tools.ran("readelf", "-aW", made)


def look_at_program(name, path, loaded, words):
    """The program at an address, and its memory."""
    for to, kind in (("elf", None), ("bin", None), ("srec", "srec"), ("ihex", "ihex")):
        made = path.with_suffix(f".{to}")
        same(f"{name} to {to}", called("convert", "--to", to, "--base", hex(BASE), *words, path, made)[::2], ("", 0))
        got = made.read_bytes()
        same(f"{name}: its bytes as {to}", got == loaded.bytes if to == "bin" else loaded.is_at(tools.flat(made, kind)), True)
    made = path.with_suffix(".elf")
    wanted = [line.split("\\x00")[0] for line in called("nm", "--base", hex(BASE), *words, path)[0].splitlines()]
    same(f"{name}: nm", [escaped(it) for it in tools.names(made)], sorted(it for it in wanted if len(it) > 11))
    same(f"{name}: readelf", re.search(r"Entry point address: +(\w+)", tools.ran("readelf", "-hW", made))[1], hex(BASE))


def escaped(text):
    """A name as `hunk nm` prints it."""
    return "".join(it if " " <= it <= "~" and it != "\\" else f"\\x{ord(it):02x}" for it in text)


def look(program, home, name, data, is_wide):
    """A file, if it is a load file that is accepted. Whether it is one."""
    path, words = home / name, ["--wide"] if is_wide else []
    path.write_bytes(data)
    loaded = Loaded(program, path, words)
    if not loaded.hunks:
        return False
    look_at_object(name, path, loaded, words)
    look_at_program(name, path, loaded, words)
    return True


# ---- Object files, by a linker of their own.

# Two units that refer to each other, by all that has a form: what ld makes of both is worked out by hand, below.
FIRST = """3E7 0 3E9 5 4EB90000 0 4EFA0000 4EF90000 100000 3EC 1 1 E 0
    3EF 1000001 5F610000 4 81000001 5F620000 1 2 83000001 5F630000 1 A 8B000001 5F640000 1 12 0 3F2
    3EA 1 7 3F2"""
SECOND = "3E7 0 3E9 2 4E754E71 4E754E71 3EF 1000001 5F620000 4 1000001 5F630000 6 2000001 5F640000 5A 81000001 5F610000 1 0 0 3F2"
# References to _r alone; to _c, which is a common block of 10 and of 20 bytes; to _d before a definition, after a common block; to
# _e after its definition; a name that goes on after a zero byte, one of a debugger, and an empty one.
NAMED = """3E7 0 3E9 8 0 0 0 0 0 0 0 0 3EF 81000001 5F720000 1 0 81000001 5F630000 1 4 82000001 5F630000 10 1 8
    82000001 5F630000 20 1 C 82000001 5F640000 8 1 10 81000001 5F640000 1 14 1000001 5F640000 4 1000001 5F650000 8
    81000001 5F650000 1 18 2000001 5F610078 1234
    81000001 5F610000 1 1C 1 5F730000 0 1000000 5 0 3F0 1 6D000000 2 0 3F2"""
LISTED = ["         U _r", "00000000 T _s", "00000002 T m", "00000004 T _d", "00000008 T _e", "00000020 C _c", "00001234 A _a"]


# All kinds of relocations and references that have a form, but for RELOC32 and REF32; the first adds FFFE, which is -2.
KINDS = """3E7 0 3E9 7 FFFE0000 0 0 0 0 0 0 3ED 1 0 0 0 3FD 1 0 4 0 3FE 1 0 8 0
    3EF 88000001 5F610000 1 C 89000001 5F620000 8 1 10 8A000001 5F630000 1 14 8B000001 5F640000 1 18 83000001 5F640000 1 1A 0 3F2"""
ROWS = [(0x0, "R_68K_PC16", ".text.hunk0-0x00000002"), (0x4, "R_68K_PC32", ".text.hunk0"), (0x8, "R_68K_16", ".text.hunk0"),
        (0xC, "R_68K_PC32", "_a"), (0x10, "R_68K_PC32", "_b"), (0x14, "R_68K_16", "_c"), (0x18, "R_68K_8", "_d"),
        (0x1A, "R_68K_PC16", "_d")]


def objects():
    """All of them, by name."""
    for name, text in (("first", FIRST), ("second", SECOND), ("named", NAMED), ("kinds", KINDS)):
        yield name, b"".join(bytes.fromhex(it.zfill(8)) for it in text.split())


def look_at_objects(home):
    """What ld makes of two object files at 1000, 1014 and 1018: R_68K_32 by a section and by names, PC16 and 8."""
    for name, data in objects():
        (home / name).write_bytes(data)
        same(f"{name} to ELF", called("convert", "--to", "elf", home / name, home / f"{name}.o"), ("", "", 0))
    same("what nm lists of named", tools.names(home / "named.o"), LISTED)
    same("what objdump lists of kinds", [it[1:] for it in tools.relocations(home / "kinds.o")], ROWS)
    script = home / "both.ld"
    script.write_text("SECTIONS { .text 0x1000 : { first.o(.text.hunk0) first.o(.data.hunk1) second.o(.text.hunk0) } }\n")
    subprocess.run([f"{tools.PREFIX}ld", "-T", script.name, "-e", "0", "-o", "both", "first.o", "second.o"], cwd=home, check=True)
    # _a is 1004, _b 101C, _c 101E. At 1002 stands _b, at 100A _c less 100A, at 100E 10 more than 1014, at 1012 the byte 5A; and at
    # 1018 _a and the longword that was there.
    wanted = "4eb90000 101c0000 4efa0014 4ef90000 10245a00 00000007 4e755e75 4e754e71"
    same("both objects", tools.flat(home / "both").hex(), wanted.replace(" ", ""))
