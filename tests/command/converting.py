"""What `hunk strip`, `hunk convert` and `hunk relocate --to bin` write: each form by hand, and what has none."""

import os

import files
import wanted
from compared import same
from files import call, raw

STRIPPED = "wrote 40 bytes\n"
LEFT_OUT = "left out: 20 bytes of NAME, SYMBOL, DEBUG and ADVISORY blocks"
# A unit without a name, of a hunk of two longwords of zeros; its next block begins at the byte 24.
UNIT = "3E7 0 3E9 2 0 0"


def strips(home):
    """`hunk strip` as `hunkinfo rewrite --strip`, by rows of tests/program/cases/rewritten.tsv."""
    load, objects = files.suite("load"), files.suite("objects")
    said = f"hunk: symbol: {LEFT_OUT}\n"
    same("strip", call("strip", "symbol", "out", folder=home), (STRIPPED, said, 0))
    same("strip: OUT", (home / "out").read_bytes(), load["one-hunk"])
    same("strip of nothing", call("strip", "out", "out", folder=home), (STRIPPED, "", 0))
    same("strip -", raw("strip", "symbol", "-", folder=home), (load["one-hunk"], said, 0))
    same("strip - -", raw("strip", "-", "-", folder=home, given=load["symbol"]), (load["one-hunk"], f"hunk: -: {LEFT_OUT}\n", 0))
    (home / "more").write_bytes(load["symbol"] + bytes(7))
    printed = f"{STRIPPED}rest 7 bytes left out\n"
    same("strip, and more", call("strip", "more", "out", folder=home),
         (printed, f"hunk: more: {LEFT_OUT}, 7 bytes after the load file\n", 0))
    # In its own place, and spelled otherwise.
    same("strip of itself", call("strip", "more", "more", folder=home)[0], printed)
    same("strip of itself", (home / "more").read_bytes(), load["one-hunk"])
    (home / "unit").write_bytes(objects["code-and-ext"])
    same("strip of an object", call("strip", "unit", "out", folder=home), ("wrote 68 bytes\n", "", 0))
    same("strip of an object", (home / "out").read_bytes(), objects["code-and-ext"])
    same("strip --wide", call("strip", "--wide", "wide", "out", folder=home),
         ("wrote 64 bytes\n", "hunk: wide: 1 block of short relocations, 1 END put in\n", 0))
    same("strip --wide", call("show", "out", folder=home)[0], wanted.SHOWN_WIDE)


def memory_of_sum():
    """The memory of sum at 21000, as wanted.py has it."""
    return bytes.fromhex("".join(it for it in wanted.RELOCATED_SUM.splitlines() if it.startswith("  ")))


def bytes_of_records(text):
    """The memory that S-records or Intel hex describe, by address, each sum tried; and where a program begins."""
    found, high, entry = {}, 0, None
    for line in text.splitlines():
        is_s = line.startswith("S")
        row = bytes.fromhex(line[2 if is_s else 1 :])
        same(f"the sum of {line}", sum(row) & 0xFF, 0xFF if is_s else 0)
        if is_s:
            width = {"0": 2, "3": 4, "7": 4}[line[1]]
            same(f"the length of {line}", row[0], len(row) - 1)
            kind, at, data = int(line[1]), int.from_bytes(row[1 : 1 + width], "big"), row[1 + width : -1]
        else:
            same(f"the length of {line}", row[0], len(row) - 5)
            kind, at, data = row[3], int.from_bytes(row[1:3], "big"), row[4:-1]
        if kind == (3 if is_s else 0):
            size = 32 if is_s else 16
            same(f"the places of {line}", (len(data) > 0, at // size), (True, (at + len(data) - 1) // size))
            found.update(enumerate(data, high + at))
        elif kind == 4:
            high = int.from_bytes(data, "big") << 16
        elif kind in (5, 7):
            entry = at if is_s else int.from_bytes(data, "big")
    return found, entry


def converts(home):
    """The memory of a program, in each format; that which is BSS is in the bytes alone."""
    memory = memory_of_sum()
    same("memory of sum", len(memory), 60)
    same("relocate --to bin", raw("relocate", "--to", "bin", "--base", "21000", "sum", folder=home), (memory, "", 0))
    same("convert --to bin", raw("convert", "--to", "bin", "--base", "21000", "sum", "-", folder=home), (memory, "", 0))
    same("convert --to bin", call("convert", "--to", "bin", "--base", "21000", "sum", "out", folder=home), ("", "", 0))
    same("convert --to bin", (home / "out").read_bytes(), memory)
    # Across an address of 16 zero bits, from one that is no multiple of 4.
    for base in (0x21000, 0x1FFF1, 0, 0xFFFFFFC4):
        printed, said, status = call("relocate", "--base", f"{base:x}", "sum", folder=home)
        lines = printed.split("hunk ")[1].splitlines()[1:]
        content = dict(enumerate(bytes.fromhex("".join(lines)), base))
        for to in ("srec", "ihex"):
            made = call("convert", "--to", to, "--base", hex(base), "sum", "-", folder=home)
            same(f"convert --to {to} at {base:x}", (bytes_of_records(made[0]), made[1:]), ((content, base), ("", 0)))


def no_form(home):
    """What is refused by its name and its byte."""
    load, objects = files.suite("load"), files.suite("objects")
    made = {
        # Two that have no form, one that is not tried in both kinds of blocks; a name that is defined twice; one that is empty.
        "drel": f"{UNIT} 3F8 1 0 0 0 3F2", "ref8": f"{UNIT} 3EF 84000001 61000000 1 1 0 3F2", "reloc8": f"{UNIT} 3EE 1 0 1 0 3F2",
        "twice": f"{UNIT} 3EF 1000001 61000000 0 2000001 61000000 5 0 3F2", "unnamed": f"{UNIT} 3EF 81000000 1 0 0 3F2",
    }
    for name, text in made.items():
        (home / name).write_bytes(b"".join(bytes.fromhex(it.zfill(8)) for it in text.split()))
    for name, data in (("two-units", objects["two-units"]), ("overlap", files.warned()["overlap"][0]),
                       ("same", files.warned()["twice"][0]), ("one-hunk", load["one-hunk"])):
        (home / name).write_bytes(data)
    (home / "out").write_bytes(b"before")
    wrong = {
        "drel": "byte 36: DREL16 has no form in ELF: it counts from a base register",
        "ref8": "byte 40: REF8 is not converted: from which byte it counts is not known for sure",
        "reloc8": "byte 36: RELOC8 is not converted: from which byte it counts is not known for sure",
        "twice": "byte 40: a is defined twice", "unnamed": "byte 28: what is referred to has no name",
        "findings.o": "byte 32: BadTarget: an offset or a target that is wrong has no form in ELF",
        "overlap": "byte 56: the bytes at 0x0 and 0x2 of hunk 0 are relocated, and overlap: ELF does not add twice",
        "same": "byte 68: the bytes at 0x4 and 0x4 of hunk 0 are relocated, and overlap: ELF does not add twice",
    }
    for name, said in wrong.items():
        same(f"convert {name}", call("convert", "--to", "elf", name, "out", folder=home), ("", f"hunk: {name}: {said}\n", 1))
    got = call("convert", "--to", "elf", "two-units", "out", folder=home)
    same("convert two-units", (got[0], "there are 2 units, and a file of ELF is one" in got[1], got[2]), ("", True, 1))
    of_object = "byte 0: an object file has no addresses: link it first, or leave --base out for a file of ELF"
    for to in ("elf", "bin", "srec", "ihex"):
        got = call("convert", "--to", to, "--base", "0", "part.o", "out", folder=home)
        same(f"convert part.o to {to}", got, ("", f"hunk: part.o: {of_object}\n", 1))
    end = "refused at byte 24: NoBase of hunk 0: a hunk has no base, or would pass the address 2^32 (not judged)"
    for to in ("elf", "bin", "srec", "ihex"):
        got = call("convert", "--to", to, "--base", "fffffffd", "one-hunk", "out", folder=home)
        same(f"convert at the end to {to}", got, ("", f"hunk: one-hunk: {end}\n", 1))
    too_much(home)
    same("OUT", (home / "out").read_bytes(), b"before")


def too_much(home):
    """More memory, and more hunks, than OUT may have. Of zeros in a file that is not loaded there may be more."""
    made = {
        "large-code": "3F3 0 1 0 0 1000000 3E9 1 4E754E71 3F2", "large-bss": "3F3 0 1 0 0 1000000 3EB 1000000 3F2",
        "below": "3F3 0 1 0 0 FFFFFF 3E9 1 4E754E71 3F2",
        "many-hunks": f"3F3 0 7F01 0 7F00 {'0 ' * 0x7F01} {'3EB 0 3F2 ' * 0x7F01}",
    }
    for name, text in made.items():
        (home / name).write_bytes(b"".join(bytes.fromhex(it.zfill(8)) for it in text.split()))
    size, hunks = "the hunks have 64 MiB or more of memory", "there are 32513 hunks, and a file of ELF has at most 32512"
    for name, words, told in (("large-code", (), size), ("large-code", ("--base", "0"), size), ("large-bss", ("--base", "0"), size),
                              ("many-hunks", (), hunks)):
        got = call("convert", "--to", "elf", *words, name, "out", folder=home)
        same(f"convert {name} {words}", got, ("", f"hunk: {name}: byte 0: {told}\n", 1))
    for name, least, most in (("large-bss", 0, 1000), ("below", (64 << 20) - 4, (64 << 20) + 1000)):
        status = call("convert", "--to", "elf", name, "large-out", folder=home)[2]
        same(f"convert {name}", (status, least < (home / "large-out").stat().st_size < most), (0, True))
    os.unlink(home / "large-out")


def tried(home):
    strips(home)
    converts(home)
    no_form(home)
