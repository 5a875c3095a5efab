"""What `hunk lint` tells: of each row of vectors/warnings.tsv, by its numbers; by each of its words; of what it can't read."""

import json
import os

import files
from compared import same
from files import hunk

NAMES = {1: "OddOffset", 2: "Twice", 3: "Overlap", 4: "InBss", 5: "OutsideTarget", 6: "SymbolOutside", 7: "NoEntry",
         8: "MemoryIgnored"}
KEYS = ("place", "hunk", "kind", "offset", "target", "value", "other")
# A line of each kind, written by hand from the texts of the table.
LINES = {
    "odd-offset": "byte 52: hunk 0: OddOffset: the longword at 0x3 is relocated, which a 68000 can't do at an odd address",
    "twice": "byte 56: hunk 0: Twice: the longword at 0x4 is relocated more than once",
    "overlap": "byte 52: hunk 0: Overlap: the longwords at 0x0 and 0x2 are relocated, and overlap",
    "in-bss": "byte 64: hunk 1: InBss: the longword at 0x0 is relocated, and the hunk is BSS, which a program takes for zeros",
    "outside-target": "byte 56: hunk 0: OutsideTarget: the longword at 0x2 points to 1+0x5, outside the 4 bytes of that hunk",
    "before-the-start": "byte 64: hunk 0: OutsideTarget: the longword at 0x8 points to 0-0x8001, outside the 12 bytes of that hunk",
    "symbol-outside": "byte 52: hunk 0: SymbolOutside: the symbol b has the value 0x5, outside the 4 bytes of its hunk",
    "first-hunk-empty": "byte 24: hunk 0: NoEntry: the first hunk has no content, and a program begins there",
    "memory-ignored": "byte 44: hunk 1: MemoryIgnored: the block asks for chip memory, and the table for any: AmigaDOS reads the"
                      " table alone",
}
# An object file whose offset is wrong in two ways; and one with a hunk after another.
FINDINGS = ("findings.o: byte 32: hunk 0.0: BadTarget: the target of the relocation at 0x2 is no hunk of its unit\n",
            "findings.o: byte 32: hunk 0.0: OutsideHunk: what stands at 0x2 runs past the end of its hunk\n")


def wanted_of(told):
    """The warnings of a row, with their kinds by name."""
    rows = (dict(zip(KEYS, map(int, it.split()))) for it in told.split("; ") if told)
    return [{**it, "kind": NAMES[it["kind"]]} for it in rows]


def of_table(home):
    """The files of the table, all in one call, by lines and by JSON."""
    there = home / "warned"
    there.mkdir()
    rows = files.warned()
    for name, (data, _) in rows.items():
        (there / name).write_bytes(data)
    wanted = [{"name": f"warned/{name}", **it} for name in sorted(rows) for it in wanted_of(rows[name][1])]
    printed, said, status = hunk("lint", "--json", "warned", folder=home)
    objects = [json.loads(line) for line in printed.splitlines()]
    same("lint --json: the rest of its fields", {(it["unit"], isinstance(it["text"], str)) for it in objects}, {(0, True)})
    same("lint --json", [{key: it[key] for key in ("name", *KEYS)} for it in objects], wanted)
    same("lint --json", (len(wanted) > 40, said, status), (True, "", 1))
    lines, said, status = hunk("lint", "warned", folder=home)
    told = [f"{it['name']}: byte {it['place']}: hunk {it['hunk']}: {it['kind']}: {it['text']}" for it in objects]
    same("lint", (lines.splitlines(), said, status), (told, "", 1))
    for name, line in LINES.items():
        same(f"lint {name}", f"warned/{name}: {line}" in told, True)


def of_words(home):
    """--ignore, and the status."""
    same("lint of nothing", hunk("lint", "symbol", "sum", "part.o", folder=home), ("", "", 0))
    same("lint of findings", hunk("lint", "symbol", "findings.o", folder=home), ("".join(FINDINGS), "", 1))
    ignored = hunk("lint", "--ignore", "badtarget", "findings.o", folder=home)
    same("lint --ignore", ignored, (FINDINGS[1], "", 1))
    words = ("lint", "--ignore", "BadTarget", "--ignore", "OUTSIDEHUNK", "findings.o")
    same("lint --ignore all", hunk(*words, folder=home), ("", "", 0))
    name = "warned/two-of-one-longword"
    left = hunk("lint", "--ignore", "Twice", "--ignore", "Overlap", "--ignore", "OutsideTarget", name, folder=home)
    kinds = [line.split(": ")[3] for line in left[0].splitlines()]
    same("lint --ignore", (kinds, left[1:]), (["OddOffset"] * 2, ("", 1)))
    printed, said, status = hunk("lint", "--json", "findings.o", folder=home)
    made = [json.loads(line) for line in printed.splitlines()]
    text = FINDINGS[0].split(": ")[-1].rstrip()
    wanted = {"name": "findings.o", "place": 32, "unit": 0, "hunk": 0, "offset": 2, "kind": "BadTarget", "text": text}
    same("lint --json of findings", (made[0], len(made), said, status), (wanted, 2, "", 1))


def of_what_is_refused(home):
    """What can't be read or is refused is told, and the others are done; then the status is 2."""
    odd = (home / "warned/odd-offset").read_bytes()
    line = LINES["odd-offset"]
    same("lint -", hunk("lint", "-", folder=home, given=odd), (f"-: {line}\n", "", 1))
    refused = "refused at byte 0: NotLoadFile: the first longword is not 3F3 (no hunk file); by its first bytes: text"
    got = hunk("lint", "text", "warned/odd-offset", folder=home)
    same("lint of a text", got, (f"warned/odd-offset: {line}\n", f"hunk: text: {refused}\n", 2))
    printed, said, status = hunk("lint", "none", "symbol", folder=home)
    same("lint of no file", (printed, said, status), ("", "hunk: none: ENOENT: No such file or directory (not judged)\n", 2))
    same("lint of a text", hunk("lint", "-", folder=home, given=b"text"), ("", f"hunk: -: {refused}\n", 2))
    # The place is that of the plain spelling.
    same("lint --wide", hunk("lint", "--wide", "--ignore", "OutsideTarget", "odd-wide", folder=home),
         ("odd-wide: byte 52: hunk 0: OddOffset: the longword at 0x1 is relocated, which a 68000 can't do at an odd address\n",
          "hunk: odd-wide: 1 block of short relocations, 1 END put in\n", 1))
    same("lint without --wide", hunk("lint", "odd-wide", folder=home)[2], 2)


def of_a_folder(home):
    """In a folder, what is no file and what is too large is told, and the others are done; then the status is 2."""
    odd, there = (home / "warned/odd-offset").read_bytes(), home / "unreadable"
    there.mkdir()
    os.mkfifo(there / "pipe")
    os.symlink("nowhere", there / "link")
    for name in ("large", "odd"):
        (there / name).write_bytes(odd)
    os.truncate(there / "large", 67108864)
    large = "refused at byte 67108864: FileLimit: as many bytes as may be read were read, and the file had not ended (not judged)"
    said = (f"hunk: unreadable/large: {large}\n"
            "hunk: unreadable/link: ENOENT: No such file or directory (not judged)\n"
            "hunk: unreadable/pipe: NoFile: neither a file nor a folder, or a link to a folder (not judged)\n")
    got = hunk("lint", "unreadable", folder=home)
    same("lint of a folder", got, (f"unreadable/odd: {LINES['odd-offset']}\n", said, 2))


def of_names(home):
    """Names of symbols, and of files, of any bytes."""
    data = bytes.fromhex("000003f3 00000000 00000001 00000000 00000000 00000001 000003e9 00000001 4e714e75"
                         "000003f0 00000001 1b5c0a00 00000005 01000000 00000006 00000000 000003f2")
    with open(os.path.join(os.fsencode(home), b"a\n\xe4"), "wb") as made:
        made.write(data)
    end = "outside the 4 bytes of its hunk\n"
    lines = (f"a\\x0a\\xe4: byte 40: hunk 0: SymbolOutside: the symbol \\x1b\\x5c\\x0a has the value 0x5, {end}",
             f"a\\x0a\\xe4: byte 52: hunk 0: SymbolOutside: a symbol without a name has the value 0x6, {end}")
    same("names of any bytes", hunk("lint", b"a\n\xe4", folder=home), ("".join(lines), "", 1))


def tried(home):
    (home / "odd-wide").write_bytes(bytes.fromhex(files.WIDE)[:44] + bytes.fromhex("0001000000010000"))
    of_table(home)
    of_words(home)
    of_what_is_refused(home)
    of_a_folder(home)
    of_names(home)
