"""What the command `hunk` says of files that are no hunk files, by each row of docs/foreign.tsv and by `file` where it is; of
programs with PowerPC code, and of slaves of WHDLoad."""

import os
import re
import shutil
import subprocess

import files
from compared import same
from files import called, hunk

NO_HUNK_FILE = "refused at byte 0: NotLoadFile: the first longword is not 3F3 (no hunk file)"
# What `file` says of a file of which a row is true. It knows no ROM, and has other words for DOS 6 and 7.
BY_FILE = {
    "ELF file": "ELF", "IFF ILBM": "IFF data, ILBM", "IFF 8SVX": "IFF data, 8SVX", "IFF ANIM": "IFF data, ANIM",
    "IFF FTXT": "IFF data, FTXT", "IFF CTLG": "IFF data, CTLG", "IFF PREF": "IFF data", "IFF file": "IFF data",
    "icon (.info)": "Amiga Workbench", "LhA archive": "archive data", "LZX archive": "LZX compressed archive (Amiga)",
    "zip archive": "Zip archive data", "gzip file": "gzip compressed", "bzip2 file": "bzip2 compressed", "xz file": "XZ compressed",
    "7z archive": "7-zip archive", "DMS disk archive": "DMS archive", "disk image, OFS": "DOS disk",
    "disk image, FFS": "FFS dis", "disk image, DOS": "Amiga",
    "hard disk image": "Rigid Disk Block", "Kickstart disk": "Kickstart disk",
    "PowerPacker": "Power Packer", "XPK": "xpkf.library", "RNC": "PRO-PACK", "MED module": "music file",
    "ProTracker": "Protracker module", "tar archive": "tar archive", "script": "script", "AmigaGuide": "AmigaGuide",
    "GIF picture": "GIF image", "PNG picture": "PNG image", "JPEG picture": "JPEG image", "PDF file": "PDF document",
}
# Bytes that `file` looks at, besides those of the row, by their places.
MORE = {
    "IFF ILBM": {12: b"BMHD\0\0\0\x14"}, "LhA archive": {0: b"\x20\0"}, "PNG picture": {8: b"\0\0\0\x0dIHDR\0\0\0\1\0\0\0\1\x08\x02\0\0\0"},
    "ELF file": {4: b"\2\1\1"}, "JPEG picture": {3: b"\xe0\0\x10JFIF\0"}, "PDF file": {4: b"-1.4\n"}, "script": {2: b"/bin/sh\n"},
    "tar archive": {0: b"name", 148: b"0012345\0", 262: b"\00000"},
}
# `file` does not name these methods of LhA, MMD2 and the rest.
NOT_BY_FILE = ("Kickstart ROM",)


def rows():
    lines = (files.TOP / "docs/foreign.tsv").read_text(encoding="utf-8").splitlines()
    return [line.split("\t") for line in lines if not line.startswith("#")]


def sample(place, digits, what):
    """A file of which a row is true."""
    made = bytearray(2000)
    for name, parts in MORE.items():
        if what.startswith(name):
            for at, part in parts.items():
                made[at : at + len(part)] = part
    for i in range(0, len(digits), 2):
        if digits[i : i + 2] != "??":
            made[int(place) + i // 2] = int(digits[i : i + 2], 16)
    # The method of an LhA archive is a digit.
    if what == "LhA archive":
        made[5] = ord("5" if digits.startswith("2D6C68") else "s")
    return bytes(made)


def first_that_fits(data):
    for place, digits, what in rows():
        pattern = b"".join(b"." if digits[i : i + 2] == "??" else re.escape(bytes.fromhex(digits[i : i + 2]))
                           for i in range(0, len(digits), 2))
        if re.compile(pattern, re.DOTALL).match(data, int(place)):
            return what
    return None


def of_table(home):
    """Each row: the field of the survey, and the end of the line of standard error."""
    there = home / "kinds"
    there.mkdir()
    its = rows()
    for number, row in enumerate(its):
        (there / f"{number:02}").write_bytes(sample(*row))
    wanted = [first_that_fits((there / f"{number:02}").read_bytes()) for number in range(len(its))]
    same("each row is met", {*wanted}, {row[2] for row in its})
    lines = called(["survey", "--what", "kinds"])[0].splitlines()
    same("--what", [line.split("\t")[4] for line in lines], wanted)
    said = called(["show", "kinds"])[1].splitlines()
    same("the end of a line", said, [f"hunk: kinds/{i:02}: {NO_HUNK_FILE}; by its first bytes: {it}" for i, it in enumerate(wanted)])
    # Cut in its bytes, no file is of its row.
    for place, digits, what in its:
        data = sample(place, digits, what)[: int(place) + len(digits) // 2 - 1]
        got = hunk_what(data)
        same(f"cut: {what}", got, first_that_fits(data) or by_text(data))
    by_file(there, its)
    by_page(there, wanted)


def hunk_what(data):
    with open("one", "wb") as made:
        made.write(data)
    return called(["survey", "--what", "one"])[0].rstrip("\n").split("\t")[4]


def by_text(data):
    """What is told where no row fits."""
    if not data:
        return "empty"
    return "text" if all(it in b"\t\n\f\r\x1b" or 32 <= it < 127 or it > 159 for it in data[:1088]) else "-"


def by_file(there, its):
    """The same by `file`, where that is here."""
    if not shutil.which("file"):
        print("note: tests/command: docs/foreign.tsv was not compared with `file`, which is not here")
        return
    ran = subprocess.run(["file", "-b", *sorted(map(str, there.iterdir()))], capture_output=True, text=True, errors="replace")
    for (_, digits, what), said in zip(its, ran.stdout.splitlines()):
        word = next((it for name, it in BY_FILE.items() if what.startswith(name)), None)
        # MMD2 it does not know, and one of the names it has.
        if word and digits != "4D4D4432":
            same(f"`file` of {what}: {said}", word in said, True)


PAGE = """
import { readFileSync } from "node:fs";
import { whatIs } from "%s/web/page/foreign.js";
const lines = readFileSync("%s/docs/foreign.tsv", "latin1").split("\\n").filter((it) => it && !it.startsWith("#"));
const rows = lines.map((it) => it.split("\\t")).map(([place, digits, what]) => [Number(place), digits, what]);
for (const name of process.argv.slice(1)) console.log(whatIs(readFileSync(name), rows) ?? "-");
"""


def by_page(there, wanted):
    """The same by the code of the page, where node is here."""
    if not shutil.which("node"):
        print("note: tests/command: what the page says of first bytes was not tried, as there is no node")
        return
    names = sorted(map(str, there.iterdir()))
    for data, what in ((b"", "-"), (b"a\xe4\n", "text"), (b"a\x80", "-"), (b"x" * 1088 + b"\0", "text"), (b"#!", "script"), (b"#", "text")):
        names.append(f"page-{len(names)}")
        wanted = [*wanted, what]
        with open(names[-1], "wb") as made:
            made.write(data)
    ran = subprocess.run(["node", "--input-type=module", "-e", PAGE % (files.TOP, files.TOP), *names], capture_output=True, text=True)
    same("the page", (ran.stdout.splitlines(), ran.stderr), (wanted, ""))


def of_texts():
    """What is a text, and what is nothing that is known."""
    texts = (b"a", b"\n", b"\tname\r\n\x0c\x1b[1m", bytes(range(160, 256)), b"x" * 1088 + b"\0", b"", b"\0\0\3", b"\x80", b"a\0b",
             b"x" * 1087 + b"\0", b"\0\0\3\xf4", b"MZ", b"\x60\x1a")
    for data in texts:
        same(f"what {data[:9]!r} is", hunk_what(data), by_text(data))
    said = called(["show", "empty"])[1]
    same("no bytes", said, "hunk: empty: refused at byte 0: Truncated: the input ends too soon (no hunk file)\n")
    with open("one", "wb") as made:
        made.write(b"ab\n")
    said = called(["show", "one"])[1]
    same("three letters", said, "hunk: one: refused at byte 0: Truncated: the input ends too soon (no hunk file); by its first bytes: text\n")


def of_large():
    """A file of more than 64 MiB is named, too, by all of its first bytes."""
    for data, what in ((sample("1080", "4D2E4B2E", "ProTracker module"), "ProTracker module"), (b"DMS!", "DMS disk archive")):
        with open("one", "wb") as made:
            made.write(data)
        os.truncate("one", 1 << 26)
        same(f"a large file: {what}", called(["show", "one"])[1], f"hunk: one: {NO_HUNK_FILE}; by its first bytes: {what}\n")
        same(f"a large file: {what}", called(["survey", "--what", "one"])[0], f"no hunk file\tNotLoadFile\t0\t-\t{what}\tone\n")
    os.unlink("one")


def of_powerpc(home):
    """Blocks of 4E9 and 4EA, also with flags, in load files and object files: not supported. Others are damaged, as before."""
    head = "000003f3 00000000 00000002 00000000 00000001 00000001 00000001 000003e9 00000001 4e754e71 000003f2 "
    short = "000003f3 00000000 00000001 00000000 00000000 00000001 000003e9 00000001 00000000 000003fc 00000000 "
    meaning = "a program with PowerPC code, in a {} block of its own type"
    its = ((head + "000004e9 00000000", "CODE", 44), (head + "400004ea", "DATA", 44), ("000003e7 00000000 000004e9", "CODE", 8),
           (head + "000004ec", None, 44), (head + "000004e8", None, 44))
    for number, (text, block, place) in enumerate(its):
        (home / "ppc").write_bytes(bytes.fromhex(text))
        unknown = "a type of block that is not known, without the bit of advisory blocks"
        kind, told = ("not supported", meaning.format(block)) if block else ("damaged", unknown)
        said = f"hunk: ppc: refused at byte {place}: UnknownBlock: {told} ({kind})\n"
        same(f"PowerPC {number}", called(["show", "ppc"]), ("", said, 1))
        same(f"PowerPC {number}", called(["show", "--partial", "ppc"])[1:], (said, 1))
        what = told if block else "-"
        line = f"{kind}\tUnknownBlock\t{place}\t-\t{what}\tppc\n"
        same(f"PowerPC {number}", called(["survey", "--what", "ppc"])[0], line)
    # In another spelling the byte is that of the input.
    (home / "ppc").write_bytes(bytes.fromhex(short + "000004e9"))
    said = f"hunk: ppc: refused at byte 44: UnknownBlock: {meaning.format('CODE')} (not supported)\n"
    for words in (["show", "--wide"], ["show", "--wide", "--partial"]):
        same(f"PowerPC {words}", called([*words, "ppc"])[1].splitlines(True)[-1], said)


def of_accepted(home):
    """What accepted files are: a slave of WHDLoad begins with code and its letters."""
    head = "000003f3 00000000 00000001 00000000 00000000 00000003 000003e9 00000003 "
    made = {
        "slave": (head + "70ff4e75 5748444c 4f414453 000003f2", "load\t-\t-\t0\tload file, WHDLoad slave"),
        "slave-wide": (head + "70ff4e75 5748444c 4f414453", "wide\tTruncated\t44\t0\tload file, WHDLoad slave"),
        "slave-not": (head + "5748444c 4f414453 00000000 000003f2", "load\t-\t-\t0\tload file"),
    }
    for name, (text, row) in made.items():
        (home / name).write_bytes(bytes.fromhex(text))
        same(name, called(["survey", "--what", name])[0], f"{row}\t{name}\n")
    same("an object file", called(["survey", "--what", "part.o"])[0], "object\t-\t-\t0\tobject file\tpart.o\n")
    same("standard input", hunk("survey", "--what", "-", folder=home, given=b"DMS!")[0],
         "no hunk file\tNotLoadFile\t0\t-\tDMS disk archive\t-\n")
    same("what can't be read", called(["survey", "--what", "none"])[0], "not judged\tENOENT\t-\t-\t-\tnone\n")


def tried(home):
    os.chdir(home)
    of_table(home)
    of_texts()
    of_large()
    of_powerpc(home)
    of_accepted(home)
    os.chdir(files.TOP)
