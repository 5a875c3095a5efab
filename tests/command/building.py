"""What `hunk.build` and `hunk build` write: by hand, by the model of vectors/build.py where chance changes parts, and again what
stands in the suite. And what is said of documents that spell no file."""

import json
import pickle
import random
import struct
import subprocess
import sys
from unittest import mock

import files
from compared import same
from files import call, raw

sys.path.insert(0, str(files.TOP / "vectors"))
import build as model  # noqa: E402
import parts as rows_of  # noqa: E402

WHATS = ("HUNK", "UNIT", "BLOCK", "GROUP", "SYMBOL", "ENTRY")
TABLE = files.TOP / "vectors/build.tsv"
SEED, DRAWN = 79, 4_000
WORDS = (0, 1, 2, 3, 82, 129, 130, 137, 139, 140, 255, 256, 999, 1000, 1001, 1002, 1003, 1004, 1005, 1007, 1008, 1009, 1010, 1011, 1012,
         1013, 1014, 1015, 1018, 1020, 1022, 1234, 0x200004D2, 0x400003E9, 0x800003F2, 0xC00003E9, 0xC0000002, 0x40000001, 0x3FFFFFFF)
VALUES = (0, 0, 1, 2, 0x40000000, 0x40000001, 0xC0000002, 0xFFFFFFFF)
OFFSETS = (0, 1, 2, 4, 8, 0xFFFFFFFF)
CODE = {"part": "block", "kind": "CODE", "content": "4e71"}
END = {"part": "block", "kind": "END"}
HUNK = {"part": "hunk", "longs": 2}
SYMBOLS = {"part": "block", "kind": "SYMBOL"}
# A hunk of two longwords, of which CODE has two bytes, with two symbols of which one has no name.
PROGRAM = [HUNK, CODE, SYMBOLS, {"part": "symbol", "name": "main", "value": 0}, {"part": "symbol", "name": "", "value": 4}, END]
TEXT = """000003f3 00000000 00000001 00000000 00000000 00000002 000003e9 00000001 4e710000
    000003f0 00000001 6d61696e 00000000 00000001 00000000 00000004 00000000 000003f2"""
TWO = """000003f3 00000000 00000002 00000000 00000001 00000003 00000002
    000003e9 00000003 41f90000 00002018 d0904e75 000003ec 00000001 00000001 00000002 00000000
    000003f0 00000002 73746172 74000000 00000000 00000000 000003f2 000003ea 00000002 00000014 00000016 000003f2"""
LARGE = "more content than the hunk is declared to have"
NO_DOCUMENT = "it is no document of `hunk json --parts`: it has no list `parts`"
# Each document, and what is said of it.
WRONG = [
    ("{", "Expecting property name enclosed in double quotes: line 1 column 2 (char 1)"),
    ("[" * 100_000, "it is nested too deeply"),
    ("[]", NO_DOCUMENT), ("5", NO_DOCUMENT), ("null", NO_DOCUMENT), ({"hunks": []}, NO_DOCUMENT), ({"parts": {}}, NO_DOCUMENT),
    ({"parts": [5]}, "part 0: it is no object"),
    ({"parts": [{}]}, "part 0: it has no part"),
    ({"parts": [{"part": "header"}]}, "part 0: part is none of hunk, unit, block, group, symbol, entry: 'header'"),
    ({"parts": [{"part": []}]}, "part 0: part is no text: []"),
    ({"parts": [END, {"part": "hunk"}]}, "part 1: it has no longs"),
    ({"parts": [{**END, "place": 4}]}, "part 0: it has 'place', which no such block has"),
    ({"parts": [{**HUNK, "longs": 1 << 30}]}, f"part 0: longs is no number of 30 bits: {1 << 30}"),
    ({"parts": [{**HUNK, "longs": True}]}, "part 0: longs is no number of 30 bits: True"),
    ({"parts": [{**HUNK, "longs": 2.0}]}, "part 0: longs is no number of 30 bits: 2.0"),
    ({"parts": [{**HUNK, "longs": None}]}, "part 0: longs is no number of 30 bits: None"),
    ({"parts": [{**HUNK, "memory": []}]}, "part 0: memory is none of any, chip, fast, attributes: []"),
    ({"parts": [{**CODE, "content": "4e7"}]}, "part 0: content is no bytes in hexadecimal digits: '4e7'"),
    ({"parts": [{**CODE, "content": "x" * 99}]}, f"part 0: content is no bytes in hexadecimal digits: '{'x' * 59}.."),
    ({"parts": [{**CODE, "content": 5}]}, "part 0: content is no text: 5"),
    ({"parts": [{**CODE, "flags": ["slow"]}]}, "part 0: a flag is none of advisory, chip, fast: 'slow'"),
    ({"parts": [{**CODE, "flags": [[]]}]}, "part 0: a flag is none of advisory, chip, fast: []"),
    ({"parts": [{**CODE, "flags": "chip"}]}, "part 0: flags is no list: 'chip'"),
    ({"parts": [{"part": "unit", "name": "\ud800"}]}, r"part 0: a character of the name is no byte: '\ud800'"),
    ({"parts": [{"part": "group", "target": 0, "offsets": [-1]}]}, "part 0: an offset is no number of 32 bits: -1"),
    ({"parts": []}, "the end of the parts: refused at byte 0 of OUT: Truncated: the input ends too soon"),
    ({"parts": [HUNK, CODE]}, "the end of the parts: refused at byte 36 of OUT: Truncated: the input ends too soon"),
    ({"parts": [{**HUNK, "longs": 0}, CODE, END]}, f"part 1, block of hunk 0: refused at byte 28 of OUT: ContentTooLong: {LARGE}"),
    ({"parts": [HUNK, CODE, SYMBOLS, END, END]}, "part 4, block of hunk 0: refused at byte 48 of OUT: Strange: no file has such a part there"),
    ({"parts": [{"part": "unit", "name": "a"}, HUNK]}, "part 1, hunk: refused at byte 12 of OUT: Strange: no file has such a part there"),
]


# ---- By hand.


def told(hunk, parts):
    """What `hunk.build` has come to: the number, the place and the row of a refusal, or the text."""
    try:
        return hunk.build(parts).hex()
    except hunk.BuildError as error:
        return error.number, error.place, error.row


def wanted_of(answer):
    """The same of what the model answers."""
    (number, _, place, count), text = answer
    return (number, place, count) if text is None else text.hex()


def parts_from(hunk, rows, data):
    """The rows as parts of the package; None where no part is so."""
    made = []
    for it in rows:
        if it.what > len(WHATS) or it.content_bytes and it.content + it.content_bytes > len(data):
            return None
        offsets = struct.unpack_from(f">{it.offset_count}I", data, it.offsets) if it.offset_count else ()
        made.append(hunk.Part(WHATS[it.what - 1].lower(), it.word, it.value, data[it.content :][: it.content_bytes], offsets))
    return made


def by_hand(hunk):
    count = 0
    for name, rows, data, wanted in model.listed(TABLE):
        parts = parts_from(hunk, rows, data)
        if parts is not None:
            count += 1
            same(f"hunk.build: {name}", told(hunk, parts), wanted_of(wanted))
    same("lists that the package can be given", count > 40, True)
    same("too many hunks", told(hunk, [hunk.Part.hunk(1)] * 65_537), (6, 8, 65_536))


def makers(hunk):
    """The calls that make parts, and values that have no room."""
    part, kind = hunk.Part, hunk.Kind
    made = [
        part.unit(b"a"), part.block(kind.CODE, b"\x4e\xb9\0\0\0\0\x4e\x75", flags=hunk.Flags.CHIP), part.block(kind.EXT),
        part.entry(hunk.EntryKind.REF32, b"_f", offsets=[2]), part.entry(hunk.EntryKind.DEF, bytearray(b"_m")),
        part.entry(hunk.EntryKind.SYMB, b"", 5), part.block(kind.RELOC32), part.group(0, range(4, 8, 4)), part.end(),
        part.bss(2, flags=hunk.Flags.FAST, bits=1), part.block(kind.SYMBOL), part.symbol(b"", 1), part.symbol(b"", 2, top=3), part.end(),
    ]
    text = """000003e7 00000001 61000000 400003e9 00000002 4eb90000 00004e75
        000003ef 81000001 5f660000 00000001 00000002 01000001 5f6d0000 00000000 00000001 00000000 00000005 00000000
        000003ec 00000001 00000000 00000004 00000000 000003f2
        800003eb 40000002 000003f0 00000001 00000000 00000001 03000000 00000002 00000000 000003f2"""
    same("parts of an object file", hunk.build(iter(made)).hex(), bytes.fromhex(text).hex())
    for memory, word in (("any", 1), ("chip", 0x40000001), ("fast", 0x80000001), ("attributes", 0xC0000001)):
        same(memory, part.hunk(1, memory, 7), ("hunk", word, 7, b"", ()))
    wrong = (
        lambda: part.hunk(1 << 30), lambda: part.hunk(1, "slow"), lambda: part.bss(-1), lambda: part.block(1 << 29), lambda: part.block(1, flags=8),
        lambda: hunk.build([part("none")]), lambda: hunk.build([part("hunk", 1 << 32)]), lambda: hunk.build([part("unit", value=-1)]),
        lambda: hunk.build([part.group(0, [1 << 32])]), lambda: hunk.build([part.group(0, [-1])]),
    )
    for at, make in enumerate(wrong):
        try:
            make()
            got = None
        except ValueError as error:
            got = type(error)
        same(f"no room, {at}", got, ValueError)
    try:
        hunk.build([part.hunk(1), part.end()])
    except hunk.BuildError as error:
        same("a refusal", str(error), "part 1 refused at byte 24: NoContent (19)")
        same("a refusal again", (pickle.loads(pickle.dumps(error)).row, error.place, error.meaning != ""), (1, 24, True))


# ---- By the model.


def packed(parts):
    """Parts as rows and bytes, packed otherwise than the package does: offsets first, and a byte between."""
    rows, data = [], b""
    for it in parts:
        offsets = struct.pack(f">{len(it.offsets)}I", *it.offsets)
        at = len(data)
        data += offsets + b"\xff" + it.content
        rows.append(rows_of.Part(WHATS.index(it.what.upper()) + 1, it.word, it.value, 0, at + len(offsets) + 1, len(it.content), at, len(it.offsets)))
    return rows, data


def changed(chance, parts, hunk):
    """A copy of the list in which something is otherwise."""
    made = list(parts)
    for _ in range(chance.randint(1, 3)):
        at = chance.randrange(len(made) + 1)
        if chance.random() < 0.25:
            made.insert(at, hunk.Part(chance.choice(WHATS).lower(), chance.choice(WORDS), chance.choice(VALUES)))
        elif at == len(made):
            continue
        elif chance.random() < 0.3:
            made.insert(chance.randrange(len(made)), made.pop(at))
        elif chance.random() < 0.3:
            made.pop(at)
        else:
            field = chance.choice(("word", "value", "content", "offsets"))
            new = {"word": chance.choice(WORDS), "value": chance.choice(VALUES), "content": chance.choice((b"", b"a", b"abcd", bytes(9))),
                   "offsets": tuple(chance.choice(OFFSETS) for _ in range(chance.randint(0, 2)))}[field]
            made[at] = made[at]._replace(**{field: new})
    return made


def by_chance(hunk, texts):
    chance, accepted = random.Random(SEED), 0
    lists = [*map(hunk.parts, texts), *filter(None, (parts_from(hunk, rows, data) for _, rows, data, _ in model.listed(TABLE)))]
    for i in range(DRAWN):
        parts = changed(chance, chance.choice(lists), hunk)
        got = told(hunk, parts)
        accepted += isinstance(got, str)
        same(f"list {i}: {parts}", got, wanted_of(model.build(*packed(parts))))
    same("lists that are accepted, and refused", DRAWN // 20 < accepted < DRAWN // 2, True)


# ---- The command.


def built(home, document):
    """What the command says of a document, its status, and the file that it writes."""
    text = document if isinstance(document, str) else json.dumps(document)
    (home / "parts.json").write_text(text, encoding="utf-8")
    (home / "built").write_bytes(b"before")
    return call("build", "parts.json", "built", folder=home), (home / "built").read_bytes()


def documents(home, texts, hunk):
    text = bytes.fromhex(TEXT)
    same("a program", built(home, {"parts": PROGRAM, "hunks": 5}), ((f"wrote {len(text)} bytes\n", "", 0), text))
    for document, said in WRONG:
        same(said, built(home, document), (("", f"hunk: parts.json: {said}\n", 1), b"before"))
    for data in texts:
        (home / "given").write_bytes(data)
        document = call("json", "--parts", "given", folder=home)[0]
        size = json.loads(document)["bytes"]
        same(f"{data.hex()} again", built(home, document), ((f"wrote {size} bytes\n", "", 0), data[:size]))
    same("- and -", raw("build", "-", "-", folder=home, given=json.dumps({"parts": PROGRAM}).encode()), (text, "", 0))
    (home / "parts.json").write_bytes(b"\xff\xfe\xfd")
    got = call("build", "parts.json", "built", folder=home)
    same("no text", (got[0], got[1].startswith("hunk: parts.json: "), got[1].count("\n"), got[2]), ("", True, 1, 1))
    no_file = "ENOENT: No such file or directory (not judged)\n"
    same("no file", call("build", "none", "built", folder=home), ("", f"hunk: none: {no_file}", 1))
    same("a folder", call("build", ".", "built", folder=home)[1:], ("hunk: .: EISDIR: Is a directory (not judged)\n", 1))
    with mock.patch.object(hunk.building, "_building", lambda: hunk.library.call("hunk_none")):
        printed, said, status = built(home, {"parts": PROGRAM})[0]
        same("an older library", (printed, said.endswith(" has no hunk_none: it is older than the package hunk\n"), said.count("\n"), status),
             ("", True, 1, 2))
    for name in ("parts.json", "given", "built"):
        (home / name).unlink()


def made_by_examples(home, hunk):
    """The program of two_hunks.py by hand, and with its table in chip memory."""
    folder = files.TOP / "bindings/python/examples"
    for words in (("two_hunks.py", "two"), ("to_chip.py", "two", "chip")):
        ran = subprocess.run([files.COMMAND[0], "-W", "error", folder / words[0], *words[1:]], cwd=home, env=files.ENVIRONMENT,
                             capture_output=True, timeout=120)
        same(words, (ran.stdout, ran.stderr, ran.returncode), (b"", b"", 0))
    two, chip = (home / "two").read_bytes(), (home / "chip").read_bytes()
    same("the program of two hunks", two.hex(" ", 4), " ".join(TWO.split()))
    same("its table in chip memory", chip.hex(), two.hex().replace("0000000300000002", "0000000340000002", 1))
    same("its memory", hunk.load(two, 0x21000), [bytes.fromhex("41f9 0002100c 2018 d090 4e75"), bytes.fromhex("00000014 00000016")])
    ran = subprocess.run([files.COMMAND[0], folder / "to_chip.py", home / "text", home / "chip"], env=files.ENVIRONMENT,
                         capture_output=True, timeout=120)
    same("no hunk file", (ran.stderr.count(b"\n"), ran.returncode, (home / "chip").read_bytes()), (1, 1, chip))


def accepted(hunk):
    """The texts of the suite that are files."""
    found = []
    for text in (it for table in ("load", "objects") for it in files.suite(table).values()):
        try:
            found.append(text[: hunk.read(text).size])
        except hunk.HunkError:
            pass
    same("texts of the suite", len(found) > 20, True)
    return found


def tried(home):
    import hunk

    texts = accepted(hunk)
    by_hand(hunk)
    makers(hunk)
    for text in texts:
        same("a file again", hunk.build(hunk.parts(text)), text)
    by_chance(hunk, texts)
    documents(home, texts, hunk)
    made_by_examples(home, hunk)
