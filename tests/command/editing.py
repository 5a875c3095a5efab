"""What `hunk edit` and `hunk.Edit` make: by hand, and of the suite by what the reader says of it after changes that chance draws."""

import random

import building
import files
from compared import same
from files import call, raw

SEED, DRAWN = 80, 600
CONTENTS = ("CODE", "DATA", "BSS")
HEAD = "000003f3 00000000"
# A hunk of CODE with a symbol and one of BSS, and that file changed.
CHANGED = f"""{HEAD} 00000003 00000000 00000002 00000001 40000002 80000002
    000003e9 00000001 4e754e71 000003f0 00000001 5f6e0000 00000002 00000001 6d61696e 00000000 00000000 000003f2
    000003eb 00000002 000003f2 000003ea 00000002 61626364 65000000 000003f2"""
PLAIN = f"""{HEAD} 00000002 00000000 00000001 00000003 00000002
    000003e9 00000003 4e714e71 4e714e71 4e750000 000003f0 00000001 5f6d0000 00000000 00000000 000003f2 000003eb 00000002 000003f2"""
NO_FILE = "ENOENT: No such file or directory (not judged)"
BAD_LINE = "a line has a hunk, an offset and a name"
# Words, and what is said of them.
WRONG = [
    ("--memory 2=chip plain", "plain: there is no hunk 2"),
    ("--memory 0.1=c0 part.o", "part.o: a hunk of an object file has no attributes"),
    ("--memory 1.0=chip part.o", "part.o: there is no hunk 1.0"),
    ("--memory 5=chip part.o", "part.o: there is no hunk 0.5"),
    ("--content 1=code plain", "plain: a hunk of BSS has no content"),
    ("--content 0=none plain", f"none: {NO_FILE}"),
    ("--append DATA=none plain", f"none: {NO_FILE}"),
    ("--symbols none plain", f"none: {NO_FILE}"),
    ("--append BSS=4294967296 plain", "plain: no hunk has 1073741824 longwords"),
    ("--symbols short plain", f"short: line 2: {BAD_LINE}"),
    ("--symbols digits plain", "digits: line 1: '5g' is no address of 32 bits in hexadecimal digits"),
    ("--symbols where plain", "where: line 1: 'x' is no number of 64 bits in decimal digits"),
    ("--symbols nowhere plain", "plain: there is no hunk 9"),
    ("--content 0=code sum",
     "sum: part 3, group of hunk 0: refused at byte 52 of OUT: BadOffset: a relocated longword runs past the end of its hunk"),
]
REFUSED = ("--memory 1 sum", "--memory 1=slow sum", "--memory =chip sum", "--memory .=chip sum", "--memory 1.=chip sum", "--memory -1=chip sum",
           "--content 0 sum", "--append CODE sum", "--append TEXT=code sum", "--append BSS=x sum", "--append BSS= sum", "--content 0=- -",
           "--symbols - --append CODE=- sum")


def make(home):
    """The files that are read."""
    there = home / "edited"
    there.mkdir()
    made = {
        "plain": bytes.fromhex(PLAIN), "code": b"\x4e\x75\x4e\x71", "tab": b"abcde", "short": b"0 4 a\n0 4\n", "digits": b"0 5g a\n",
        "where": b"x 5 a\n", "nowhere": b"9 0 a\n", "map": b"0 2 _n\n\n0 0x0 main  \r\n", "out": b"before",
    }
    for name in ("sum", "part.o", "wide", "behind", "text"):
        made[name] = (home / name).read_bytes()
    for name, data in made.items():
        (there / name).write_bytes(data)
    return there


def by_hand(there):
    words = "--memory 1=chip --content 0=code --symbols map --append DATA=tab --memory 2=fast"
    wanted, plain = bytes.fromhex(CHANGED), bytes.fromhex(PLAIN)
    same("edit", call("edit", *words.split(), "plain", "out", folder=there), (f"wrote {len(wanted)} bytes\n", "", 0))
    same("edit", (there / "out").read_bytes(), wanted)
    same("edit to -", raw("edit", *words.split(), "plain", "-", folder=there), (wanted, "", 0))
    same("edit of -", raw("edit", "-", "-", folder=there, given=plain), (plain, "", 0))
    printed, said, status = call("edit", "--append", "BSS=5", "behind", "out", folder=there)
    size = len((there / "out").read_bytes())
    rest = len((there / "behind").read_bytes()) - size + 16
    same("edit of a file with bytes behind", (printed, said, status), (f"wrote {size} bytes\nrest {rest} bytes left out\n", "", 0))
    same("the hunk at its end", (there / "out").read_bytes()[-12:].hex(), "000003eb00000002000003f2")
    same("edit --wide", call("edit", "--wide", "wide", "out", folder=there)[::2], ("wrote 64 bytes\n", 0))
    same("in the place of IN", call("edit", "--memory", "0=10004", "out", "out", folder=there), ("wrote 68 bytes\n", "", 0))
    same("in the place of IN", (there / "out").read_bytes()[20:28].hex(), "c000000200010004")
    (there / "out").write_bytes(b"before")


def of_objects(there):
    """An object file: its memory is in the word of its content, and what is appended is in its last unit."""
    data = (there / "part.o").read_bytes()
    words = "--memory 0=fast --memory 0.1=chip --append CODE=tab --memory 2=chip"
    same("edit part.o", call("edit", *words.split(), "part.o", "out", folder=there)[1:], ("", 0))
    more = bytes.fromhex("400003e9 00000002 61626364 65000000 000003f2")
    wanted = data.replace(b"\x40\0\x03\xe9", b"\x80\0\x03\xe9").replace(b"\0\0\x03\xeb", b"\x40\0\x03\xeb") + more
    same("edit part.o", (there / "out").read_bytes().hex(), wanted.hex())
    (there / "out").write_bytes(b"before")


def refusals(there):
    """OUT stays as it was."""
    before = sorted(it.name for it in there.iterdir())
    for words, said in WRONG:
        same(words, call("edit", *words.split(), "out", folder=there), ("", f"hunk: {said}\n", 1))
    for words in REFUSED:
        printed, said, status = call("edit", *words.split(), "out", folder=there)
        same(words, (printed, said.startswith("usage: hunk edit"), status), ("", True, 2))
    same("no hunk file", call("edit", "text", "out", folder=there)[::2], ("", 1))
    same("a folder as OUT", call("edit", "plain", ".", folder=there), ("", "hunk: .: writing failed: Is a directory\n", 3))
    same("OUT after refusals", ((there / "out").read_bytes(), sorted(it.name for it in there.iterdir())), (b"before", before))


# ---- By chance.


def content_of(file, which):
    """The content of a hunk, and what its block says."""
    block = next(it for it in file.blocks if (it.unit, it.hunk) == which and it.kind.name in CONTENTS)
    return file.content(block), block.memory


def state(file):
    """Each hunk by its unit and number: its size, memory, content, symbols, and all that may not change."""
    told = {}
    for it in file.hunks:
        which = it.unit, it.number
        symbols = [(each.name, each.value) for each in file.symbols if (each.unit, each.hunk) == which]
        others = [(str(each.kind), each.offset, each.target) for each in file.relocations if (each.unit, each.hunk) == which]
        blocks = [int(each.kind) for each in file.blocks if (each.unit, each.hunk) == which and each.kind.name != "SYMBOL"]
        told[which] = [it.size, (it.memory, it.attributes), it.kind, content_of(file, which), symbols, others, blocks]
    return told


def filled(data):
    return data + bytes(-len(data) % 4)


def draw(chance, hunk, edit, wanted, is_object):
    """Changes the edit, and what its file has to be, in one way. Whether it could be done."""
    which = chance.choice([*wanted])
    it, unit, number = wanted[which], *which
    way = chance.choice(("memory", "symbols", "content", "append"))
    if way == "memory":
        memory = chance.choice(("any", "chip", "fast") if is_object else ("any", "chip", "fast", "attributes"))
        attributes = 0x10004 if memory == "attributes" else 0
        edit.set_memory(number, memory, attributes, unit)
        it[1] = memory, attributes
    elif way == "symbols":
        symbols = [(chance.choice((b"a", b"_main", b"four")), chance.randrange(1 << 32)) for _ in range(chance.randrange(3))]
        edit.set_symbols(number, symbols, unit)
        it[4] = symbols
    elif way == "content" and it[2] != hunk.Kind.BSS:
        data = bytes(chance.randrange(256) for _ in range(chance.randrange(40)))
        edit.set_content(number, data, unit)
        it[0] += len(filled(data)) - len(it[3][0])
        it[3] = filled(data), len(filled(data))
    elif way == "append":
        kind, data, longs = chance.choice((hunk.Kind.CODE, hunk.Kind.DATA, hunk.Kind.BSS)), b"abcdefg"[: chance.randrange(8)], chance.randrange(4)
        data = b"" if kind == hunk.Kind.BSS else data
        edit.append(kind, data, longs, "chip")
        size = max(4 * longs, len(filled(data)))
        content = filled(data) + bytes(size - len(filled(data))) if is_object and kind != hunk.Kind.BSS else filled(data)
        last = max((u for u, _ in wanted), default=0)
        new = last, sum(u == last for u, _ in wanted)
        held = size if kind == hunk.Kind.BSS else len(content)
        wanted[new] = [size, ("chip", 0), kind, (content, held), [], [], [int(kind), int(hunk.Kind.END)]]


def by_chance(hunk):
    chance, built = random.Random(SEED), 0
    texts = [it for it in building.accepted(hunk) if hunk.read(it).hunks]
    # Units without hunks are not numbered by what a File has.
    texts = [it for it in texts if all(unit.hunks for unit in hunk.read(it).units)]
    for i in range(DRAWN):
        text = chance.choice(texts)
        file = hunk.read(text)
        edit, wanted = hunk.Edit(text), state(file)
        same("no change", edit.build(), text)
        for _ in range(chance.randint(1, 4)):
            draw(chance, hunk, edit, wanted, file.is_object)
        try:
            made = edit.build()
        except hunk.BuildError as error:
            is_short = error.reason in ("BadOffset", "NothingToRelocate")
            same(f"edit {i} is refused", (is_short, edit.parts[error.row].what), (True, "group"))
            continue
        built += 1
        same(f"edit {i} of {text.hex()}", state(hunk.read(made)), wanted)
    same("edits that gave a file", built > DRAWN * 3 // 4, True)


def tried(home):
    import hunk

    there = make(home)
    by_hand(there)
    of_objects(there)
    refusals(there)
    by_chance(hunk)
