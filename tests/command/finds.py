"""What `hunk find` tells: of files in any bytes, by a reader that shares nothing with the package; of disk images whose files are
known; of what it writes to a folder."""

import os
import pty
import random
import re
import shutil
import subprocess
import sys

import disks
import files
from compared import same
from files import called, hunk

sys.path.insert(0, str(files.TOP / "vectors"))
import hunks  # noqa: E402
from plain import plain  # noqa: E402

# How hunk files begin, and no more.
BEGINS = (b"\0\0\3\xf3", b"\0\0\3\xe7\0\0\0\1")


# ---- The model.


def load_at(data):
    """The load file that bytes begin with: its bytes, hunks and memory."""
    file = hunks.read_load(data)
    return file.end, len(file.hunks), sum(hunks.declared(it.size) for it in file.hunks)


def object_at(data):
    """The same of an object file, up to its last END. Its first unit has a hunk."""
    words, end, count, memory = hunks.Words(data), 0, 0, 0
    try:
        words.word()
        hunks.read_name(words)
        while True:
            word = words.word()
            if word == hunks.UNIT:
                if not count:
                    break
                hunks.read_name(words)
                continue
            blocks = hunks.read_blocks(words, None, word)
            sizes = [hunks.declared(it.body[0]) for it in blocks if hunks.kind_of(it.word) in hunks.CONTENTS]
            end, count, memory = words.at, count + 1, memory + sum(sizes)
    except hunks.Refused:
        pass
    return (end, count, memory) if count else None


def wide_at(data):
    """The bytes, hunks and memory of a load file that is only spelled otherwise."""
    text, places = plain(data)
    end, count, memory = load_at(text)
    return places[end], count, memory


def hits_in(data, is_wide=False):
    """All that is to be found in bytes, as fields without the name."""
    around, found = [], []
    for match in re.finditer(rb"\0\0\x03[\xf3\xe7]", data):
        place, what = match.start(), "load" if data[match.end() - 1] == 0xF3 else "object"
        try:
            it = load_at(data[place:]) if what == "load" else object_at(data[place:])
        except hunks.Refused:
            it = None
            if is_wide:
                what, it = "wide", spelled_at(data[place:])
        if it:
            around = [other for other in around if other[1] > place]
            found.append([place, it[0], what, it[1], it[2], around[-1][0] if around else "-"])
            around.append((place, place + it[0]))
    return found


def spelled_at(data):
    try:
        return wide_at(data)
    except hunks.Refused:
        return None


def lines_of(name, found):
    return "".join("\t".join(map(str, [*it, name])) + "\n" for it in found)


def find(*words, given=None):
    """What is printed, and what else is said, and the status."""
    return called(["find", *words]) if given is None else hunk("find", *words, folder=".", given=given)


# ---- Any bytes.


def wholes():
    """Files of the suite, load files and object files, that are accepted, and none of others."""
    its = [*files.suite("load").values(), *files.suite("objects").values(), bytes.fromhex(files.OBJECT)]
    return [it for it in its if hits_in(it) and hits_in(it)[0][0] == 0]


def mixed(chance, whole, count):
    """Bytes in which so many files stand at any byte, after bytes of any kind; some of them cut or changed."""
    made = bytearray()
    for _ in range(count):
        made += chance.choice((chance.randbytes(chance.randrange(40)), bytes(chance.randrange(9)), *BEGINS))
        data = bytearray(chance.choice(whole))
        kind = chance.randrange(8)
        if kind == 0:
            del data[chance.randrange(len(data)) :]
        elif kind == 1:
            data[chance.randrange(len(data))] ^= 1 << chance.randrange(8)
        made += data
    return bytes(made)


def any_bytes(home):
    """Files in other bytes: none is missed, and none is told of that is not there."""
    chance, whole = random.Random(3), wholes()
    same("files of the suite to be found", len(whole) > 30, True)
    wide = [bytes.fromhex(files.WIDE), *(bytes.fromhex(text) for text in wide_texts())]
    for its, words, most in ((whole, (), 400), (whole + wide, ("--wide",), 60), (wide, ("--wide",), 60)):
        for size in (1, 7, most):
            data = mixed(chance, its, size)
            (home / "mixed").write_bytes(data)
            found = hits_in(data, bool(words))
            got = find(*words, "mixed")
            counted = f"{len(found)} hunk file{'' if len(found) == 1 else 's'} in 1 file\n"
            same(f"find {words} {size}", got, (lines_of("mixed", found), counted, 0 if found else 1))
            if size == most:
                same("find - of as many", find(*words, "-", given=data)[0], lines_of("-", found))
                same("many are found", len(found) > most // 6, True)
    object_file = bytes.fromhex(files.OBJECT)
    tails = ("000003e8 00000001 61000000", "000003e9 00000001 4e714e71", "000003e9 00000001 4e714e71 000003f0",
             "000003f1 00000000 0000", "000003e7 00000000", "000003e7 00000001 61000000 000003e7 00000000 000003eb 00000001 000003f2", "000003f2", "00")
    # Blocks that are said to be longer than all there is, and one that is longer than what is looked at first.
    long = "000003f1 00010000" + "00" * (1 << 18)
    tails += ("a0001234 0fffffff", "000003e9 7fffffff", "a0001234 00000001 00000000 000003f0 00ffffff", long + object_file.hex(),
              long + object_file[8:].hex(), long + "a0001234 0fffffff" + "00" * (1 << 18))
    for tail in tails:
        data = b"x" + object_file + bytes.fromhex(tail)
        found = hits_in(data)
        same(f"an object file before {tail[:40]}", find("-", given=data)[0], lines_of("-", found))
    for data in (b"", b"\0\0\3", b"\0\0\3\xf3", bytes(5000), *(it * 5000 for it in (*BEGINS, b"\0\0\3\xe7", b"\0\0\3\xe7\0\0\0\0"))):
        same(f"find in {data[:8]!r}", find("-", given=data), ("", "0 hunk files in 1 file\n", 1))


def wide_texts():
    lines = (files.TOP / "vectors/wide.tsv").read_text(encoding="utf-8").splitlines()[1:]
    return [row[3] for row in (it.split("\t") for it in lines) if row[2] == "load" and row[4] == "accepted"][:40]


def large(home):
    """Beyond 64 MiB, in a file with holes, at any byte; and what can't be read."""
    data = (home / "sum").read_bytes()
    places = (3, 67108861, 100_000_001)
    with open(home / "large", "wb") as made:
        for place in places:
            made.seek(place)
            made.write(data)
    wanted = lines_of("large", [[place, len(data), "load", 2, 60, "-"] for place in places])
    same("find in 100 MB", find("large"), (wanted, "3 hunk files in 1 file\n", 0))
    os.unlink(home / "large")
    printed, said, status = find("none", "sum")
    same("find of no file", (printed, said.splitlines()[0], status),
         (lines_of("sum", [[0, len(data), "load", 2, 60, "-"]]), "hunk: none: ENOENT: No such file or directory (not judged)", 1))
    with open("/dev/full", "wb") as full:
        ran = files.start(["find", "sum"], home, stdout=full, stderr=subprocess.PIPE)
        said = ran.communicate()[1].decode().splitlines()[-1]
        same("find to a full disk", (said, ran.returncode), ("hunk: writing failed: No space left on device", 3))


def terminal(home):
    """How far it is, on a terminal."""
    leader, end = pty.openpty()
    ran = files.start(["find", "sum"], home, stdout=subprocess.PIPE, stderr=end)
    os.close(end)
    printed = ran.communicate()[0].decode()
    said = os.read(leader, 1 << 16).decode()
    os.close(leader)
    begins = re.match(r"\r0 of 0 MB, 0 hunk files, \d+ s \r\x1b\[K", said) is not None
    same("a terminal", (begins, said.endswith("1 hunk file in 1 file\r\n"), printed.startswith("0\t")), (True, True, True))


# ---- Disk images.


def shown(name):
    """A name as it is printed, by docs/OUTPUT.md."""
    return "".join(chr(it) if 32 <= it < 127 and it not in b"\\/" else f"\\x{it:02x}" for it in name)


NAMES = (b"../x", b"a/b", b"a\0b", b"..", b"/", b"\xe4\xff\n", b"same", b"same", b"a" * 30, b"back\\slash", b"-x", b"CON")


def filled(is_fast, chance, order):
    """An image with hunk files at known places: its bytes, and the lines that are wanted but for those of deleted files."""
    image, whole = disks.Image(is_fast, order), wholes()
    large = b"".join(it for it in whole if it[3] == 0xF3) * 40
    wanted, folder = [], disks.ROOT
    for depth in range(3):
        path = "".join(f"f{i}/" for i in range(depth))
        for name in NAMES:
            data = chance.randbytes(chance.randrange(700)) + chance.choice(whole)
            image.file(name, data, folder)
            wanted += [(path + shown(name), it) for it in hits_in(data)]
        image.file(b"none", b"no hunk file", folder)
        image.file(b"nothing", b"", folder)
        folder = image.folder(b"f%d" % depth, folder)
    # More data blocks than the header lists, with files in pieces of it.
    same("a large file", len(large) > 80 * 512, True)
    image.file(b"large", large, folder)
    wanted += [("f0/f1/f2/large", it) for it in hits_in(large)]
    return image, wanted


def delete(image, data):
    """Files that are deleted: one whose header is left; and on OFS one whose header is not. The lines that are wanted of both."""
    kept = image.file(b"kept", data)
    wiped = image.file(b"wiped", data)
    blocks = image.data_blocks(wiped)
    image.unlink(kept)
    image.unlink(wiped)
    image.wipe(wiped)
    names = [f"deleted/{kept}/kept"] + ([] if image.is_fast else [f"deleted/{blocks[0]}"])
    return [(name, it) for name in names for it in hits_in(data)], blocks


def left_in(image, whole, blocks):
    """The hits in an image that lie in these blocks, and in those that nothing has."""
    free = {*range(disks.BLOCKS)} - {*image.longs} | {*blocks}
    return [("", it) for it in hits_in(whole) if {*range(it[0] // 512, (it[0] + it[1] - 1) // 512 + 1)} <= free]


def told(printed):
    """The lines of a disk image, sorted: names without that of the image, and fields."""
    return sorted((line.split("\t")[-1], *line.split("\t")[:-1]) for line in printed.splitlines())


def wanted_of(name, wanted):
    return sorted((f"{name}!{path}" if path else name, *map(str, it)) for path, it in wanted)


def images(home):
    """Whole images, with blocks in order and in disorder."""
    chance = random.Random(4)
    disorder = [it for it in range(2, disks.BLOCKS) if it not in (disks.ROOT, disks.ROOT + 1)]
    chance.shuffle(disorder)
    data = b"text, then " + (home / "sum").read_bytes() + bytes(900) + (home / "part.o").read_bytes()
    for is_fast in (False, True):
        for order in (None, disorder):
            image, wanted = filled(is_fast, chance, order)
            deleted, blocks = delete(image, data)
            whole = image.bytes()
            (home / "a.adf").write_bytes(whole)
            # On FFS nothing says that the blocks of the last are a file, but what lies together is found.
            wanted = wanted_of("a.adf", wanted + deleted + (left_in(image, whole, blocks) if is_fast else []))
            printed, said, status = find("a.adf")
            what = f"an image, {'FFS' if is_fast else 'OFS'}, {'in disorder' if order else 'in order'}"
            same(what, (told(printed), said, status), (wanted, f"{len(wanted)} hunk files in 1 file\n", 0))
            same(f"{what}, --raw", find("--raw", "a.adf")[0], lines_of("a.adf", hits_in(whole)))
            by_unadf(home, image)


def by_unadf(home, image):
    """That the images are ones: `unadf`, where it is, lists what was made."""
    if not shutil.which("unadf"):
        return
    ran = subprocess.run(["unadf", "-r", "-l", "a.adf"], cwd=home, capture_output=True)
    listed = re.findall(rb"(?m)^ +(\d+)  \d+/\d\d/\d\d +[\d: ]+  (.*/)?(large|none|nothing|same|-x)$", ran.stdout)
    same("unadf", len(listed), 1 + 3 * 5)


def damaged(home):
    """Images with loops, wrong numbers, and no root: each ends, and what is not damaged is told of by its name."""
    data, chance = (home / "sum").read_bytes(), random.Random(5)
    fields = ["0", str(len(data)), "load", "2", "60", "-"]
    for is_fast in (False, True):
        image = disks.Image(is_fast)
        folder = image.folder(b"f")
        header = [image.file(b"n%d" % i, data, folder if i % 2 else disks.ROOT) for i in range(6)]
        longs = image.longs
        # The folder is in itself, two chains end in loops, a list goes on with itself, and numbers lead out of the image.
        longs[folder][124], longs[header[0]][124] = folder, header[0]
        longs[folder][6], longs[disks.ROOT][9] = folder, disks.ROOT
        longs[header[1]][126], longs[header[2]][124] = header[1], 2**31
        longs[disks.ROOT][7] = disks.BLOCKS
        longs[header[4]][77] = header[5]
        (home / "b.adf").write_bytes(image.bytes())
        printed, _, status = find("b.adf")
        names = {it[0] for it in told(printed) if list(it[1:]) == fields}
        whole = {f"b.adf!{'f/' if i % 2 else ''}n{i}" for i in (0, 1, 2, 3, 5)}
        same("a damaged image", (whole - names, status), (set(), 0))
        # That of the wrong number has its data left, in the block that no file has now.
        same("a damaged image", sum(it[2] == str(len(data)) for it in told(printed)), 6)
        image.wipe(disks.ROOT)
        (home / "b.adf").write_bytes(image.bytes())
        names = {it[0] for it in told(find("b.adf")[0])}
        same("no root", {f"b.adf!deleted/{header[i]}/n{i}" for i in (0, 1, 2, 3, 5)} - names, set())
        whole = image.bytes()
        for _ in range(12):
            made = bytearray(whole)
            for _ in range(chance.randrange(1, 200)):
                at = 4 * chance.randrange(len(made) // 4)
                word = chance.choice((0, 2, 880, at // 512, 1759, 2**32 - 3, chance.getrandbits(32)))
                made[at : at + 4] = word.to_bytes(4, "big")
            made[:4] = whole[:4]
            (home / "b.adf").write_bytes(made)
            same("an image with wrong longwords", find("b.adf")[2] in (0, 1), True)


# ---- The folder.


def kept_in(folder):
    return {it.name: it.read_bytes() for it in folder.iterdir()}


def extracted(home):
    """Each is written, under a name of its own and in the folder; a second run changes nothing, and what is there stays."""
    data, object_file = (home / "sum").read_bytes(), (home / "part.o").read_bytes()
    image = disks.Image(False)
    for name in NAMES:
        image.file(name, data)
    image.file(b"both", data + object_file)
    there = home / "found-in"
    (there / "sub").mkdir(parents=True)
    (there / "x.adf").write_bytes(image.bytes())
    (there / "sub/x.adf").write_bytes(image.bytes())
    (there / "prog").write_bytes(data)
    before = sorted(map(str, home.rglob("*")))
    printed, said, status = find("--extract", "extracted", "found-in")
    lines = printed.splitlines()
    made = kept_in(home / "extracted")
    count = 2 * (len(NAMES) + 2) + 1
    same("--extract", (len(lines), said, status, len(made)), (count, f"{count} hunk files in 3 files\n", 0, count))
    same("--extract", {*made.values()}, {data, object_file})
    same("names in the folder", [it for it in made if not re.fullmatch(r"[A-Za-z0-9_!][A-Za-z0-9._!-]*\+[0-9a-f]+(-\d+)?", it)], [])
    same("some names", {"prog+0", "x.adf!both+0", f"x.adf!both+{len(data):x}", "x.adf!same+0", "x.adf!same+0-2",
                        "x.adf!.._x2fx+0"} - {*made}, set())
    same("nothing else", sorted(it for it in map(str, home.rglob("*")) if not it.startswith(str(home / "extracted"))), before)
    again, said, status = find("--extract", "extracted", "found-in")
    same("--extract again", (again, said.count(": is there already\n"), status, kept_in(home / "extracted")), (printed, count, 0, made))
    (home / "extracted/prog+0").write_bytes(b"mine")
    os.unlink(home / "extracted/x.adf!both+0")
    os.symlink("../other", home / "extracted/x.adf!both+0")
    printed, said, status = find("--extract", "extracted", "found-in")
    kept = [line for line in said.splitlines() if line.endswith("another file has this name, and is kept")]
    same("others stay", (len(kept), status, (home / "extracted/prog+0").read_bytes(), (home / "other").exists()), (2, 1, b"mine", False))
    # What was written is not looked at, where the folder is in one that is.
    shutil.rmtree(home / "extracted")
    same("its own folder", len(find("--extract", "found-in/out", "found-in")[0].splitlines()), count)
    same("its own folder", len(find("--extract", "found-in/out", "found-in")[0].splitlines()), count)
    (home / "file").write_bytes(b"a file")
    printed, said, status = find("--extract", "file", "sum")
    same("no folder", (printed.count("\n"), said.startswith("hunk: file/sum+0: writing failed: "), status), (1, True, 3))
    same("no folder", (home / "file").read_bytes(), b"a file")


def half_written():
    """A file that can't be written whole is not there, and the others are."""
    with open("both", "wb") as made, open("sum", "rb") as small:
        made.write(small.read() + bytes.fromhex("000003f3 00000000 00000001 00000000 00000000 00000200 000003e9 00000200"))
        made.write(bytes(2048) + bytes.fromhex("000003f2"))
    # Of 1 KiB.
    line = 'ulimit -f 2 && exec "$0" -W error -m hunk find --extract half both'
    ran = subprocess.run(["sh", "-c", line, sys.executable], env=files.ENVIRONMENT, capture_output=True, text=True, timeout=60)
    said = "hunk: half/both+84: writing failed: File too large\n2 hunk files in 1 file\n"
    got = (ran.stdout.count("\n"), ran.stderr, ran.returncode, os.listdir("half"))
    same("a file that is too large", got, (2, said, 3, ["both+0"]))
    same("and without that limit", (find("--extract", "half", "both")[2], sorted(os.listdir("half"))), (0, ["both+0", "both+84"]))


def tried(home):
    os.chdir(home)
    any_bytes(home)
    large(home)
    terminal(home)
    images(home)
    damaged(home)
    extracted(home)
    half_written()
    os.chdir(files.TOP)
