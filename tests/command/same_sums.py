"""The sums of `hunk survey --same` and what `hunk same` tells, by the model in vectors, on the suite and on random programs, each in
several spellings; rows as CSV; and tables that go on."""

import csv
import hashlib
import io
import json
import os
import random
import struct
import subprocess
import sys

import files
from compared import same
from files import called, hunk

sys.path.insert(0, str(files.TOP / "vectors"))
import hunks  # noqa: E402
import sums as model  # noqa: E402
from plain import spellings  # noqa: E402

HEAD = ["class", "reason", "byte", "rest", "file", "program", "memory", "same", "first", "name"]
NAMES = ("file", "program", "memory")


# ---- Random programs.


class Program:
    """What a load file stands for, and files of it that are spelled by chance."""

    def __init__(self, chance, overlaps):
        self.chance, count = chance, chance.randrange(1, 4)
        self.longs = [chance.randrange(6) for _ in range(count)]
        self.memories = [chance.choice((0, 0, 1, 2, 3)) for _ in range(count)]
        self.contents = [[chance.choice((0, chance.getrandbits(32))) for _ in range(chance.randrange(it + 1))] for it in self.longs]
        self.pairs = [[(chance.randrange(count), 4 * chance.randrange(it)) for _ in range(chance.randrange(5) if it else 0)]
                      for it in self.longs]
        for pairs, size in zip(self.pairs, self.longs):
            if overlaps and size > 1:
                pairs.append((0, chance.randrange(4 * size - 3)))

    def _content(self, number):
        """A content block: zeros at its end may be there or not, and BSS says the same as zeros."""
        chance, content = self.chance, list(self.contents[number])
        while content and not content[-1] and chance.random() < 0.5:
            content.pop()
        while len(content) < self.longs[number] and chance.random() < 0.3:
            content.append(0)
        if not any(content) and chance.random() < 0.5:
            return [hunks.BSS, chance.randrange(self.longs[number] + 1)]
        return [chance.choice((hunks.CODE, hunks.DATA)), len(content), *content]

    def _relocations(self, number):
        """The relocations in some order, in some groups and blocks."""
        chance, left, words = self.chance, list(self.pairs[number]), []
        chance.shuffle(left)
        while left:
            words.append(hunks.RELOC32)
            while left and chance.random() < 0.8:
                target = left[0][0]
                its = [it for it in left if it[0] == target][: chance.randrange(1, 4)]
                for it in its:
                    left.remove(it)
                words += [len(its), target, *(offset for _, offset in its)]
            words.append(0)
        return words

    def file(self):
        count = len(self.longs)
        words = [hunks.HEADER, 0, count, 0, count - 1]
        for size, memory in zip(self.longs, self.memories):
            words += [size | memory << 30, *([4] if memory == 3 else [])]
        for number in range(count):
            words += [*([hunks.NAME, 1, 0x61000000] if self.chance.random() < 0.2 else []), *self._content(number)]
            words += self._relocations(number)
            if self.chance.random() < 0.3:
                words += [hunks.SYMBOL, 1, 0x41000000, self.chance.randrange(9), 0, hunks.DEBUG, 1, 7]
            words.append(hunks.END)
        rest = self.chance.randbytes(self.chance.choice((0, 0, 5)))
        return struct.pack(f">{len(words)}I", *words) + rest


def spelled(data, chance):
    """The file with short relocations, or without END, as far as it can be."""
    return chance.choice([text for _, text in spellings(data, hunks.read_load(data))][:64])


# ---- What is told of them.


def same_of(rows):
    """What the fields `same` and `first` have to be, from the sums and names of all rows before."""
    for number, row in enumerate(rows):
        known = [(name, other[-1]) for name in range(3) for other in rows[:number] if row[name] and row[name] == other[name]]
        yield (NAMES[known[0][0]], known[0][1]) if known else ("", "")


def table_of(printed):
    rows = [*csv.reader(io.StringIO(printed, newline=""))]
    same("the first line of CSV", rows[0], HEAD)
    return rows[1:]


def compared(home, folder, made):
    """Holds the rows of a folder with these files to the model."""
    there = home / folder
    there.mkdir()
    for name, data in made.items():
        (there / name).write_bytes(data)
    names = sorted(made)
    wanted = [[*(it or "" for it in model.sums(made[name])), f"{folder}/{name}"] for name in names]
    rows = table_of(hunk("survey", "--same", "--csv", folder, folder=home)[0])
    same(f"sums of {folder}", [row[4:7] + row[9:] for row in rows], wanted)
    same(f"the same of {folder}", [tuple(row[7:9]) for row in rows], [*same_of(wanted)])
    return wanted


def of_suite(home):
    made = {f"{table}-{name}": data for table in ("load", "objects") for name, data in files.suite(table).items()}
    lines = (files.TOP / "vectors/wide.tsv").read_text(encoding="utf-8").splitlines()[1:]
    made.update({f"wide-{row[1]}": bytes.fromhex(row[3]) for row in (it.split("\t") for it in lines) if row[4] == "accepted"})
    made.update({"text": b"text", "object": bytes.fromhex(files.OBJECT), "empty": b""})
    wanted = compared(home, "sums", made)
    same("sums of the suite", [sum(1 for row in wanted if row[i]) > 60 for i in range(3)], [True] * 3)
    # The first sum is that of sha256sum.
    ran = subprocess.run(["sha256sum", *(row[3] for row in wanted)], cwd=home, capture_output=True, text=True, check=True)
    same("sha256sum", [line.split()[0] for line in ran.stdout.splitlines()], [row[0] for row in wanted])


def of_programs(home):
    """Files of one program have one sum of memory, and others another one."""
    chance, made = random.Random(11), {}
    for number in range(150):
        program = Program(chance, number % 10 == 0)
        for spelling in range(3):
            data = program.file()
            made[f"{number:03}-{spelling}"] = spelled(data, chance) if spelling == 2 else data
    wanted = compared(home, "programs", made)
    sums = {}
    for *_, memory, name in wanted:
        sums.setdefault(name.split("/")[1][:3], set()).add(memory)
    same("files of one program", {len(it) for it in sums.values()}, {1})
    same("programs without a sum", 0 < sum(it == {""} for it in sums.values()) < 30, True)
    same("programs with a sum of their own", len({*map(frozenset, sums.values())}) > 100, True)


def of_two(home):
    """What `hunk same` tells of two files, and its status."""
    data = (home / "sum").read_bytes()
    (home / "behind-sum").write_bytes(data + b"more")
    (home / "symbols-sum").write_bytes(files.with_symbols(data))
    swapped = data[:96] + data[104:112] + data[96:104] + data[112:]
    (home / "near").write_bytes(files.warned()["overlap"][0])
    (home / "other-near").write_bytes(files.warned()["overlap"][0] + b"x")
    (home / "swapped").write_bytes(swapped)
    lines = {
        ("sum", "sum"): ("same", "same", "same", 0), ("sum", "behind-sum"): ("different", "same", "same", 0),
        ("sum", "symbols-sum"): ("different", "same", "same", 0), ("sum", "symbol"): ("different",) * 3 + (1,),
        ("near", "other-near"): ("different", "same", "not compared, as relocated longwords overlap", 0),
        ("sum", "part.o"): ("different", "different", "not compared, as B is an object file", 1),
        ("part.o", "part.o"): ("same", "same", "not compared, as A is an object file", 0),
    }
    for names, (*told, status) in lines.items():
        printed = "".join(f"{name}: {it}\n" for name, it in zip(NAMES, told))
        same(f"same {names}", called(["same", *names]), (printed, "", status))
    printed, said, status = called(["same", "wide", "wide"])
    same("same of other spellings", (printed, said.count("END put in"), status), ("file: same\nprogram: same\nmemory: same\n", 2, 0))
    got = called(["same", "sum", "text"])
    same("same of a text", (got[0], got[1].startswith("hunk: text: refused at byte 0: NotLoadFile"), got[2]), ("", True, 2))
    same("same of no file", called(["same", "none", "sum"])[::2], ("", 2))


def of_forms(home):
    """CSV of names and of each survey; flags that go together; tables that go on."""
    there = home / "forms"
    there.mkdir()
    names = ['a,"b', "c", "d e"]
    for name in names:
        (there / name).write_bytes(b"text")
    for words, fields in (([], []), (["--sha256"], ["sha256", "first"]), (["--what"], ["what"]),
                          (["--same", "--what"], ["file", "program", "memory", "same", "first", "what"])):
        head = ["class", "reason", "byte", "rest", *fields, "name"]
        printed, _, status = called(["survey", "--csv", *words, "forms"])
        rows = [*csv.reader(io.StringIO(printed, newline=""))]
        same(f"--csv {words}", (rows[0], [it[-1] for it in rows[1:]], status), (head, [f"forms/{it}" for it in names], 0))
        tabs = [line.split("\t") for line in called(["survey", *words, "forms"])[0].splitlines()]
        same(f"tabs {words}", [["" if it == "-" else it for it in row] for row in tabs], rows[1:])
        objects = called(["survey", "--json", *words, "forms"])[0].splitlines()
        same(f"JSON {words}", [[*json.loads(it)] for it in objects], [head] * 3)
        again(home, words, printed)
    same("lines of CSV", called(["survey", "--csv", "forms"])[0].splitlines(True)[1], 'no hunk file,NotLoadFile,0,,"forms/a,""b"\r\n')
    for words in ("--json --csv", "--same --sha256"):
        same(words, called(["survey", *words.split(), "forms"])[::2], ("", 2))


def again(home, words, printed):
    """A table of this form that is interrupted after each of its bytes goes on to the same rows."""
    table, wanted = home / "forms-table", printed.encode()
    head = wanted.index(b"\n") + 1
    for end in range(head, len(wanted), 7):
        table.write_bytes(wanted[:end])
        status = called(["survey", "--resume", "forms-table", "--csv", *words, "forms"])[2]
        same(f"--resume --csv {words} after {end} bytes", (table.read_bytes(), status), (wanted, 0))
    table.write_bytes(wanted[: head] + b'no hunk file,,0,"x"y\r\n')
    status = called(["survey", "--resume", "forms-table", "--csv", *words, "forms"])[2]
    same(f"--resume --csv {words}", status, 2)
    os.unlink(table)


def tried(home):
    of_suite(home)
    of_programs(home)
    os.chdir(home)
    of_two(home)
    of_forms(home)
    os.chdir(files.TOP)
