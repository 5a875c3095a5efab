#!/usr/bin/env python3
"""fuzz.py [--seed N] [--runs N] [--seconds N]: calls the command `hunk` by command lines, on files, and with standard streams and
memory that chance draws. Whatever they are, it has to end by itself, with a status of its pages and without a traceback; files that
it reads stay as they are; JSON is JSON; and standard error changes nothing else. LIBHUNK names the library. tests/command/run calls
it with few runs. Prints what is not so, and then ends with status 1; else how many were tried."""

import argparse
import hashlib
import json
import os
import pathlib
import random
import resource
import subprocess
import sys
import tempfile
import time

import building
import compared
import disks
import files
import resumes

SEED, RUNS, SECONDS = 75, 240, 25
# So that a run is short: what it gets, and how long it may take.
MEMORY, LONGEST = 192 << 20, 60
# Those that write a file have the status 3 where they can't.
STATUSES = {"explain": {0, 2}, "strip": {0, 1, 2, 3}, "convert": {0, 1, 2, 3}, "find": {0, 1, 2, 3}, "edit": {0, 1, 2, 3},
            "build": {0, 1, 2, 3}}
NUMBERS = ("0", "1", "4", "60", "1000", "00021000", "fffffff8", "ffffffff", "100000000", "4294967296", "16777216", "-1", "+1", "1_0",
           "0x10", "x", "", " ", "\N{ARABIC-INDIC DIGIT THREE}", str((1 << 64) - 1), str(1 << 64), "9" * 30, "9" * 5000)
FLAGS = {
    "show": ("--wide", "--partial"), "size": ("--wide", "-A", "-t", "--base N", "--json"), "relocs": ("--wide", "--json"),
    "nm": ("--wide", "-A", "-g", "-n", "-u", "--base N", "--json"), "validate": ("--wide", "--json"), "strip": ("--wide",),
    "relocate": ("--wide", "--base N", "--budget N", "--to F"), "convert": ("--wide", "--base N", "--to F"), "dump": ("--wide", "--base N", "--budget N"),
    "json": ("--wide", "--partial", "--lines"), "map": ("--wide", "--base N"), "diff": ("--wide", "--items"),
    "lint": ("--wide", "--json", "--ignore K", "--ignore K"),
    "survey": ("--json", "--csv", "--sha256", "--same", "--what", "--jobs N", "--resume T"), "explain": (), "same": (),
    "find": ("--wide", "--raw", "--extract D"), "build": (),
    "edit": ("--wide", "--memory E", "--memory E", "--symbols M", "--content E", "--append E"),
}
FORMATS = ("elf", "bin", "srec", "ihex", "text", "coff", "")
# Those without which a command line is always refused.
NEEDED = {"relocate": ("--base", "1000"), "convert": ("--to", "elf")}
EDITS = ("0=chip", "1=fast", "0.0=any", "0=10004", "9=chip", "=", "0", "DATA=w0", "CODE=", "BSS=8", "BSS=-1", "0=w1", "1=none", "0=-",
         "x=y")
WRITERS = ("strip", "convert", "edit", "build")
# Each with a row of JSON on a line.
HAS_ROWS = ("size", "nm", "relocs", "validate", "lint")
KINDS = ("OddOffset", "overlap", "TWICE", "BadTarget", "BadOffset", "1", "")
REASONS = ("24", "BadOffset", "noentry", "badtarget", "0", "none", "", "9" * 400)
LONGWORDS = (0, 1, 0x3E7, 0x3E9, 0x3EB, 0x3EC, 0x3EF, 0x3F0, 0x3F1, 0x3F2, 0x3F3, 0x3FC, 0xFFFF, 0x10001, 0x3FFFFFFF, 0x40000001,
             0x7FFFFFFF, 0x80000000, 0xC0000001, 0xFFFFFFFF)
NAMES = (b"a b", b"-x", b"\xe4\xff", b"line\nline", b"tab\tname", b"back\\slash", b"\x1b[31m", "grün".encode(), b"'\"`$(id)")
# Words that a run never has on standard error, nor elsewhere.
NEVER = ("Traceback", "Exception ignored", "Fatal Python", "Warning:", "resource_tracker")
# How a table begins, of any form and fields.
HEADS = ('{"fields": ["class", "reason", ', "class\treason\t", "class,reason,")


def damaged(chance, data):
    """A copy of a file in which something is wrong."""
    made = bytearray(data)
    for _ in range(chance.randint(1, 3)):
        at = 4 * chance.randrange(len(made) // 4 + 1)
        kind = chance.randrange(4)
        if kind == 0:
            made[at : at + 4] = chance.choice(LONGWORDS).to_bytes(4, "big")
        elif kind == 1:
            made[at:at] = chance.choice(LONGWORDS).to_bytes(4, "big")
        elif kind == 2 and made:
            made[chance.randrange(len(made))] ^= 1 << chance.randrange(8)
        else:
            del made[chance.randrange(len(made) + 1) :]
    return bytes(made)


def damaged_disk(chance, whole):
    """A disk image in which something is wrong."""
    image = disks.Image(chance.random() < 0.5)
    for data in chance.sample(whole, 8):
        image.file(chance.randbytes(3), data, chance.choice((disks.ROOT, image.folder(chance.randbytes(3)))))
    return damaged(chance, image.bytes())


def make_inputs(chance, folder):
    """Makes the files, and gives their names: of all kinds, and folders."""
    folder.mkdir()
    whole = [*files.suite("load").values(), *files.suite("objects").values(), *(data for data, _ in files.warned().values())]
    whole += [bytes.fromhex(it) for it in (files.OBJECT, files.WIDE, files.CUT)]
    made = {f"w{i}": data for i, data in enumerate(chance.sample(whole, 12))}
    made.update({f"d{i}": damaged(chance, chance.choice(whole)) for i in range(24)})
    made.update({"empty": b"", "text": b"text\n", "table": f"{resumes.HEAD}\n".encode() + b"load\t-\t-\t0\tw0\nload\t-", "none.o": b"\x7fELF",
                 "json": f"{resumes.JSON_HEAD}\n".encode() + b"[" * 5000 + b"\n", "large": chance.choice(whole) + bytes(1 << 20),
                 "disk": damaged_disk(chance, whole), "disks": b"x" + damaged_disk(chance, whole)})
    document = json.dumps({"parts": building.PROGRAM}).encode()
    made.update({"map": b"0 4 main\n0 0 _m\n", "p0": document, **{f"p{i}": damaged(chance, document) for i in range(1, 6)}})
    for name, data in made.items():
        (folder / name).write_bytes(data)
    sub = os.fsencode(folder / "sub")
    os.mkdir(sub)
    for name in NAMES:
        with open(os.path.join(sub, name), "wb") as one:
            one.write(chance.choice(whole))
    os.mkfifo(folder / "sub/pipe")
    os.symlink("nowhere", folder / "sub/dangling")
    names = [*made, "sub", "sub", ".", "nothing", "", "-", "-", "sub/dangling", "/dev/null", "w0/x", "y" * 5000]
    return names + [os.fsdecode(os.path.join(b"sub", it)) for it in NAMES]


def command_line(chance, names, number):
    """A command with its words; now and then with one of another."""
    command = chance.choice([*FLAGS, "json", "survey", "survey", "convert"])
    words = [command, *(NEEDED.get(command, ()) if chance.random() < 0.9 else ())]
    every = [it for its in FLAGS.values() for it in its]
    for flag in chance.sample(FLAGS[command], chance.randint(0, len(FLAGS[command]))) + [chance.choice(every)] * (chance.random() < 0.1):
        flag, *value = flag.split()
        # A table is a new one, or one of the files, which are none.
        tables = (f"new-{number}", f"new-{number}", chance.choice(names), "/dev/full", "sub/pipe", "table", "json")
        # What is found goes to a new folder, or to one that is there or is none.
        folders = (f"found-{number}", "found", "sub", chance.choice(names))
        kinds = {"N": NUMBERS, "K": KINDS, "F": FORMATS, "D": folders, "E": EDITS, "M": (*names, "map", "map")}
        words += [flag, *(chance.choice(kinds.get(it, tables)) for it in value)]
    count = {"diff": 2, "same": 2, "explain": 1, **dict.fromkeys(WRITERS, 2)}.get(command, chance.randint(1, 4))
    count = count if chance.random() < 0.9 else chance.randint(0, 3)
    if command in WRITERS:
        # OUT is none of the files, which stay as they are.
        outs = (f"new-{number}", f"new-{number}", f"new-{number}", "-", "/dev/full", "/dev/null", "sub", "nothing/x", "new/", "", "y" * 5000)
        return words + chance.choices(names, k=min(count, 1)) + chance.choices(outs, k=max(count - 1, 0))
    words += chance.choices(REASONS if command == "explain" else names, k=count)
    if chance.random() < 0.05:
        words.insert(chance.randrange(len(words) + 1), chance.choice(("--help", "--version", "--", "--no", "-h")))
    return words


def streams(chance):
    """What the three standard streams are, and how much memory there is."""
    return {
        "in": chance.choice(("nothing", "nothing", "file", "closed")),
        "out": chance.choice(("read", "read", "read", "read", "closed", "full", "broken")),
        "err": chance.choice(("read", "read", "closed", "full")),
        "memory": chance.choice((0, 0, 0, 1, 2, 4, 8, 16)) << 20,
    }


def run(words, home, how, begins):
    """What is printed, said, and the status, or None where it did not end in time."""
    most = begins + how["memory"] if how["memory"] else MEMORY

    def prepare():
        for number, what in ((0, how["in"]), (1, how["out"]), (2, how["err"])):
            if what == "closed":
                os.close(number)
            elif what == "full":
                os.dup2(os.open("/dev/full", os.O_WRONLY), number)
            elif what == "broken":
                read, write = os.pipe()
                os.dup2(write, number)
                os.close(read)
        os.closerange(3, 12)
        resource.setrlimit(resource.RLIMIT_AS, (most, most))

    given = subprocess.DEVNULL if how["in"] != "file" else open(home / "w1", "rb")
    ran = subprocess.Popen([*files.COMMAND, *words], cwd=home, env=files.ENVIRONMENT, stdin=given, stdout=subprocess.PIPE,
                           stderr=subprocess.PIPE, close_fds=False, preexec_fn=prepare)
    if how["in"] == "file":
        given.close()
    try:
        printed, said = ran.communicate(timeout=LONGEST)
    except subprocess.TimeoutExpired:
        ran.kill()
        ran.communicate()
        return "", "", None
    return printed.decode(errors="replace"), said.decode(errors="replace"), ran.returncode


def sums(home):
    """The sums of all files that are no table, and not empty, which a table may become."""
    found = {}
    for folder, _, names in os.walk(os.fsencode(home)):
        for path in (os.path.join(folder, name) for name in names if name not in (b"table", b"empty")):
            if os.path.isfile(path):
                with open(path, "rb") as file:
                    found[path] = hashlib.sha256(file.read()).digest()
    return found


def changed(home, before):
    """The files whose sums are others now. One may be new: a table."""
    after = sums(home)
    return [it for it in before if after.get(it) != before[it]]


def is_json(words, printed):
    """Whether what a command has printed is JSON: one text, or one on each line."""
    try:
        for text in printed.splitlines() if words[0] in HAS_ROWS or "--lines" in words else [printed] if printed else []:
            json.loads(text)
    except ValueError:
        return False
    return True


def faults(words, how, got):
    """What is wrong with a run."""
    printed, said, status = got
    wanted = {0, 1, 2} if len(words) == 0 else STATUSES.get(words[0], {0, 1, 2})
    wanted = wanted | {"closed": {3}, "full": {3}, "broken": {141}}.get(how["out"], set())
    # Where not even a subcommand can be had, there is no memory for more than that line.
    wanted = wanted | ({1} if how["memory"] else set())
    if status not in wanted:
        yield f"the status {status}"
    yield from (f"{it!r}" for it in NEVER if it in printed + said)
    makes_json = words[:1] == ["json"] or words[:1] and words[0] in HAS_ROWS and "--json" in words
    if makes_json and how["out"] == "read" and status in (0, 1) and not {"-h", "--help", "--version"} & {*words}:
        if not is_json(words, printed):
            yield "no JSON"


def try_one(chance, home, names, number, begins):
    """One run by chance, and where standard error is not read, the same with it."""
    words, how = command_line(chance, names, number), streams(chance)
    what = f"fuzz run {number}: hunk {' '.join(map(ascii, words))[:300]} {how}"
    got = run(words, home, how, begins)
    for it in faults(words, how, got):
        compared.wrong(what, f"{it}: {got[1][-600:]!r}")
    new = home / f"new-{number}"
    if words[0] in WRITERS:
        if new.exists() and got[2] == 1 or [*home.glob(".hunk-*")]:
            compared.wrong(what, "OUT, or a part of it, is there")
    elif new.exists() and not new.read_text().startswith(HEADS):
        compared.wrong(what, f"a table that begins with {new.read_text()[:80]!r}")
    if how["err"] != "read" and not how["memory"]:
        new.unlink(missing_ok=True)
        again = run(words, home, {**how, "err": "read"}, begins)
        if (got[0], got[2]) != (again[0], again[2]):
            compared.wrong(what, f"{got[0]!r} {got[2]} where {again[0]!r} {again[2]} is printed with standard error")


def tried(home, seed=SEED, runs=RUNS, seconds=SECONDS):
    """Tries so many, and gives how many there were time for."""
    chance, there = random.Random(seed), home / "fuzz"
    names = make_inputs(chance, there)
    begins = int(subprocess.run([sys.executable, "-c", files.PEAK], env=files.ENVIRONMENT, capture_output=True, check=True).stdout)
    before, end = sums(there), time.monotonic() + seconds
    for number in range(runs):
        if time.monotonic() > end:
            return number
        try_one(chance, there, names, number, begins)
        for path in changed(there, before):
            compared.wrong(f"fuzz run {number}", f"it changed {path!r}")
    return runs


def main():
    options = argparse.ArgumentParser(usage=__doc__)
    for flag, value in (("--seed", SEED), ("--runs", RUNS), ("--seconds", 3600)):
        options.add_argument(flag, type=int, default=value)
    given = options.parse_args()
    with tempfile.TemporaryDirectory() as made:
        count = tried(pathlib.Path(made), given.seed, given.runs, given.seconds)
    if not compared.failed:
        print(f"tests/command: {count} command lines by chance, from the seed {given.seed}")
    return compared.failed


if __name__ == "__main__":
    sys.exit(main())
