"""What the command `hunk` does where the system refuses processes or memory, and with numbers of any size: each ends in a line."""

import json
import os
import resource
import struct
import subprocess
import sys

import files
from compared import same, wrong
from files import hunk

# Runs the command where only so many processes may be begun, as the first word says.
FEW = """import errno, os, sys
left, fork = int(sys.argv.pop(1)), os.fork
def few():
    global left
    if left == 0:
        raise BlockingIOError(errno.EAGAIN, os.strerror(errno.EAGAIN))
    left -= 1
    return fork()
os.fork = few
import hunk.command
sys.exit(hunk.command.main())"""
RELOCATIONS, STEPS, STEP = 20_000, 7, 4 << 20
LARGE_RELOCATIONS = 1_000_000
NO_MEMORY = "OutOfMemory: memory was refused (not judged)\n"


def few_processes(home):
    """Where processes are refused, the others judge all, and where there are none, the first one does."""
    wanted = hunk("survey", "--jobs", "1", "many", "+many", folder=home)
    for left in (0, 1, 2):
        for jobs in ("3", "100"):
            words = [sys.executable, "-W", "error", "-c", FEW, str(left), "survey", "--jobs", jobs, "many", "+many"]
            ran = subprocess.run(words, cwd=home, env=files.ENVIRONMENT, capture_output=True, timeout=120)
            same(f"{left} processes for --jobs {jobs}", (ran.stdout.decode(), ran.stderr.decode(), ran.returncode), wanted)


def numbers(home):
    """Numbers of any size, of which a command line gives some, and those that are refused."""
    most = 1 << 64
    of_sum = hunk("dump", "--base", "1000", "sum", folder=home)
    for number in (60, most - 1):
        same(f"--budget {number}", hunk("dump", "--base", "1000", "--budget", str(number), "sum", folder=home), of_sum)
    same("--budget 0..060", hunk("dump", "--base", "1000", "--budget", "0" * 5000 + "60", "sum", folder=home), of_sum)
    for words in (("dump", "--base", "1000", "--budget"), ("survey", "--jobs")):
        for number in (most, 1 << 128, int("9" * 4000)):
            printed, said, status = hunk(*words, str(number), "sum", folder=home)
            end = f"'{number}' is no number of 64 bits in decimal digits\n"
            same(f"{words} {str(number)[:20]}", (printed, said.endswith(end), said.count("error:"), status), ("", True, 1, 2))
    of_many = hunk("survey", "--jobs", "1", "many", folder=home)
    for number in (0, 1 << 32, most - 1):
        same(f"--jobs {number}", hunk("survey", "--jobs", str(number), "many", folder=home), of_many)


def load_file(relocations, last):
    """A load file of a small hunk, and of one with so many relocations, the last of which is at this offset."""
    offsets = struct.pack(f">{relocations}I", *range(0, 4 * relocations - 4, 4), last)
    head = struct.pack(">12I", 0x3F3, 0, 2, 0, 1, 1, relocations, 0x3EB, 1, 0x3F2, 0x3E9, relocations)
    return head + bytes(4 * relocations) + struct.pack(">3I", 0x3EC, relocations, 0) + offsets + struct.pack(">2I", 0, 0x3F2)


def limited(words, home, most):
    """What the words print, say, and their status, where so many bytes of addresses are there."""
    ran = subprocess.run([*files.COMMAND, *words], cwd=home, env=files.ENVIRONMENT, stdin=subprocess.DEVNULL, timeout=300,
                         capture_output=True, preexec_fn=lambda: resource.setrlimit(resource.RLIMIT_AS, (most, most)))
    return ran.stdout.decode(), ran.stderr.decode(), ran.returncode


def peak():
    """The bytes of addresses that the command takes to begin."""
    ran = subprocess.run([sys.executable, "-c", files.PEAK], env=files.ENVIRONMENT, capture_output=True, check=True)
    return int(ran.stdout)


def little_memory(home):
    """With a little memory, and then more and more: a file for which it is too little is told in a line, and the others are done."""
    for name, relocations, last in (("m1", RELOCATIONS, 0), ("m2", RELOCATIONS, 4)):
        (home / name).write_bytes(load_file(relocations, last))
    begins = peak()
    documents = {it: json.loads(hunk("json", it, folder=home)[0]) for it in ("m1", "sum")}
    seen = {"json": set(), "diff": set()}
    for step in range(1, STEPS + 1):
        most = begins + step * STEP
        for lines in ([], ["--lines"]):
            printed, said, status = limited(["json", *lines, *documents], home, most)
            seen["json"].add(status)
            told = [it for it in documents if f"hunk: {it}: {NO_MEMORY}" in said.splitlines(True)]
            got = [json_of(it) for it in printed.splitlines()] if lines else json_of(printed)
            same(f"json {lines} in {most} bytes", got, [made for it, made in documents.items() if it not in told])
            same(f"json {lines} in {most} bytes", (len(told), status), (said.count("\n"), 1 if told else 0))
        printed, said, status = limited(["diff", "m1", "m2"], home, most)
        seen["diff"].add(status)
        if status == 2:
            told = [f"hunk: {it}: {NO_MEMORY}" for it in ("m1", "m2", "m1 and m2")]
            same(f"diff in {most} bytes", (said in (*told, told[0] + told[1])), True)
        else:
            same(f"diff in {most} bytes", (said, status), ("", 1))
    same("what is refused in little memory", seen, {"json": {0, 1}, "diff": {1, 2}})


def lint_in_little_memory(home):
    """The same of `hunk lint`, which takes a longword of room for each of the file."""
    (home / "m3").write_bytes(load_file(LARGE_RELOCATIONS, 0))
    begins, seen = peak(), set()
    wanted = hunk("lint", "m3", "sum", folder=home)
    same("lint m3", (wanted[0].count("\n"), wanted[1:]), (3, ("", 1)))
    for step in range(1, 2 * STEPS, 3):
        got = limited(["lint", "m3", "sum"], home, begins + step * STEP)
        seen.add(got[2])
        same(f"lint with {step * STEP} bytes", got, wanted if got[2] == 1 else ("", f"hunk: m3: {NO_MEMORY}", 2))
    same("what lint refuses in little memory", seen, {1, 2})


def json_of(text):
    try:
        return json.loads(text)
    except ValueError:
        wrong("little memory", f"no JSON: {text[:200]} .. {text[-200:]}")
        return text[:20]


def tried(home):
    numbers(home)
    if hasattr(os, "fork"):
        few_processes(home)
    little_memory(home)
    lint_in_little_memory(home)
