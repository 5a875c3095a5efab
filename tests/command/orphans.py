"""The processes that judge files for `hunk survey` end soon after the one that started them, whatever ends that, and hold no pipe."""

import os
import pathlib
import signal
import subprocess
import sys
import time

import files
from compared import same

SECONDS = 3


def parents():
    """Each process that lives, with the one that started it."""
    found = {}
    for it in pathlib.Path("/proc").glob("[0-9]*/stat"):
        try:
            state, parent = it.read_text(encoding="latin-1").rsplit(")", 1)[1].split()[:2]
        except OSError:
            continue
        if state not in "ZX":
            found[int(it.parent.name)] = int(parent)
    return found


def wait_for(found, seconds=10):
    """Waits until this gives something, for some seconds, and gives that."""
    end = time.monotonic() + seconds
    while not (got := found()) and time.monotonic() < end:
        time.sleep(0.02)
    return got


def workers_of(number, count):
    """The processes that this one has started, where there are so many."""
    found = [it for it, parent in parents().items() if parent == number]
    return found if len(found) >= count else []


def all_of(stream):
    """What is read up to the end of a pipe; None where that does not come soon."""
    os.set_blocking(stream.fileno(), False)
    got, end = b"", time.monotonic() + SECONDS
    while time.monotonic() < end:
        piece = stream.read(1 << 16)
        if piece == b"":
            return got
        got += piece or b""
        time.sleep(0.02)
    return None


def ends(home, words, count, number):
    """Ends the command by a signal while its workers wait for work, or are at it."""
    what = f"hunk {' '.join(words)[:40]} ended by {signal.Signals(number).name}"
    ran = files.start(words, home, stdin=subprocess.PIPE, stdout=subprocess.PIPE, stderr=subprocess.STDOUT)
    found = wait_for(lambda: workers_of(ran.pid, count))
    same(f"{what}: whether there are workers", len(found) >= count, True)
    time.sleep(0.2)
    ran.send_signal(number)
    ran.wait()
    left = wait_for(lambda: not set(found) & set(parents()), SECONDS)
    same(f"{what}: whether they ended", left, True)
    # What reads the output of the command sees its end.
    printed = all_of(ran.stdout)
    same(f"{what}: whether the pipe ended", (printed is not None, b"Traceback" in (printed or b"")), (True, False))
    ran.stdin.close()
    ran.stdout.close()
    for it in set(found) & set(parents()):
        os.kill(it, signal.SIGKILL)


def tried(home):
    if sys.platform != "linux":
        return
    # A file that has no end that a test would wait for: 8 TiB of nothing, of which the sum is wanted.
    for folder in ("endless", "+more"):
        (home / folder).mkdir()
    # More than two processes get at once.
    for i in range(96):
        (home / "+more" / f"{i}").write_bytes(b"text")
    for i in range(3):
        (home / "endless" / f"{i}").touch()
        os.truncate(home / "endless" / f"{i}", 1 << 43)
    for number in (signal.SIGKILL, signal.SIGTERM, signal.SIGINT):
        # Standard input is waited for, by the first process.
        ends(home, ["survey", "--jobs", "3", "+more", "-"], 3, number)
        ends(home, ["survey", "--jobs", "2", "--sha256", "endless"], 1, number)
