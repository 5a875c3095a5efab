"""Compares what is with what must be, and counts how often; calls the command `hunk`, and hunkinfo."""

import io
import subprocess
import sys
from collections import Counter

import hunk.command

failed, counts = 0, Counter()


def wrong(text):
    global failed
    failed = 1
    print(f"tests/converted: {text}", flush=True)


def same(what, got, want):
    counts["comparisons"] += 1
    if got != want:
        wrong(f"{what}: {got!r:.600} where {want!r:.600} is wanted")


def called(*words):
    """What the command prints, says, and its status, in this process."""
    out, err = io.TextIOWrapper(io.BytesIO()), io.StringIO()
    before = sys.stdout, sys.stderr
    sys.stdout, sys.stderr = out, err
    try:
        status = hunk.command.main([str(it) for it in words])
    finally:
        sys.stdout, sys.stderr = before
    return out.buffer.getvalue().decode("latin-1"), err.getvalue(), status


def asked(program, *words):
    """The lines that hunkinfo prints, or without it the command; none where it refuses."""
    if program is None:
        printed, _, status = called(*words)
    else:
        ran = subprocess.run([program, *map(str, words)], capture_output=True)
        printed, status = ran.stdout.decode("latin-1"), ran.returncode
    return printed.splitlines() if status == 0 else []
