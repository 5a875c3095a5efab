"""Holds what a run has come to, or a part of it, to what it must be, and counts how often."""

failed = 0
count = 0


def wrong(what, text):
    global failed
    failed = 1
    print(f"tests/command: {what}: {text}", flush=True)


def same(what, got, want):
    global count
    count += 1
    if got != want:
        wrong(what, f"{got!r} where {want!r} is wanted")
