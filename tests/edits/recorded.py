"""The record: which edits were tried over just what stood here when it was written, and the goals that refused each.

It is the file `record`, which `run --anew` alone writes, and which is committed: what is as it was then need not be tried again in
a clone. A line has the name of an edit, its sum and its goals. It ends after the sum where `rt ci` tries the wrong body, and only
the control is tried here."""

import functools
import hashlib
import re
import subprocess

from built import ROOT
from kept import goals_kept

RECORD = ROOT / "tests/edits/record"

LINE = re.compile(r"(\S+) ([0-9a-f]{32})(?: (\S.*))?")

# A run tries one in so many of the edits that need not be tried. After as many commits all were tried.
ONE_OF = 10


@functools.cache
def lines():
    """The sum and the goals of each edit of the record, by its name. A line of another form says nothing, so its edit is tried."""
    text = RECORD.read_text(encoding="utf-8", errors="replace") if RECORD.exists() else ""
    found = filter(None, map(LINE.fullmatch, text.splitlines()))
    return {it[1]: (it[2], it[3] or "") for it in found}


def is_recorded(edit):
    """Whether it was tried over just what a check of it reads now."""
    return lines().get(edit.name, ("",))[0] == edit.sum


def goals_known(edit):
    """The goals that refused the edit, by what this machine has kept or by the record."""
    return lines()[edit.name][1] if is_recorded(edit) else goals_kept(edit)


def is_passed_over(edit):
    """Whether a run leaves it out: it need not be tried, and it is not its turn."""
    return goals_known(edit) is not None and not is_its_turn(edit.name)


def is_its_turn(name):
    """Whether the edit of this name is one of those that are tried at this commit in any case."""
    return (int(hashlib.sha256(name.encode()).hexdigest(), 16) - commits()) % ONE_OF == 0


@functools.cache
def commits():
    """How many commits lead to this one."""
    return int(git("rev-list", "--count", "HEAD") or 0)


def written_by():
    """The commit that wrote the record."""
    return git("log", "-1", "--format=%h", "--", RECORD.relative_to(ROOT)) or "no commit"


def git(*words):
    """What git answers, and nothing where this is no repository."""
    try:
        return subprocess.run(["git", *words], cwd=ROOT, capture_output=True, text=True).stdout.strip()
    except OSError:
        return ""


def contradicts(edit, goals):
    """Whether the record has no goal that refuses the edit, where these do. That it has others says nothing: what a goal is called
    also hangs on what else was tried in the same check."""
    return is_recorded(edit) and bool(goals) and not lines()[edit.name][1]


def write(edits, tried):
    """Writes the record anew: what came of those edits that were tried, if they were as they have to be, and of the others of
    these what it had. Prints which goals refuse an edit otherwise than it had."""
    for edit in filter(is_recorded, tried):
        before, now = lines()[edit.name][1], tried[edit]
        if now not in (None, before):
            print(f"tests/edits: {edit.name}: refused by {now}, where the record had {before}")
    had = {edit: lines().get(edit.name) for edit in edits}
    has = {edit: (edit.sum, tried[edit]) if edit in tried else had[edit] for edit in edits}
    texts = sorted(f"{edit.name} {' '.join(it)}".rstrip() for edit, it in has.items() if it and it[1] is not None)
    RECORD.write_text("".join(f"{text}\n" for text in texts), encoding="utf-8")
