"""The edits that were tried over just what stands here now, by an earlier run on this machine: which goals refused each."""

import os
import pathlib

STORE = pathlib.Path(os.environ.get("XDG_CACHE_HOME") or pathlib.Path.home() / ".cache") / "monteplum/edits"


def is_kept(edit):
    return (STORE / edit.sum).exists()


def goals_kept(edit):
    """The goals that refused the edit, where it is kept."""
    return (STORE / edit.sum).read_text(encoding="utf-8") if is_kept(edit) else None


def keep(edit, goals):
    STORE.mkdir(parents=True, exist_ok=True)
    (STORE / edit.sum).write_text(goals, encoding="utf-8")


def forget(edit):
    (STORE / edit.sum).unlink(missing_ok=True)
