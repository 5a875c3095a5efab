"""Which edits can be made in one copy of a crate, and which controls."""

import collections

from edit import WANTED
from files import line_at


def batches(edits, kind):
    """The edits, or their controls, in groups that can be made together. An edit that changes functions that it does not have
    wrong goes where fewer others are: those that call these may prove them once more."""
    found, often = [], collections.Counter(function for edit in edits for function in edit.functions())
    for edit in sorted(edits, key=lambda it: (-max(often[function] for function in it.wrong_in()), -len(it.functions()))):
        groups = [it for it in found if not any(clash(edit, other, kind) for other in it)]
        if not groups:
            found.append([edit])
        else:
            groups[-1 if kind == "new" and edit.functions() - edit.wrong_in() else 0].append(edit)
    return found


def clash(edit, other, kind):
    """Whether the two can't be made together: one changes a function that the other has wrong, or both change one line in two
    ways."""
    wrongs = kind == "new" and (edit.wrong_in() & other.functions() or edit.functions() & other.wrong_in())
    is_alone = edit.stands_alone(kind) or other.stands_alone(kind)
    return bool(is_alone or wrongs or excludes(edit, kind, other, kind))


def excludes(edit, kind, other, kind_of_other):
    """Whether one says that it stands apart from the other, or they change a line otherwise than alike or by texts in front of
    it."""
    if other.bug in edit.apart or edit.bug in other.apart:
        return True
    rows, others = edit.rows(kind), other.rows(kind_of_other)
    both = rows.keys() & others.keys()
    return not all(rows[row] == others[row] or is_before(edit, row) and is_before(other, row) for row in both)


def is_before(edit, row):
    """Whether all that the edit does to the line is to put a text in front of it."""
    line = line_at(edit.crate, row).strip()
    return all(edit.rows(kind)[row].endswith(f" {line}") for kind in WANTED if edit.has(kind))
