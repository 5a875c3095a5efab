"""What is tried of a crate: its first controls, then each batch, in halves where that does not settle it."""

import pathlib
import re
import shutil

from batches import batches
from built import STATIC, build_static
from copies import checked, over
from edit import WANTED
from goals import goals, refusing

# What a change comes to where the crate is proved with it.
PASSED = {"new": "not refused", "right": "proved"}


class Crate:
    """A crate whose edits are tried, and what its first check has proved."""

    def __init__(self, name, edits, kept):
        self.name, self.kept, self.base = name, pathlib.Path(kept) / name, []
        self.functions = set().union(*(edit.functions() for edit in edits))
        self.groups = [(kind, group) for kind in WANTED for group in batches([edit for edit in edits if edit.has(kind)], kind)]
        self.groups.sort(key=lambda it: (it[0] == "right", len(it[1])), reverse=True)

    def begin(self):
        """Checks all functions that are to be changed, with the first controls, and gives what comes of these. A static library
        is built."""
        if self.name in STATIC:
            shutil.copytree(build_static(self.name), self.kept)
            return []
        self.kept.mkdir()
        kind, group = self.groups.pop(0)
        found = self.settled(group, kind, checked(self.name, group, kind, self.kept, only=self.functions)[1])
        self.base = [edit for edit, came_to, _ in found if came_to == WANTED[kind]]
        return found

    def tried(self, kind, group):
        """The edits of the group with what came of each, and why. Only the functions that they change are checked, and of wrong
        bodies those that are not as in the control."""
        functions = set().union(*(edit.wrong_in() if kind == "new" else edit.functions() for edit in group))
        return self.settled(group, kind, over(self.kept, self.name, group, kind, self.base, functions)[1])

    def settled(self, group, kind, said):
        """What a check of the group says of its edits. What that does not settle is tried in two halves, and what is alone over
        the whole crate."""
        found, left, unproved = [], [], goals(said)
        for edit in group:
            why = ", ".join(sorted(refusing(edit, unproved)))
            if kind == "new" and why:
                found.append((edit, "refused", why))
            elif kind == "right" and all(f"fn {self.name}::{name}: proved" in said for name in edit.functions()):
                found.append((edit, "proved", ""))
            elif len(group) > 1:
                left.append(edit)
            else:
                found.append(self.alone(edit, kind))
        for half in filter(None, (left[::2], left[1::2])):
            found += self.tried(kind, half)
        return found

    def alone(self, edit, kind):
        """What a check of the whole crate, as it stands but for this edit, comes to."""
        status, said = over(self.kept, self.name, [edit], kind)
        if status == 0:
            return edit, PASSED[kind], ""
        error = next((line for line in said.splitlines() if ": error" in line or "error[" in line or "did not prove" in line), "")
        judged = re.search(r"^logic=not-proved", said, re.M)
        return edit, ("not proved" if kind == "right" else "refused elsewhere") if judged else "broken", error[:200]
