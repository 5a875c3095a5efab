"""What comes of all that is tried: it is counted, kept where it is as it has to be, and told where it is not."""

import collections

from edit import WANTED
from kept import forget, keep
from recorded import contradicts


class Tally:
    """How many edits and controls were tried, how many are not as they have to be, and what the others came to."""

    def __init__(self, edits, tells_goals):
        """Begins with nothing tried, and forgets what was kept of these edits."""
        self.count, self.bad, self.good = dict.fromkeys(WANTED, 0), 0, collections.defaultdict(dict)
        self.tells_goals, self.goals = tells_goals, dict.fromkeys(edits)
        for edit in edits:
            forget(edit)

    def add(self, kind, edit, came_to, why):
        """Counts the edit or its control by what came of it, and keeps the edit where both are as they have to be."""
        is_good = came_to == WANTED[kind]
        if is_good and kind == "new" and contradicts(edit, why):
            is_good, came_to = False, "refused otherwise than the record says"
        self.count[kind] += 1
        self.bad += not is_good
        self.good[edit].update({kind: why} if is_good else {})
        if all(it in self.good[edit] for it in WANTED if edit.has(it)):
            self.goals[edit] = self.good[edit].get("new", "")
            keep(edit, self.goals[edit])
        if not is_good or self.tells_goals and kind == "new":
            print(f"tests/edits: {'edit' if kind == 'new' else 'control of'} {edit.name}: {came_to}: {why}", flush=True)

    def tell(self):
        """Prints how many were tried, and gives the status to end with."""
        print(f"tests/edits: {self.count['new']} edits and {self.count['right']} controls, {self.bad} not as they have to be")
        return 1 if self.bad else 0
