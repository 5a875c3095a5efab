"""The functions that an edit adds, and what is missing where they say nothing."""

import re

HEAD = re.compile(r"\bfn (\w+)")


def unsaid(edit):
    """What is wrong with the functions that the edit adds. Of a call of one without `ensures` the prover knows nothing. So it
    refuses the caller whatever that function does, and not for the bug."""
    wrong, right = (Added(edit, kind) for kind in ("new", "right"))
    apart = sorted(wrong.silent & right.said)
    if apart:
        return [f"{edit.name}: {', '.join(apart)} has `ensures` in the control alone"]
    if wrong.calls(wrong.silent) <= right.calls(right.silent):
        return []
    names = sorted(it for it in wrong.silent if wrong.calls({it}) > right.calls({it}))
    return [f"{edit.name}: the wrong body alone calls {', '.join(names)}, without `ensures`"]


class Added:
    """The functions that an edit adds, as a wrong body or as a control: the names of those with `ensures`, and of the others."""

    def __init__(self, edit, kind):
        self.text, self.said, self.silent = "\n".join(change[kind] for change in edit.changes), set(), set()
        heads = [*HEAD.finditer(self.text)]
        ends = [*(it.start() for it in heads[1:]), len(self.text)]
        for head, end in zip(heads, ends):
            if not any(head[0] in change["old"] for change in edit.changes):
                (self.said if "ensures" in self.text[head.end() : end] else self.silent).add(head[1])

    def calls(self, names):
        """How many calls of these functions there are."""
        return sum(len(re.findall(rf"(?<!fn )\b{name}\(", self.text)) for name in names)
