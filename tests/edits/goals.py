"""Which goals are not proved, by what a check says, and which of these refuse an edit."""

import re

# An answer that names what the edit took away is not read, and so tells nothing of the contract.
LACKS = re.compile(r": error: (?:module `[^`]*` has no |\d+ declarations? that depends? on )")


def goals(said):
    """The goals that are not proved, by the functions that they are goals of."""
    found = {}
    for line in said.splitlines():
        answer = re.match(r"\./proofs/(\S+)/\w+\.antt:\d+:\d+: error: (?:`([^`]*)`)?", line)
        if answer and not LACKS.search(line):
            found.setdefault(answer[1].replace("/", "::"), set()).add(answer[2] or "its proof")
        function = re.match(r"fn \w+::(\S+): no(?:t|) proof?\S*(.*)", line)
        if function and "did not prove" in function[2]:
            own = function[2].split("did not prove")[1].split(";")[0]
            found.setdefault(function[1], set()).update(re.findall(r"`([^`]*)`", own))
    return found


def refusing(edit, unproved):
    """The goals of the functions that the edit has wrong among those that are not proved."""
    return {goal for function in edit.wrong_in() for goal in unproved.get(function, ())}
