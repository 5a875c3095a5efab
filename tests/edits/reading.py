"""The edits that stand in the pages of crates/NAME/edits/, and what is wrong with their texts."""

from built import ROOT
from edit import WANTED, Edit
from helpers import unsaid


def edits_of(crate):
    """The edits of the crate's folder, in order."""
    found, file = [], ""
    for path in sorted((ROOT / "crates" / crate / "edits").glob("*")):
        for line in path.read_text(encoding="utf-8").splitlines():
            word, _, text = line.partition(": ")
            if word == "edit":
                found.append(Edit(crate, text))
            elif word == "file":
                file = text
            elif word == "old":
                found[-1].changes.append({"file": file, "old": text})
            elif word in ("new", "right", "both"):
                goes_on(found[-1].changes[-1], WANTED if word == "both" else [word], text)
            elif word == "in":
                found[-1].named.append(text)
            elif word == "apart":
                found[-1].apart.append(text)
            elif word == "like":
                model = next(edit for edit in found if edit.bug == text)
                found[-1].changes += [{**it} for it in model.changes if it.get("new") == it.get("right")]
            elif line in ("new:", "right:"):
                found[-1].changes[-1][line[:-1]] = ""
            elif line:
                raise ValueError(f"{path.relative_to(ROOT)}: no such line: {line}")
    return found


def goes_on(change, kinds, text):
    """Adds the text to what the change has of these kinds, which stays one line."""
    for kind in kinds:
        change[kind] = f"{change[kind]} {text.strip()}" if kind in change else text


def faults(crate, edits):
    """What is wrong with the texts of the crate's edits, and with those of must-fail/."""
    found, names = [], [edit.bug for edit in edits]
    tried = {path.stem for path in (ROOT / "crates" / crate / "must-fail").glob("*.edit")}
    for edit in edits:
        try:
            same = not all(edit.rows(kind) for kind in WANTED if edit.has(kind))
        except (OSError, ValueError) as fault:
            found.append(str(fault))
            continue
        if names.count(edit.bug) > 1 or edit.has("new") == (edit.bug in tried):
            found.append(f"{edit.name}: stands twice, or has no wrong body")
        if same:
            found.append(f"{edit.name}: changes nothing")
        if not edit.has("right"):
            found.append(f"{edit.name}: has no control")
        elif not edit.functions():
            found.append(f"{edit.name}: changes no function, and names none")
        elif edit.has("new"):
            found += unsaid(edit)
    found += [f"{crate}/{name}: has no control" for name in sorted(tried - set(names))]
    return found
