"""What `hunk explain` says of each reason, finding and warning, by docs/reasons.tsv, docs/warnings.tsv and the manual."""

import re

import files
from compared import same
from files import called


def rows_of(table):
    lines = (files.TOP / "docs" / table).read_text(encoding="utf-8").splitlines()[1:]
    return [line.split("\t") for line in lines]


def sentence(text):
    return f"{text[0].upper()}{text[1:]}."


def of_reasons():
    """What is told by the name and the number of each reason, and the lines of the list."""
    told, by_number, listed = {}, {}, []
    for number, name, kind, meaning, developer, archive in rows_of("reasons.tsv"):
        text = f"{name} ({number}), {kind}\n  {sentence(meaning)}\n  Developer: {developer}.\n  Archive: {archive}.\n"
        told[name] = by_number[number.split()[0]] = told.get(name, "") + text
        listed.append(f"{number.split()[0]:>2} {name:17} {kind:13} {meaning}{', at byte 0' if 'byte' in number else ''}\n")
    return told, by_number, listed


def explanations():
    """The same of findings and warnings, too, which have no number here."""
    told, by_number, listed = of_reasons()
    manual = (files.TOP / "docs/hunkinfo.1").read_text(encoding="utf-8").split(".SS Findings")[1].split(".SH")[0]
    for name, text in re.findall(r"\.B (\w+)\n([A-Z].*)\n", manual):
        told[name] = told.get(name, "") + f"{name}, a finding\n  {text}\n"
        listed.append(f" - {name:17} {'findings':13} {text[0].lower()}{text[1:-1]}\n")
    for number, name, meaning, place, effect, developer in rows_of("warnings.tsv"):
        told[name] = f"{name} ({number}), a warning\n  {sentence(meaning)}\n  Place: {place}.\n"
        told[name] += f"  Effect: {effect}.\n  Developer: {developer}.\n"
        listed.append(f" - {name:17} {'warnings':13} {meaning}\n")
    return told, by_number, listed


def tried():
    """Each by its name in any letters, and reasons by their numbers; all of them, and words that are none."""
    told, by_number, listed = explanations()
    same("reasons, findings and warnings", (len(told), len(by_number), len(listed)), (40, 31, 44))
    for name, text in {**told, **by_number}.items():
        for word in dict.fromkeys((name, name.lower(), name.upper())):
            same(f"explain {word}", called(["explain", word]), (text, "", 0))
    several = "".join(told[it] for it in ("BadOffset", "OutsideHunk", "BadOffset", "Twice"))
    same("explain several", called("explain 24 OutsideHunk 24 twice".split()), (several, "", 0))
    same("explain", called(["explain"]), ("".join(listed), "", 0))
    unknown = {"BadOfset": "near it: BadOffset", "shortrelocs": "near it: ShortReloc", "bad": "near it: BadTarget, BadOffset",
               "HUNK": "near it: NoHunks, TooManyHunks, FirstHunk, LastHunk, OutsideHunk", "99": "hunk explain lists all",
               "overlaps": "near it: Overlap", "ignored": "near it: MemoryIgnored"}
    for word, near in unknown.items():
        printed, said, status = called(["explain", "1", word])
        begins = said.splitlines()[-1].startswith(f"hunk explain: error: argument REASON: '{word}' is no reason; {near}")
        same(f"explain {word}", (printed, begins, status), ("", True, 2))
