"""Which function a line of a crate stands in, as the prover names it."""

import functools
import re

from built import ROOT
from files import source

FN = re.compile(r'( *)(?:pub(?:\([^)]*\))? )?(?:(?:const|unsafe|final|extern "C") )*fn (\w+)')
IMPL = re.compile(r"impl(?:<.*?>)? (?:(?P<trait>[\w:]+)(?:<(?P<of>.*?)>)? for )?(?P<ref>&mut |&)?(?:'\w+ )?(?P<type>[\w:]+)")


def function_at(crate, file, row):
    """The function round the line of this number, as the prover names it: a method by its type, in the module of that."""
    if not file.startswith("src/"):
        return None
    lines = source(crate, file).split("\n")
    function = head_above(lines, row, FN)
    if not function:
        return None
    block = head_above(lines, function[0], IMPL)
    names = [owner(block[1]), function[1][2]] if block else [function[1][2]]
    return "::".join([*module_of(home_of(crate, block[1]["type"]) or file if block else file), *names])


def module_of(file):
    return [it for it in file[len("src/") : -len(".rt")].split("/") if it not in ("lib", "main")]


@functools.cache
def home_of(crate, name):
    """The file of the crate that declares the type of this name, if one does."""
    declared = re.compile(rf"^ *(?:pub(?:\([^)]*\))? )?(?:struct|enum) {name}\b", re.M)
    files = sorted((ROOT / "crates" / crate / "src").rglob("*.rt"))
    found = (it for it in files if declared.search(it.read_text(encoding="utf-8")))
    return next((str(it.relative_to(ROOT / "crates" / crate)) for it in found), None)


def head_above(lines, at, pattern):
    """The line of the item of the pattern that line `at` stands in, and its match."""
    for number in range(at, -1, -1):
        found = pattern.match(lines[number])
        if found:
            indent = len(lines[number]) - len(lines[number].lstrip())
            end = next((it for it in range(number, len(lines)) if lines[it] == " " * indent + "}"), number)
            return (number, found) if end >= at and not lines[number].endswith("{}") else None
    return None


def owner(head):
    """What the prover calls an impl: the type, and after it the trait with its arguments."""
    name = head["type"].split("::")[-1]
    if head["ref"]:
        name = "RefMut" if "mut" in head["ref"] else "Ref"
    return name + (head["trait"] or "").split("::")[-1] + "".join(re.findall(r"\w+", head["of"] or ""))
