"""The lists that scripts of this folder write into other files of the tree: each has its place there."""
import difflib
import pathlib

ROOT = pathlib.Path(__file__).resolve().parents[1]


def rows_of(table):
    """The rows of a table of this folder, as lists of fields."""
    lines = (ROOT / "docs" / table).read_text(encoding="utf-8").splitlines()
    return [line.split("\t") for line in lines if not line.startswith("#")]


def macro(front, name):
    """What a name such as `OddOffset` is called in C."""
    return front + "".join(f"_{it}" if it.isupper() else it for it in name).upper()


def write(places, script, is_check):
    """Writes each list between the texts that stand before and after it: a place is a file, these two, and the list.

    A check writes nothing: it prints the lines that differ, and answers whether there are any."""
    differs = False
    for name, before, after, made in places:
        text = (ROOT / name).read_text(encoding="utf-8")
        at = text.index(before) + len(before)
        end = text.index(after, at) if after else len(text)
        if not is_check:
            (ROOT / name).write_text(text[:at] + made + text[end:], encoding="utf-8")
            continue
        lines = text[at:end].splitlines(), made.splitlines()
        for line in difflib.unified_diff(*lines, name, f"made by {script}", n=0, lineterm=""):
            differs = True
            print(line)
    return differs
