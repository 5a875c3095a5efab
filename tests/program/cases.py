#!/usr/bin/env python3
"""cases.py PROGRAM [WORD]: runs the built program as the rows of cases/*.tsv say, each in a folder of its own. With WORD, only
rows with this word in their names. Prints what is not as a row wants it, then how many rows passed and failed, and ends with
status 1 where one failed.

A row is a run. Its fields have a tab between them, and a line that begins with `#` says what the next rows show:

  name     of the row, that no other in its table has
  words    the words of the command line, as a shell reads them
  input    NAME: BYTES, what the file of this name has; without a name, what standard input has
  status   the exit status
  printed  what standard output gets
  said     what standard error gets
  output   NAME: BYTES, what the run leaves in the file of this name; every other file is as it was, and no file is new

`printed` and `said` are a text in which `\\n` is a line end, and `\\\\` a backslash; or `~` and parts with `|` between them, which
all stand in it; or `*` for any text but none. Empty fields at the end of a row may be left out.

BYTES are parts with ` + ` between them, of these kinds:

  load/one-hunk          a row of ../../vectors/load.tsv, objects.tsv or wide.tsv
  text load/one-hunk     its hexadecimal text
  3F3 0 1 / 3EB 1        longwords, in hexadecimal digits; `/` only separates
  text 3F3 0 1 / 3EB 1   their hexadecimal text
  zeros 7                so many zero bytes
  "4e71 \\n"              a text, which may also have `\\t`, `\\r` and, for a byte below 80, `\\x0b`

Beside the input there are a load file of 8 bytes, as the file `a` or at standard input, and the file `b`, an old one that is
longer than any that takes its place."""

import os
import pathlib
import re
import shlex
import subprocess
import sys
import tempfile

HERE = pathlib.Path(__file__).resolve().parent
FIELDS = ("name", "words", "input", "status", "printed", "said", "output")
ESCAPE = re.compile(r"\\(x[0-7][0-9a-f]|.)")
ESCAPES = {"n": "\n", "r": "\r", "t": "\t"}
OTHER = "3F3 0 1 0 0 2 / 3E9 2 4E754E71 4E714E75 / 3F2"
OLD = b"an old file that is longer than the one that takes its place\n" * 10
SECONDS = 60


class Malformed(Exception):
    """What a row can't mean."""


def unescaped(text):
    """The text that a field is written for."""
    def meant(found):
        word = found[1]
        return chr(int(word[1:], 16)) if len(word) == 3 else ESCAPES.get(word, word)

    return ESCAPE.sub(meant, text)


def rows(table):
    """The number of each line of a table that is a row, and its fields."""
    for number, line in enumerate(table.read_text(encoding="utf-8").split("\n"), 1):
        if line and not line.startswith("#"):
            yield number, line.split("\t")


def suite():
    """The bytes of each row of the suite, by its table and name."""
    found = {}
    for table, field in ("load", 2), ("objects", 2), ("wide", 3):
        for _, fields in rows(HERE.parents[1] / "vectors" / f"{table}.tsv"):
            found[f"{table}/{fields[1]}"] = bytes.fromhex(fields[field])
    return found


SUITE = suite()


def longwords(text):
    try:
        return b"".join(int(word, 16).to_bytes(4, "big") for word in text.split() if word != "/")
    except (ValueError, OverflowError):
        raise Malformed(f"{text} is neither a row of the suite nor longwords") from None


def part(text):
    """The bytes of a part of BYTES."""
    if text.startswith('"') and text.endswith('"') and len(text) > 1:
        return unescaped(text[1:-1]).encode()
    kind, _, rest = text.partition(" ")
    if kind == "text":
        return part(rest).hex().encode()
    if kind == "zeros" and rest.isdecimal():
        return bytes(int(rest))
    return SUITE[text] if text in SUITE else longwords(text)


def file_of(field):
    """The name and the bytes of a file; the name is empty where the field has none."""
    name, colon, rest = field.partition(": ")
    if not colon or name.startswith('"'):
        name, rest = "", field
    return name, b"".join(part(it) for it in rest.split(" + ") if it)


class Case:
    """A row: what is run, and what is wanted of the run."""

    def __init__(self, fields):
        fields = fields + [""] * (len(FIELDS) - len(fields))
        if len(fields) > len(FIELDS) or not fields[3].isdecimal():
            raise Malformed(f"a row has {len(FIELDS)} fields, of which the fourth is a number")
        self.name, words, given, status, self.printed, self.said, output = fields
        try:
            self.words = shlex.split(words)
        except ValueError:
            raise Malformed(f"{words} are no words") from None
        self.status = int(status)
        name, self.input = file_of(given)
        if "/" in name:
            raise Malformed(f"{name} is no name in the run's folder")
        self.files = {"a": part(OTHER), "b": OLD}
        if name:
            self.files[name], self.input = self.input, part(OTHER)
        self.left = dict(self.files)
        if output:
            name, data = file_of(output)
            self.left[name] = data

    def differences(self, program):
        """What a run of the program has otherwise than the row."""
        with tempfile.TemporaryDirectory(prefix="cases-") as home:
            for name, data in self.files.items():
                pathlib.Path(home, name).write_bytes(data)
            try:
                ran = subprocess.run([program, *self.words], cwd=home, input=self.input, capture_output=True, timeout=SECONDS)
            except subprocess.TimeoutExpired:
                return [f"it has not ended after {SECONDS} seconds"]
            left = {it.name: it.read_bytes() for it in pathlib.Path(home).iterdir() if it.is_file()}
        found = [] if ran.returncode == self.status else [f"status {ran.returncode} where {self.status} is wanted"]
        found += unlike("printed", ran.stdout, self.printed) + unlike("said", ran.stderr, self.said)
        return found + [it for name in sorted({*left, *self.left}) for it in unlike_file(name, left.get(name), self.left.get(name))]


def unlike(what, got, want):
    """How an output differs from a field, as text."""
    text = got.decode(errors="backslashreplace")
    if want == "*":
        return [] if got else [f"{what} nothing"]
    if want.startswith("~"):
        return [f"{what} no {it!r}, but {text!r}" for it in map(unescaped, want[1:].split("|")) if it.encode() not in got]
    want = unescaped(want)
    return [] if got == want.encode() else [f"{what} {text!r}\n  where {want!r} is wanted"]


def unlike_file(name, got, want):
    """How a file that is left, or none, differs from what is wanted."""
    if got == want:
        return []
    if got is None or want is None:
        return [f"the file {name} is {'not there' if got is None else 'new'}"]
    return [f"the file {name} has {got.hex()[:1000]}\n  where {want.hex()[:1000]} is wanted"]


def faults(program, table, word):
    """Of each row of a table, what is amiss with it."""
    names = set()
    for number, fields in rows(table):
        if word in fields[0]:
            try:
                if fields[0] in names:
                    raise Malformed("another row has this name")
                names.add(fields[0])
                found = Case(fields).differences(program)
            except Malformed as why:
                found = [str(why)]
            yield [f"tests/program: cases/{table.name}:{number}: {fields[0]}: {it}" for it in found]


def main(words):
    if len(words) not in (1, 2) or not (os.path.isfile(words[0]) and os.access(words[0], os.X_OK)):
        sys.exit("usage: cases.py PROGRAM [WORD]")
    program, word = os.path.realpath(words[0]), "".join(words[1:2])
    passed = failed = 0
    for table in sorted((HERE / "cases").glob("*.tsv")):
        for found in faults(program, table, word):
            passed += not found
            failed += bool(found)
            for it in found:
                print(it)
    print(f"tests/program/cases: {passed} passed, {failed} failed")
    return failed > 0


if __name__ == "__main__":
    sys.exit(main(sys.argv[1:]))
