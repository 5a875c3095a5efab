"""An edit of a crate: the lines that it changes, the functions that these stand in, and the sum that it is known by."""

import functools
import hashlib

from files import source
from functions import function_at
from seen import read_for

# What a wrong body and its control have to come to.
WANTED = {"new": "refused", "right": "proved"}


class Edit:
    """Texts of a crate's files, with what comes in their place: a wrong body, and its control."""

    def __init__(self, crate, name):
        self.crate, self.bug, self.changes, self.named, self.apart = crate, name, [], [], []

    @property
    def name(self):
        return f"{self.crate}/{self.bug}"

    @functools.cached_property
    def sum(self):
        """The sum of all that its refusal, and the proof of its control, rest on: itself, and what a check of it reads now."""
        rests_on = (read_for(self.crate, self.functions()), self.bug, self.changes, self.named)
        return hashlib.sha256(repr(rests_on).encode()).hexdigest()[:32]

    def has(self, kind):
        return all(kind in change for change in self.changes)

    def stands_alone(self, kind):
        """Whether it is wrong outside of functions, as in a constant: then any function may be refused that reads this."""
        return kind == "new" and bool(self.named) and None in {function_at(self.crate, *row) for row in self.rows(kind)}

    @functools.cache
    def rows(self, kind):
        """The lines that are changed, by file and number, with the changes of the kind: `new` or `right`."""
        texts, found = {}, {}
        for change in self.changes:
            file, old = change["file"], change["old"]
            text = texts.get(file) or source(self.crate, file)
            if text.count(old) != 1 and text.split("\n").count(old) != 1:
                raise ValueError(f"{self.name}: {text.count(old)} times in {file}: {old.strip()}")
            is_line = text.count(old) > 1
            texts[file] = text.replace(*(f"\n{it}\n" if is_line else it for it in (old, change[kind])))
        for file, text in texts.items():
            rows = zip(source(self.crate, file).split("\n"), text.split("\n"), strict=True)
            found.update({(file, number): new for number, (old, new) in enumerate(rows) if old != new})
        return found

    @functools.cache
    def functions(self):
        """The functions that it changes, as the prover names them, or those that it names."""
        found = {function_at(self.crate, *row) for row in self.rows("right")}
        return frozenset(self.named) or frozenset(found - {None})

    @functools.cache
    def wrong_in(self):
        """The functions that its wrong body and its control change differently, if there are any: what is to be refused."""
        kinds = [self.rows(kind).items() for kind in WANTED if self.has(kind)]
        found = {function_at(self.crate, *row) for row, _ in kinds[0] ^ kinds[-1]}
        return frozenset(self.named) or frozenset(found - {None}) or self.functions()
