"""How far a build is, in lines for a person."""

import os
import re
import sys
import time

from kit import TOP, tell

# How a line with an error reads; a function may have that name, too.
ERROR = re.compile(r"(^| )error(\[|: )")


def time_of(seconds):
    return f"{seconds:.0f} s" if seconds < 60 else f"{seconds / 60:.0f} min"


class Line:
    """A line on standard error: at a terminal it is written anew each second, else once a minute."""

    def __init__(self, clock=time.monotonic):
        self.clock, self.begun = clock, clock()
        self.told, self.changes = self.begun, bool(sys.stderr) and sys.stderr.isatty()

    def spent(self):
        return time_of(self.clock() - self.begun)

    def show(self, text):
        """Shows what is so now."""
        if self.changes:
            width = os.get_terminal_size(sys.stderr.fileno()).columns or 80
            tell(f"\r{text[: width - 1]}\x1b[K", end="")
        elif self.clock() - self.told >= 60:
            self.told = self.clock()
            tell(text)

    def leave(self, text):
        """Ends the line with what stays there; with an empty one nothing does."""
        if self.changes:
            tell(f"\r{text}\x1b[K", end="\n" if text else "")
        elif text:
            tell(text)


class Crate:
    """What the kit has said of a crate so far, and what it has kept."""

    def __init__(self, name):
        self.name, self.waits_at, self.proved = name, None, "was proved before"
        self.kept = TOP / "crates" / name / "out/incremental"
        self.unproved, self.wrong = [], ""

    def see(self, said):
        """Takes a line that the kit has printed."""
        if said.startswith("rt: ") and "waiting for" in said:
            self.waits_at = self.count()
        if proved := re.match(r"logic=proved functions=(\d+)", said):
            self.proved = f"proved, {proved[1]} functions"
        if refused := re.match(r"fn (\S+): (?!proved)", said):
            self.unproved.append(refused[1])
        if not self.wrong and ERROR.search(said):
            self.wrong = said.strip()

    def count(self):
        """How many functions are proved, and of how many: the kit keeps a file of the code of each before it proves any, and one
        when the code has met its contract. It tells the same with `--progress`, which only a check takes, so that each crate would
        be read once more."""
        start = f"Rattle-{self.name}-proofs."
        kept = [it.name for it in self.kept.glob("*/*.oantt") if it.name.startswith(start) and "++" not in it.name]
        met, code = ({it.rpartition(end)[0] for it in kept if it.endswith(end)} for end in (".Met.oantt", ".Code.oantt"))
        return len(met & code), len(code)

    def state(self):
        """How far it is. The kit does not say when it has waited long enough."""
        counted = self.count()
        if self.waits_at == counted:
            return f"{self.name} waits for another build on this machine"
        return f"{self.name}: {counted[0]} of {counted[1]} functions" if counted[1] else self.name

    def reason(self, status):
        """What is wrong with it."""
        more = len(self.unproved) - 3
        names = ", ".join(self.unproved[:3]) + (f" and {more} more" if more > 0 else "")
        return names or self.wrong or f"`rt` ended with status {status}"


class Progress:
    """The crates of a build, some of which are proved side by side."""

    def __init__(self, crates, line):
        self.crates, self.line, self.done, self.under_way = crates, line, 0, []

    def begin(self, crate):
        self.under_way.append(crate)
        self.show()

    def show(self):
        """Shows what is under way now."""
        states = ", ".join(it.state() for it in self.under_way)
        self.line.show(f"{self.done:2} of {self.crates} done; {states}; {self.line.spent()} so far")

    def end(self, crate, status):
        """Tells of a crate that is done."""
        self.under_way.remove(crate)
        self.done += not status
        said = "not proved" if status else crate.proved
        self.line.leave(f"{self.done + bool(status):2} of {self.crates}  {crate.name}: {said}, {self.line.spent()} so far")
