"""Builds that are proved: of the program, and of the library for C."""

import os
import pathlib
import re
import resource
import select
import subprocess

from kit import LOG, TOP, Failed, Lines, calls, put, tell
from progress import Crate, Line, Progress, time_of


def in_turn(top):
    """The crate and those that it stands on, each with itself and all that it stands on."""
    # This looks for the kit when it is imported, and that may lack until `look_for_kit` has seen it.
    from built import below

    return {it: {*below(it)} for it in sorted(below(top), key=lambda it: (len(below(it)), it))}


def processors():
    """How many are used: as RT_JOBS says, or all for which 3 GB of memory are free."""
    asked = os.environ.get("RT_JOBS", "")
    if asked.isdecimal() and int(asked):
        return int(asked)
    free = re.search(r"MemAvailable: +(\d+) kB", pathlib.Path("/proc/meminfo").read_text(encoding="utf-8"))
    return max(1, min(len(os.sched_getaffinity(0)), int(free[1]) // (3 << 20) if free else 1))


class Build:
    """Crates that are proved, each after all that it uses. The topmost is built by this command of the kit."""

    def __init__(self, top, verb, given, log):
        self.below, self.log, self.built_by = in_turn(top), log, {top: (verb, given)}
        self.left = [*self.below]
        self.progress = Progress(len(self.left), Line())
        self.under_way = {}
        # How many processors each of those under way takes.
        self.jobs = {}

    def ready(self):
        """What can be proved now. The kit keeps others out of a crate and of all below it while it is at work there."""
        taken = set().union(*(self.below[it] for it in self.jobs))
        for name in self.left:
            if not self.below[name] & taken and not (self.below[name] - {name}) & {*self.left}:
                taken |= self.below[name]
                yield name

    def start(self, call, most):
        """Begins with what can be proved now, by as many processors as are idle."""
        idle = most - sum(self.jobs.values())
        names = [*self.ready()][:idle]
        for name in names:
            self.left.remove(name)
            self.jobs[name] = idle // len(names)
            verb, given = self.built_by.get(name, ("lib", subprocess.DEVNULL))
            words = [verb, "--jobs", str(self.jobs[name])]
            self.write(name, f"rt {' '.join(words)}".encode())
            ran = call(words, f"crates/{name}", stdin=given, stdout=subprocess.PIPE, stderr=subprocess.STDOUT)
            crate = Crate(name)
            self.under_way[Lines(ran.stdout)] = crate, ran
            self.progress.begin(crate)

    def write(self, name, line):
        self.log.write(name.encode() + b": " + line + b"\n")
        self.log.flush()

    def read(self, lines):
        """Takes what the kit has printed of a crate."""
        crate, ran = self.under_way[lines]
        printed, is_end = lines.read()
        for line in printed:
            self.write(crate.name, line)
            crate.see(line.decode(errors="replace"))
        if is_end:
            del self.under_way[lines], self.jobs[crate.name]
            self.end(crate, ran.wait())

    def end(self, crate, status):
        self.progress.end(crate, status)
        if status:
            where = f"{os.path.relpath(LOG)} has what the kit printed, in lines that begin with `{crate.name}: `"
            raise Failed(f"{crate.name} is not proved: {crate.reason(status)}\nbuild: {where}")

    def all(self):
        most = processors()
        with calls() as call:
            while self.left or self.under_way:
                self.start(call, most)
                for lines in select.select(list(self.under_way), [], [], 1)[0]:
                    self.read(lines)
                if self.under_way:
                    self.progress.show()


def prove(top, verb, given=subprocess.DEVNULL):
    """Proves the crates, and gives what that took."""
    LOG.parent.mkdir(exist_ok=True)
    with open(LOG, "wb") as log:
        build = Build(top, verb, given, log)
        tell(f"{top} stands on {len(build.below) - 1} crates. What the kit prints goes to {os.path.relpath(LOG)}")
        build.all()
    used = resource.getrusage(resource.RUSAGE_CHILDREN)
    return f"{build.progress.line.spent()}, {time_of(used.ru_utime + used.ru_stime)} of processors"


def tell_of_build(what, took, built, use, part):
    """Says where that is which was built, and what to type next."""
    put(f"""{what} is proved: {os.path.relpath(TOP / built)}, in {took}
    {use}
    PREFIX=$HOME/.local {os.path.relpath(TOP / 'packaging/install.sh')} {part}
""")


def prove_program():
    program = "crates/hunkinfo/out/hunkinfo"
    with open(TOP / "crates/hunkinfo/stdin", "rb") as example:
        took = prove("hunkinfo", "run", example)
    tell_of_build("The program", took, program, f"{os.path.relpath(TOP / program)} show FILE", "program")
    return 0


def prove_library():
    took = prove("hunk_c", "lib")
    header = os.path.relpath(TOP / "bindings/c/hunk.h")
    tell_of_build("The library", took, "crates/hunk_c/out/libhunk_c.a", f"its header: {header}", "library")
    return 0
