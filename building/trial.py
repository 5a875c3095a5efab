"""Runs of the program without a proof, by `rt try`.

That runs it in an empty folder, and prints what it has printed once it has ended. So names of files are passed with their whole
path, and what the program writes is where the user called it; what it says names files as the user did."""

import os
import re
import subprocess
import sys
import tempfile

from kit import LOG, TOP, Failed, calls, put, tell
from progress import ERROR, Line

EXAMPLE = "bindings/c/examples/sum.hex"
# The commands that take names of files, and of these the ones that read standard input without a name.
READS = {"show", "validate", "relocate"}
NAMED = READS | {"rewrite"}
VALUED = {"--base", "--budget"}
HELP = {"-h", "--help"}
# The most that `rt try` passes on.
LONGEST = 64 << 20


def with_whole_names(words, folder):
    """The words, with each name of a file as one from the root, and what each of these was before."""
    made, names, taken = words[:1], {}, set(words[:1]) & NAMED
    is_value = only_names = False
    for word in words[1:]:
        is_name = taken and word and not is_value and (only_names or word == "-" or word[0] != "-")
        made.append(os.path.join(folder, word) if is_name else word)
        names.update({made[-1]: word} if is_name else {})
        is_value = word in VALUED and not only_names
        only_names = only_names or word == "--"
    return made, names


def reads_input(words, names):
    """Whether the program reads standard input."""
    asks = set(words) & HELP or words[0] not in READS
    return "/dev/stdin" in names or not asks and not names


def in_words_of_user(said, names):
    """What the program said, with the names of files as the user wrote them."""
    for name in sorted(names, key=len, reverse=True):
        said = said.replace(os.fsencode(name), os.fsencode(names[name]))
    return said


def given_input():
    """All of standard input, in a file, as `rt try` takes a pipe that pauses as one that has ended."""
    if sys.stdin and sys.stdin.isatty():
        tell("build: reading standard input, up to its end")
    kept = tempfile.TemporaryFile()
    data = sys.stdin.buffer.read(LONGEST + 1) if sys.stdin else b""
    if len(data) > LONGEST:
        raise Failed("standard input has more than 64 MiB: name a file, or use the proved program")
    kept.write(data)
    kept.seek(0)
    return kept


def run_unproved(words, given):
    """Calls `rt try`, and gives its status and what it wrote to standard output and standard error."""
    line = Line()
    tell("compiling hunkinfo without a proof, which takes about a minute")
    with calls() as call:
        ran = call(["try", "--", *words], "crates/hunkinfo", stdin=given, stdout=subprocess.PIPE, stderr=subprocess.PIPE)
        while True:
            try:
                printed, said = ran.communicate(timeout=1)
            except subprocess.TimeoutExpired:
                line.show(f"{line.spent()} so far")
                continue
            line.leave("")
            return ran.returncode, printed, said


def try_program(words):
    names = {}
    if words:
        words, names = with_whole_names(words, os.getcwd())
        given = given_input() if reads_input(words, names) else open(os.devnull, "rb")
    else:
        tell(f"hunkinfo show --hex < {EXAMPLE}")
        words, given = ["show", "--hex"], open(TOP / EXAMPLE, "rb")
    with given:
        status, printed, said = run_unproved(words, given)
    LOG.parent.mkdir(exist_ok=True)
    LOG.write_bytes(said)
    # The kit's last lines: how each of its runs ended, and how the program did.
    ended = re.search(rb"(?m)((?:^checked: .*\n)*)^run=ended status=\d+ .*\n\Z", said)
    if not ended:
        text = said.decode(errors="replace").strip().splitlines()
        wrong = next(filter(ERROR.search, text), text[0] if text else f"`rt try` ended with status {status}")
        raise Failed(f"the program gave no answer: {wrong}\nbuild: {os.path.relpath(LOG)} has what the kit printed")
    put(printed)
    tell(in_words_of_user(said[: ended.start()], names).decode(errors="replace"), end="")
    return status
