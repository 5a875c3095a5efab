"""What a check of some functions of a crate sees: the sums of all that it reads, by which an edit of these functions is kept."""

import functools
import hashlib

from bodies import bodies_of, without_bodies
from built import ROOT, STATIC, USES, below, logic
from files import files_of, source
from functions import function_at

OF_A_BODY = {"Answers.antt", "Invariants.antt", "Proof.antt"}

# The modules that choose what is tried, and remember it. What a check is made of, and how it is judged, does not hang on them.
CHOOSING = {"helpers.py", "kept.py", "reading.py", "recorded.py"}


@functools.cache
def read_for(crate, functions):
    """What a check of these functions of the crate reads: the logic of the prover, what crates.txt says of the crate and of those
    below, and the sums of these scripts, of the crate, and of what those below promise."""
    uses = [(name, USES[name], name in STATIC) for name in below(crate)]
    sums = [sum_of(it, it.read_bytes()) for it in scripts()]
    return repr((logic(), uses, sums, [promised(name) for name in below(crate)], proved_with(crate, functions)))


def scripts():
    """The modules that make checks and judge them: after a change of one of them every edit is tried anew."""
    modules = (ROOT / "tests/edits").glob("*.py")
    return [*sorted(it for it in modules if it.name not in CHOOSING), ROOT / "tests/built.py"]


def sum_of(file, content):
    return str(file.relative_to(ROOT)), hashlib.sha256(content).hexdigest()


@functools.cache
def promised(crate):
    """The sums of what a check reads of functions that it does not prove."""
    files = [it for it in files_of(crate) if not is_of_a_body(crate, it)]
    texts = ((it, it.read_text(encoding="utf-8")) for it in files)
    return [sum_of(it, (without_bodies(text) if it.suffix == ".rt" else text).encode()) for it, text in texts]


def proved_with(crate, functions):
    """The sums of the bodies of these functions, and of what proves them."""
    own = [sum_of(it, it.read_bytes()) for it in files_of(crate) if is_of_a_body(crate, it) and is_proof_of(crate, it, functions)]
    return [*(it for it in bodies_in(crate) if it[0] in functions), *own]


def is_of_a_body(crate, file):
    """Whether the file proves the body of the function whose folder it stands in. Only that function's check may name it."""
    return file.name in OF_A_BODY and ROOT / "crates" / crate / "proofs" in file.parents


def is_proof_of(crate, file, functions):
    """Whether the file stands in the folder of one of these functions, or of functions that call one another."""
    path = "::".join(file.parent.relative_to(ROOT / "crates" / crate / "proofs").parts)
    return "+" in path or any(path == it or path.startswith(f"{it}::") for it in functions)


@functools.cache
def bodies_in(crate):
    """The bodies of the crate's functions, each with what the prover calls its function."""
    found = []
    for path in files_of(crate):
        if path.suffix == ".rt":
            file = str(path.relative_to(ROOT / "crates" / crate))
            text = source(crate, file)
            found += [(function_at(crate, file, text.count("\n", 0, start)), text[start:end]) for start, end in bodies_of(text)]
    return found
