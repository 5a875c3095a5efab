"""Where the bodies of a file's functions stand, and its text without them."""

import re
import typing

TOKEN = re.compile(
    r"""//[^\n]* | /\*.*?\*/ | b?r(\#*)".*?"\1 | "(?:\\.|[^"\\])*" | '(?:\\.[^']*|[^\\'])' | (?P<code>\w+|[][(){};])""",
    re.S | re.X,
)
BRACKETS = {"{": "}", "(": ")", "[": "]"}
CLAUSES = {"requires", "ensures", "ghost"}


def without_bodies(text):
    """The text of a file, with nothing in the braces of its functions' bodies.

    The check of another function does not see them: a function's proof cites the contracts of those that it calls and cannot open
    their code, which is private to their own proofs. `inline` is a hint to LLVM, and a generic function is proved once for all
    types. A check of a crate above has declarations alone, the `interface` of the libraries below, which has no body. So after a
    change of a body such a check takes all that it kept (`checked=0`). Programs and static libraries link the bodies, but prove
    nothing of them. What might be read all the same stays: a `const fn`, which constants are computed by, a function that answers
    an `impl`, or has one in its body, the bodies of a trait, and what macros are made of. So does a file whose brackets do not
    match."""
    spans = bodies_of(text)
    edges = zip([0, *(end for _, end in spans)], [*(start for start, _ in spans), len(text)])
    return "".join(text[begin:end] for begin, end in edges)


def bodies_of(text):
    """Where the bodies of a file's functions begin and end, each inside its braces."""
    open_, words, found = [], [], []
    for token in TOKEN.finditer(text):
        word = token["code"] or ""
        if word in BRACKETS.values():
            if not open_ or BRACKETS[open_[-1].bracket] != word:
                return []
            ended = open_.pop()
            words = after(ended)
            if ended.is_body and not re.search(r"\bimpl\b", text[ended.start : token.start()]):
                found.append((ended.start, token.start()))
        elif word in BRACKETS:
            is_body = word == "{" and all(it.bracket == "{" and kind_of(it.words) in ("impl", "mod") for it in open_)
            open_.append(Opened(word, token.end(), words, is_body and kind_of(words) == "fn"))
            words = []
        elif word:
            words = [] if word == ";" else [*words, word]
    return [] if open_ else found


class Opened(typing.NamedTuple):
    """A bracket of a file, where its inside begins, the words of the item before it, and whether it begins a function's body."""

    bracket: str
    start: int
    words: list
    is_body: bool


def after(ended):
    """The words of the item that is read, after what stands in these brackets: none where they end it."""
    if ended.bracket != "{":
        return ended.words
    is_clause = "fn" in ended.words and not CLAUSES.isdisjoint(ended.words)
    return [it for it in ended.words if it not in CLAUSES] if is_clause else []


def kind_of(words):
    """What an item that begins with these words is, of those that are looked into."""
    if "fn" not in words:
        return next((it for it in words if it not in ("pub", "unsafe")), "")
    is_plain = {*words[: words.index("fn")]} <= {"pub", "unsafe", "final", "extern"}
    return "fn" if is_plain and "impl" not in words and CLAUSES.isdisjoint(words) else ""
