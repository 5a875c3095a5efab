"""Values of load files in the notation of write.tsv, which README.md tells, and their texts.

`value` reads the notation, `text` writes the bytes that a writer has to give, and `listing` the lines of `hunkinfo show`.
"""
import re
import struct

from hunks import BSS, CODE, CONTENTS, DATA, DEBUG, END, HEADER, NAME, RELOC32, SYMBOL, Block, File, Hunk, kind_of, longs

KINDS = {"NAME": NAME, "CODE": CODE, "DATA": DATA, "BSS": BSS, "RELOC32": RELOC32, "SYMBOL": SYMBOL, "DEBUG": DEBUG, "END": END}
NAMES = {kind: name for name, kind in KINDS.items()}
FLAGS = {"advisory": 1, "chip": 2, "fast": 4}
MEMORIES = ("any", "chip", "fast", "attributes")
TOKEN = re.compile(r'"[^"]*"|<[^>]*>|[:;|]|[^\s:;|]+')


def padded(name):
    """The longwords of a name: of its bytes and as few zero bytes as fill them, or as they stand in hexadecimal digits."""
    if name[0] == "<":
        return tuple(int(it, 16) for it in name[1:-1].split())
    some = name[1:-1].encode("ascii")
    return struct.unpack(f">{-(-len(some) // 4)}I", some + bytes(-len(some) % 4))


def groups(items):
    """The groups of a relocation block: a target, a colon, and offsets up to the next target."""
    found = []
    for at, it in enumerate(items):
        if items[at + 1 : at + 2] == [":"]:
            found.append((int(it), []))
        elif it != ":":
            found[-1][1].append(int(it))
    return found


def symbols(items):
    """The symbols: a name, a top byte of its word that is not 0, in two digits, and the value, in eight."""
    found = []
    for it in items:
        if it[0] in '"<':
            found.append([0, padded(it), None])
        else:
            found[-1][0 if len(it) == 2 else 2] = int(it, 16)
    return [tuple(it) for it in found]


def body(kind, items):
    """What comes after a block word, as `read_body` gives it."""
    if kind in CONTENTS:
        bits = int(items.pop(0)[5:]) if items and items[0].startswith("size+") else 0
        words = () if kind == BSS else tuple(int(it, 16) for it in items)
        return bits << 30 | (int(items[0]) if kind == BSS else len(words)), words
    if kind == RELOC32:
        return groups(items)
    if kind == SYMBOL:
        return symbols(items)
    return padded(items[0]) if kind == NAME else tuple(int(it, 16) for it in items)


def block(tokens):
    """A block: its kind, its flags, and its items. An advisory block has the number of its type after its kind."""
    kind, *items = tokens
    number = KINDS[kind] if kind in KINDS else 1 << 29 | int(items.pop(0), 16)
    while items and items[0] in FLAGS:
        number |= FLAGS[items.pop(0)] << 29
    return Block(number, body(kind_of(number), items), None, None)


def parts(tokens, mark):
    """The lists of tokens between the marks."""
    found = [[]]
    for token in tokens:
        if token == mark:
            found.append([])
        else:
            found[-1].append(token)
    return found


def hunk(tokens):
    """A hunk: its memory, its longwords, and its blocks."""
    at = tokens.index(":")
    head, blocks = tokens[:at], tokens[at + 1 :]
    bits = MEMORIES.index(head[0])
    size = bits << 30 | int(head[-1])
    return Hunk(size, int(head[1], 16) if bits == 3 else None, [block(it) for it in parts(blocks, ";")])


def value(noted):
    """The value of a load file."""
    return File([hunk(it) for it in parts(TOKEN.findall(noted), "|")], None, None)


def body_text(kind, found):
    """The longwords of a block after its word."""
    if kind in CONTENTS:
        return [found[0], *found[1]]
    if kind == RELOC32:
        return [it for target, offsets in found for it in (len(offsets), target, *offsets)] + [0]
    if kind == SYMBOL:
        return [it for top, name, number in found for it in (top << 24 | len(name), *name, number)] + [0]
    return [] if kind == END else [len(found), *found]


def text(file):
    """The bytes of a load file."""
    words = [HEADER, 0, len(file.hunks), 0, len(file.hunks) - 1]
    for it in file.hunks:
        words += [it.size] if it.attributes is None else [it.size, it.attributes]
    for it in file.hunks:
        for one in it.blocks:
            words += [one.word, *body_text(kind_of(one.word), one.body)]
    return longs(*words)


def printable(name):
    """A name as `show` prints it."""
    some = longs(*name).split(b"\0")[0]
    return "".join(chr(it) if 0x20 <= it <= 0x7E and it != 0x5C else f"\\x{it:02x}" for it in some)


def block_lines(one):
    """The lines of a block."""
    kind, flags = kind_of(one.word), "".join(f" {name}" for name, bit in FLAGS.items() if one.word >> 29 & bit)
    if kind is None:
        yield f"  ADVISORY {one.word & 0x1FFFFFFF} {4 * len(one.body)} bytes{flags.replace(' advisory', '')}"
        return
    said = {SYMBOL: f" {len(one.body)}", END: "", DEBUG: f" {4 * len(one.body)} bytes"}
    if kind in CONTENTS:
        said[kind] = f" {4 * (one.body[0] & 0x3FFFFFFF)} bytes"
    elif kind == NAME:
        said[kind] = " " + printable(one.body)
    elif kind == RELOC32:
        said[kind] = f" {sum(len(offsets) for _, offsets in one.body)}"
    yield f"  {NAMES[kind]}{flags}{said[kind]}"
    if kind == RELOC32:
        yield from (f"    {target} 0x{offset:08x}" for target, offsets in one.body for offset in offsets)
    elif kind == SYMBOL:
        yield from (f"    0x{number:08x} {printable(name)}" for _, name, number in one.body)


def listing(file):
    """The lines of `hunkinfo show`."""
    sizes = [4 * (it.size & 0x3FFFFFFF) for it in file.hunks]
    lines = [f"load file {len(sizes)} hunks {sum(sizes)} bytes"]
    for number, it in enumerate(file.hunks):
        more = "" if it.attributes is None else f" 0x{it.attributes:08x}"
        lines.append(f"hunk {number} {sizes[number]} bytes {MEMORIES[it.size >> 30]}{more}")
        lines += [line for one in it.blocks for line in block_lines(one)]
    return lines
