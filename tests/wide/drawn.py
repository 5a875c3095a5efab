"""Random hunk files: values, their wide spellings, and what damage makes of these."""
from hunks import ABSRELOC16, BREAK, BSS, CODE, DATA, DEBUG, DREL16, DREL32, END, EXT, HEADER, LIB, NAME, OVERLAY, REFERENCES
from hunks import RELOC16, RELOC32, RELOC32SHORT, SYMBOL, UNIT, longs, read
from plain import block_choices, end_choices

WORDS = [0, 1, 2, 0xFFFF, 0x10000, 0x3FFFFFFF, 0x80000000, 0xFFFFFFFF, 0x200004D2, 0xC00003FC]
BLOCKS = [OVERLAY, BREAK, LIB, UNIT, NAME, CODE, DATA, BSS, RELOC32, RELOC16, EXT, SYMBOL, DEBUG, END, HEADER, DREL32, DREL16, RELOC32SHORT, ABSRELOC16]


def longwords(random, most):
    """A few longwords."""
    return [random.getrandbits(32) for _ in range(random.randint(0, most))]


def flags(random):
    """The flags of a block word, mostly none."""
    return random.choice([0, 0, 0, 0, 1, 2, 4]) << 29


def side(random):
    """A block that may stand anywhere in a hunk."""
    kind = random.choice([NAME, SYMBOL, DEBUG, 0x20000555])
    word = longs(kind | (flags(random) if kind != 0x20000555 else random.choice([0, 2, 4]) << 29))
    if kind != SYMBOL:
        body = longwords(random, 2)
        return word + longs(len(body), *body)
    for _ in range(random.randint(0, 2)):
        name = longwords(random, 2)
        word += longs(len(name) or 0x80000000, *name, random.getrandbits(32))
    return word + longs(0)


def relocations(random, kind, hunks, size):
    """A block of relocations, which stay in the hunk, of a file of so many hunks."""
    words = [flags(random) | kind]
    for _ in range(random.randint(0, 3) if size >= 4 else 0):
        offsets = [random.randint(0, size - 4) for _ in range(random.randint(1, 3))]
        words += [len(offsets), random.randrange(hunks), *offsets]
    return longs(*words, 0)


def references(random, size):
    """An EXT block."""
    words = [flags(random) | EXT]
    for _ in range(random.randint(0, 3)):
        kind, name = random.choice([0, 1, 2, *REFERENCES]), longwords(random, 2)
        words += [kind << 24 | len(name), *name]
        if kind not in REFERENCES or kind in (130, 137):
            words.append(random.getrandbits(32))
        if kind in REFERENCES:
            offsets = [random.randint(0, size) for _ in range(random.randint(0, 2))]
            words += [len(offsets), *offsets]
        if not kind and not name:
            words.append(0)
            return longs(*words[:-3], 0)
    return longs(*words, 0)


def body(random, longest, hunks, is_object):
    """The blocks of a hunk of so many longwords, to its END."""
    used = random.randint(0, longest)
    kind = random.choice([CODE, DATA, BSS])
    content = [] if kind == BSS else [random.getrandbits(32) for _ in range(used)]
    size = used | (random.choice([0, 0, 0, 1, 2, 3]) << 30)
    made = side(random) if random.random() < 0.25 else b""
    made += longs(flags(random) | kind, size, *content)
    for _ in range(random.randint(0, 3)):
        drawn = random.random()
        if drawn < 0.4:
            made += side(random)
        elif is_object and drawn < 0.6:
            made += references(random, 4 * longest)
        else:
            drawn = random.choice([RELOC32, RELOC32, DREL32, RELOC16]) if is_object else RELOC32
            made += relocations(random, drawn, hunks + is_object, 4 * longest)
    return made + longs(random.choice([0] * 6 + [2]) << 29 | END)


def load_file(random):
    """The text of a load file."""
    sizes = [random.choice([0, 1, 2, 3, 6, 20_000]) for _ in range(random.randint(1, 4))]
    text = longs(HEADER, 0, len(sizes), 0, len(sizes) - 1)
    for size in sizes:
        bits = random.choice([0, 0, 0, 1, 2, 3])
        text += longs(bits << 30 | size, *([random.getrandbits(32)] if bits == 3 else []))
    return text + b"".join(body(random, min(size, 6) if size < 20_000 else 3, len(sizes), False) for size in sizes)


def object_file(random):
    """The text of an object file."""
    text = b""
    for _ in range(random.randint(1, 2)):
        name = longwords(random, 1)
        text += longs(UNIT, len(name), *name)
        hunks = random.randint(0, 3)
        text += b"".join(body(random, random.randint(0, 4), hunks, True) for _ in range(hunks))
    return text


def spelled(random, text):
    """A wide spelling of a file."""
    file = read(text)
    is_load, made, at = file.units is None, b"", 0
    hunks = file.hunks if is_load else [hunk for unit in file.units for hunk in unit]
    kinds = (RELOC32SHORT, DREL32) if is_load else (RELOC32SHORT,)
    for number, hunk in enumerate(hunks):
        made += text[at : hunk.blocks[0].at]
        for block in hunk.blocks[:-1]:
            made += random.choice([it for _, it in block_choices(text, block, kinds)])
        end = hunk.blocks[-1]
        made += random.choice([it for _, it in end_choices(text, hunks, number, True)]) if is_load else text[end.at : end.end]
        at = end.end
    return made + text[at:]


def damaged(random, some):
    """The bytes with one to three changes: a byte or a 16-bit word is another, longwords come in, or bytes go."""
    some = bytearray(some)
    for _ in range(random.randint(1, 3)):
        drawn, at = random.random(), random.randrange(len(some) + 1)
        word = longs(random.choice(WORDS) if random.random() < 0.3 else flags(random) | random.choice(BLOCKS))
        if drawn < 0.3 and some:
            some[at % len(some)] = random.choice([0, 1, 3, 0xF2, 0xF7, 0xFC, 0xEC, random.getrandbits(8)])
        elif drawn < 0.5:
            some[at // 2 * 2 : at // 2 * 2 + 2] = word[2:]
        elif drawn < 0.65:
            some[at // 4 * 4 : at // 4 * 4 + 4] = word
        elif drawn < 0.8:
            some[at // 4 * 4 : at // 4 * 4] = word
        else:
            del some[at // 2 * 2 : at // 2 * 2 + random.choice([2, 4])]
    return bytes(some)


def drawn(random):
    """What is made of one file: the spelling, a front of it, and what damage makes of it; and the text that it spells."""
    text = object_file(random) if random.random() < 0.25 else load_file(random)
    wide = spelled(random, text)
    yield "wide", wide, text
    yield "front", wide[: random.randrange(len(wide))], None
    for _ in range(2):
        yield "damaged", damaged(random, wide), None
