"""Files of both kinds by chance, by docs/FORMAT.md alone. `vectors` has to be among the folders that Python looks into."""
from hunks import BSS, CODE, COMMONS, DATA, DEBUG, DEFINITIONS, END, EXT, HEADER, NAME, REFERENCES, RELOC32, RELOCATIONS, SYMBOL
from hunks import UNIT, longs


def some(chance, most):
    """Up to so many longwords of any kind."""
    return [chance.choice((0, 1, 0x3F2, 0x4E754E71, 0xFFFFFFFF)) for _ in range(chance.randrange(most + 1))]


def block(chance, kind, *words):
    """A block, mostly without flags."""
    return longs(kind | chance.choice((0,) * 9 + (1, 2, 4, 3, 5)) << 29, *words)


def named(chance, tops):
    """The first longwords of an item with a name: never 0."""
    name, top = some(chance, 3), chance.choice(tops)
    name = name if name or top else [0]
    return [top << 24 | len(name), *name]


def side(chance):
    """A block that may stand anywhere."""
    kind = chance.choice((NAME, SYMBOL, DEBUG, 0x200004D2))
    if kind != SYMBOL:
        data = some(chance, 5)
        return longs(kind, len(data), *data) if kind > 0x3FF else block(chance, kind, len(data), *data)
    words = []
    for _ in range(chance.randrange(4)):
        words += [*named(chance, (0, 0, 1, 255)), chance.getrandbits(32)]
    return block(chance, SYMBOL, *words, 0)


def groups(chance, kind, targets, most):
    """A relocation block with offsets up to this one; groups may follow one of the same target."""
    words = []
    for _ in range(chance.randrange(4)):
        offsets = [chance.randrange(most + 1) for _ in range(chance.choice((1, 1, 2, 5)))]
        words += [len(offsets), chance.choice(targets), *offsets]
    return block(chance, kind, *words, 0)


def entries(chance):
    """An EXT block."""
    words = []
    for _ in range(chance.randrange(5)):
        first = named(chance, (*DEFINITIONS, *REFERENCES))
        kind, offsets = first[0] >> 24, some(chance, 3)
        words += first + [chance.getrandbits(32)] * (kind in DEFINITIONS + COMMONS)
        words += [len(offsets), *offsets] if kind in REFERENCES else []
    return block(chance, EXT, *words, 0)


def content(chance, most):
    """A block of at most so many longwords of content."""
    kind, bits = chance.choice((CODE, DATA, BSS)), chance.choice((0, 0, 0, 1, 2, 3)) << 30
    if kind == BSS:
        return block(chance, kind, bits | chance.randrange(most + 1))
    words = some(chance, min(most, 6))
    return block(chance, kind, bits | len(words), *words)


def load(chance):
    """A load file."""
    sizes = [chance.choice((0, 1, 2, 3, 7, 40)) for _ in range(chance.choice((1, 2, 3, 9)))]
    text = longs(HEADER, 0, len(sizes), 0, len(sizes) - 1)
    for size in sizes:
        memory = chance.randrange(4)
        text += longs(memory << 30 | size, *([chance.getrandbits(32)] if memory == 3 else []))
    for size in sizes:
        text += side(chance) if chance.random() < 0.3 else b""
        text += content(chance, size)
        for _ in range(chance.randrange(4)):
            text += groups(chance, RELOC32, range(len(sizes)), 4 * size - 4) if size and chance.random() < 0.6 else side(chance)
        text += block(chance, END)
    return text


def unit(chance):
    """A unit of an object file."""
    name = some(chance, 3)
    text = longs(UNIT, len(name), *name)
    for _ in range(chance.randrange(3)):
        text += side(chance) if chance.random() < 0.3 else b""
        text += content(chance, 2**30 - 1)
        for _ in range(chance.randrange(4)):
            kind = chance.choice((EXT, EXT, None, *RELOCATIONS))
            if kind in RELOCATIONS:
                text += groups(chance, kind, (0, 1, 2**32 - 1), 2**32 - 1)
            else:
                text += entries(chance) if kind else side(chance)
        text += block(chance, END)
    return text


def drawn(chance):
    """A file of either kind."""
    return load(chance) if chance.random() < 0.5 else b"".join(unit(chance) for _ in range(chance.choice((1, 1, 2, 3))))
