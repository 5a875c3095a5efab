"""The inputs that are made of the texts in the tables of this folder."""
import os

WORDS = [0, 1, 0x3F2, 0x3FFFFFFF, 0x80000000, 0xFFFFFFFF, 0x200004D2, 0xE00004D2]


def inputs(table, text):
    """Every input that a text gives: its name, and the pieces in which a reader gets it."""
    yield "whole", [text]
    for end in range(len(text)):
        yield f"front {end}", [text[:end]]
    for at in range(0, len(text) - 3, 4):
        for word in WORDS:
            yield f"byte {at} {word:08x}", [text[:at] + word.to_bytes(4, "big") + text[at + 4:]]
    if table == "load.tsv":
        for cut in range(1, len(text)):
            yield f"pieces {cut}", [text[:cut], text[cut:]]


def rows(tables):
    """The table, the example's number, its name and its text, of these tables."""
    folder = os.path.dirname(os.path.abspath(__file__))
    for table in tables:
        with open(os.path.join(folder, table)) as lines:
            for line in lines:
                if not line.startswith("#"):
                    number, name, *fields = line.split("\t")
                    yield table, number, name, bytes.fromhex(fields[table == "wide.tsv"])
