"""drawn.py SUM OBJECT: holds what `hunk map` draws, and what `hunk dump --disassemble` prints where Capstone is there, to what is
known of two files: bindings/c/examples/sum.hex as bytes, and the row two-findings of vectors/objects.tsv.

Prints what is not as it must be, and then ends with status 1."""

import pathlib
import re
import subprocess
import sys
import tempfile
import xml.etree.ElementTree

# What sum.s has: offset, instruction, and what its long points to.
CODE = [
    (0x00, "lea", "hunk 0+0x20 table"), (0x06, "lea", "hunk 1+0x4 sum"), (0x0C, "moveq", ""), (0x0E, "move", ""),
    (0x10, "add", ""), (0x12, "dbra", ""), (0x16, "move", ""), (0x18, "suba", ""), (0x1A, "add", ""), (0x1C, "rts", ""),
    (0x1E, "nop", ""),
]
LABELS = {"loop": 0x2100E, "table": 0x21020, "sum": 0x21034}
# Where blocks stand in it: a header of 7 longwords, then as sum.hex has them.
BLOCKS = [
    ("HEADER", 0, 28), ("CODE", 28, 56), ("RELOC32", 84, 32), ("END", 116, 4), ("BSS", 120, 8), ("END", 128, 4),
]
# Where its hunks lie in memory from 21000 on, and what its relocations point to.
MEMORY = [
    "hunk 0, CODE, 48 bytes in any memory at 00021000", "hunk 1, BSS, 12 bytes in any memory at 00021030: zero bytes",
    "0+0x2 points to 0+0x20, RELOC32", "0+0x8 points to 1+0x4, RELOC32",
]
# Of two-findings: a unit without a name, CODE of a longword, a relocation block of five, END.
OBJECT_BLOCKS = [("UNIT", 0, 8), ("CODE", 8, 12), ("RELOC32", 20, 20), ("END", 40, 4)]
OBJECT_MEMORY = ["hunk 0.0, CODE, 4 bytes in any memory at 00021000"]


def output_of(*words):
    run = subprocess.run([sys.executable, "-W", "error", "-m", "hunk", *words], check=True, stdout=subprocess.PIPE)
    return run.stdout.decode()


def with_symbols(data):
    """sum.hex with symbols in front of the END of each hunk."""
    def block(*symbols):
        rows = b"".join(
            (-(-len(name) // 4)).to_bytes(4, "big") + name + bytes(-len(name) % 4) + value.to_bytes(4, "big")
            for name, value in symbols
        )
        return bytes.fromhex("000003f0") + rows + bytes(4)

    return data[:116] + block((b"loop", 0x0E), (b"table", 0x20)) + data[116:128] + block((b"sum", 4)) + data[128:]


def wrong_listing(path):
    text = output_of("dump", "--disassemble", "--base", "21000", path)
    lines = re.findall(r"(?m)^  ([0-9a-f]{8})  [0-9a-f]* +(\w+)[^;\n]*?(?:; (.*))?$", text)
    told = [(int(address, 16) - 0x21000, name, mark) for address, name, mark in lines]
    if told[: len(CODE)] != CODE:
        yield f"dump --disassemble prints {told[:len(CODE)]} where {CODE} is wanted"
    labels = {name: int(address, 16) for name, address in re.findall(r"(?m)^(\w+):\n  ([0-9a-f]{8}) ", text)}
    if labels != LABELS:
        yield f"dump --disassemble has the labels {labels} where {LABELS} is wanted"


def wrong_picture(path, wanted, memory, findings):
    text = output_of("map", "--base", "21000", path)
    picture = xml.etree.ElementTree.fromstring(text)
    titles = [it.text for it in picture.iter("{http://www.w3.org/2000/svg}title")]
    drawn = [it for it in titles if re.match(r"hunk |\d+[.+]", it)]
    if drawn != memory:
        yield f"map draws {drawn} where {memory} is wanted"
    blocks = re.findall(r"(?m)^(\w+) at byte (\d+), (\d+) bytes", "\n".join(titles))
    told = [(kind, int(place), int(size)) for kind, place, size in blocks]
    # A block that goes on in the next line of the picture is drawn again there.
    if list(dict.fromkeys(told)) != wanted:
        yield f"map draws {told} where {wanted} is wanted"
    marks = sum(it.get("class") == "bad" for it in picture.iter("{http://www.w3.org/2000/svg}path"))
    if marks != findings:
        yield f"map marks {marks} findings where {findings} are wanted"


def has_capstone():
    return subprocess.run([sys.executable, "-c", "import capstone"], stderr=subprocess.DEVNULL).returncode == 0


def main(load, other):
    wrong = [*wrong_picture(load, BLOCKS, MEMORY, 0), *wrong_picture(other, OBJECT_BLOCKS, OBJECT_MEMORY, 2)]
    if has_capstone():
        with tempfile.NamedTemporaryFile() as file:
            file.write(with_symbols(pathlib.Path(load).read_bytes()))
            file.flush()
            wrong += wrong_listing(file.name)
    print(*wrong, sep="\n", end="\n" if wrong else "")
    return 1 if wrong else 0


if __name__ == "__main__":
    sys.exit(main(*sys.argv[1:]))
