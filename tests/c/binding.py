"""binding.py VECTORS..: holds the package of bindings/python to the conformance suite, vectors/load.tsv and vectors/objects.tsv.
Prints each row with another answer, and ends with status 1 where there is one.

binding.py --show FILE..: prints what `hunk show` prints of the files, in the words of `hunkinfo show`, after `== FILE` for each.
It ends with status 1 where something does not stand at the place that its row has, also before the fault of a file that is
refused."""

import io
import itertools
import pathlib
import sys

sys.path.insert(0, str(pathlib.Path(__file__).resolve().parents[2] / "bindings/python"))
import hunk
import hunk.library
import hunk.stream
from hunk.command import show

# What docs/FORMAT.md says of the bytes at an offset, where they are not 4.
WIDTHS = {
    "RELOC16": 2, "DREL16": 2, "ABSRELOC16": 2, "RELOC8": 1, "DREL8": 1,
    "REF16": 2, "DEXT16": 2, "ABSREF16": 2, "REF8": 1, "DEXT8": 1, "ABSREF8": 1,
}
# A unit of a BSS in chip memory, of 8 bytes, and of DATA without bytes in fast memory.
OBJECT = bytes.fromhex("000003e700000000" "400003eb00000002000003f2" "800003ea00000000000003f2")
# A load file with a short block, whose offset is 0, and without END; and one whose target is no hunk.
WIDE = bytes.fromhex("000003f3" "00000000" "00000001" "00000000" "00000000" "00000002" "000003e9" "00000002" "0000000000000000" "000003fc" "0001000000000000")
BAD_WIDE = WIDE[:44] + bytes.fromhex("0001000500000000")
# Two hunks of 8 bytes: CODE with a symbol, and then END; and DATA before its relocation of hunk 2.
BROKEN = bytes.fromhex(
    "000003f3 00000000 00000002 00000000 00000001 00000002 40000002"
    "000003e9 00000002 4e714e71 4e714e75 000003f0 00000001 5f6d0000 00000004 00000000 000003f2"
    "000003ea 00000001 00000007 000003ec 00000001 00000002 00000000 00000000 000003f2")
# A unit `a` of a CODE of 4 bytes, whose relocation of hunk 2 lies outside, an EXT block and END; and a hunk with a name, before
# OVERLAY.
BROKEN_OBJECT = bytes.fromhex(
    "000003e7 00000001 61000000 000003e9 00000001 4e714e75 000003ec 00000001 00000002 00000004 00000000"
    "000003ef 01000001 5f610000 00000002 81000001 5f620000 00000001 00000000 00000000 000003f2"
    "000003e8 00000001 62000000 000003f5 00000000")


# ---- The conformance suite.


def answer_of(data, is_object):
    """What the binding answers, in the words of the tables."""
    try:
        if is_object:
            file = hunk.read(data)
            return ["accepted", str(len(file.units)), str(len(file.findings))]
        segments = hunk.load(data)
        return ["accepted", str(len(segments)), str(sum(map(len, segments)))]
    except hunk.HunkError as error:
        return ["refused", str(error.place), str(error.number)]


def stream_answer(data, each):
    """The same of a load file in pieces, each of at most so many bytes; what follows the file must not be read."""
    stream = io.BytesIO(data)
    loader = hunk.stream.Loader()
    try:
        while loader.want and (piece := stream.read(min(each, loader.want))):
            if loader.feed(piece) != len(piece):
                return ["a piece is not taken"]
        segments = loader.end()
    except hunk.HunkError as error:
        return ["refused", str(error.place), str(error.number)]
    if segments != hunk.load(data) or stream.tell() != hunk.read(data).size:
        return ["another load"]
    return ["accepted", str(len(segments)), str(sum(map(len, segments)))]


def rows_of(path):
    for line in pathlib.Path(path).read_text(encoding="utf-8").splitlines():
        if not line.startswith("#"):
            yield line.split("\t")


def wrong_rows(path):
    """The rows of a table with another answer. Its name says which kind of file its rows are read as."""
    is_object = path.endswith("objects.tsv")
    for _, name, text, *wanted in rows_of(path):
        # The library tells the kinds apart by the first longword, and that one declares more than the budget.
        if name == "header-alone" or is_object and not text.startswith("000003e7"):
            continue
        data = bytes.fromhex(text)
        answers = [answer_of(data, is_object)]
        if not is_object:
            answers += [stream_answer(data, each) for each in (1, 6, 1 << 20)]
        for answer in answers:
            if answer != wanted:
                yield f"{name}: {answer} where {wanted} is wanted"


# ---- What stands in files.


def before_fault(data):
    """What stands before the fault of a file that is refused, or nothing."""
    try:
        return hunk.read(data, partial=True)
    except hunk.HunkError:
        return None


def wrong_places(file):
    """The rows whose place is not where the file has what they say, or whose width is not that of their kind; and the blocks that
    don't follow the one before, or go past the end."""
    data = file.data
    references = [reference for entry in file.entries for reference in entry.references]

    def long_at(place):
        return int.from_bytes(data[place : place + 4], "big")

    for it in [*file.relocations, *references, *file.findings]:
        if long_at(it.place) != it.offset:
            yield it
    widths = [(it, it.kind) for it in file.relocations]
    widths += [(it, entry.kind) for entry in file.entries for it in entry.references]
    for it, kind in widths:
        if it.width != WIDTHS.get(kind.name, 4):
            yield it
    for it in [*file.symbols, *file.entries, *file.units]:
        start = it.place + (8 if isinstance(it, hunk.Unit) else 4)
        room = 4 * (long_at(start - 4) & 0xFFFFFF)
        if it.name != data[start : start + room].split(bytes(1))[0]:
            yield it
    starts = [*(it.place for it in file.blocks), file.size]
    for it, after in zip(file.blocks, starts[1:]):
        follows = it.place + it.bytes == after or file.is_object and it.place + it.bytes <= after
        if long_at(it.place) != it.kind + (it.flags << 29) or not follows:
            yield it


def show_files(paths):
    status = 0
    for path in paths:
        data = pathlib.Path(path).read_bytes()
        print("==", path)
        try:
            file = hunk.read(data)
            print(*show.lines(file), sep="\n")
        except hunk.HunkError as error:
            print(error)
            file = before_fault(data)
        wrong = list(wrong_places(file)) if file else []
        if wrong:
            print(f"{path}: not in its place: {wrong[0]}", file=sys.stderr)
            status = 1
    return status


# ---- Calls of their own.


def hex_lines(data):
    """The bytes of each hunk, as the package's README takes them."""
    lines = []
    try:
        for segment in hunk.load(data, base=0x21000):
            lines.append(segment.hex())
    except hunk.HunkError as error:
        lines.append(f"byte {error.place}: {error.meaning}")
    return lines


def block_lines(data):
    """The blocks of a file, or those before its fault, as docs/CALLING.md takes them."""
    file = hunk.read(data, partial=True)
    lines = [f"{it.place:08x} hunk {it.hunk} {it.kind.name}" for it in file.blocks]
    if file.refusal:
        lines.append(f"byte {file.refusal.place}: {file.refusal.meaning}")
    return lines


def type_error(call, data):
    """What the TypeError says that is raised, or nothing where none is."""
    try:
        call(data)
    except TypeError as error:
        return str(error)
    except hunk.HunkError:
        pass
    return ""


class Narrow(io.BytesIO):
    """A stream that can't be asked for 2^31 bytes or more, as on a machine of 32 bits."""

    def read(self, size=-1):
        if size >= 1 << 31:
            raise OverflowError(size)
        return super().read(size)


def is_out_of_memory(call):
    try:
        call()
    except MemoryError:
        return True
    return False


def placed(data, bases, start=0x10000, size=24):
    """A memory into which the file was loaded, or where it was refused, what says so and the memory."""
    memory = bytearray(b"\xaa" * size)
    try:
        hunk.load_at(data, bases, start, memory)
    except hunk.HunkError as error:
        return f"{error}: {memory.hex('-', 8)}"
    return memory.hex("-", 8)


def partial_calls(one, two):
    """Calls for what stands before a fault, and what they come to."""
    def read(data, **words):
        return hunk.read(data, partial=True, **words)

    def kinds(data):
        return [(it.hunk, it.kind.name, it.place) for it in read(data).blocks]

    code, data = hunk.Hunk(8, "any", 0, 0, 0, hunk.Kind.CODE), hunk.Hunk(8, "chip", 0, 0, 1, hunk.Kind.DATA)
    first = [(0, "CODE", 28), (0, "SYMBOL", 44), (0, "END", 64)]
    return {
        "partial": (lambda: repr(read(BROKEN)), "<load file, 80 bytes, 2 hunks, refused at byte 88: BadTarget (23)>"),
        "partial blocks": (lambda: kinds(BROKEN), [*first, (1, "DATA", 68)]),
        "partial lines": (
            lambda: block_lines(BROKEN)[2:],
            ["00000040 hunk 0 END", "00000044 hunk 1 DATA", "byte 88: the target of a relocation is no hunk of the file"],
        ),
        "partial hunks": (lambda: read(BROKEN).hunks, [code, data]),
        "partial symbols": (lambda: [it.name for it in read(BROKEN).symbols], [b"_m"]),
        "partial lists": (lambda: (read(BROKEN).relocations, read(BROKEN).entries, read(BROKEN).findings), ([], [], [])),
        "partial content": (lambda: read(BROKEN).content(read(BROKEN).blocks[3]).hex(), "00000007"),
        "partial data": (lambda: (read(BROKEN).data, read(BROKEN).spelling), (BROKEN, hunk.Spelling(len(BROKEN), 0, 0))),
        "no content": (lambda: read(BROKEN[:75]).hunks, [code, data._replace(kind=None)]),
        "no block": (lambda: (kinds(BROKEN[:75]), read(BROKEN[:75]).size), (first, 68)),
        "no hunk": (lambda: read(BROKEN[:45]).hunks, [code, data._replace(kind=None)]),
        "a table alone": (lambda: (kinds(BROKEN[:30]), [it.kind for it in read(BROKEN[:30]).hunks]), ([], [None, None])),
        "partial of a file": (lambda: (read(one).refusal, read(one + one).size), (None, 40)),
        "partial of a file, its blocks": (lambda: read(two).blocks, hunk.read(two).blocks),
        "partial and wide": (
            lambda: repr(read(BAD_WIDE, wide=True)),
            "<load file, 40 bytes, 1 hunks, refused at byte 46: BadTarget (23)>",
        ),
        **partial_object_calls(),
        "partial of a wide file": (lambda: (read(WIDE, wide=True).refusal, read(WIDE).refusal.place), (None, 40)),
    }


def partial_object_calls():
    """The same of an object file."""
    def read(size):
        return hunk.read(BROKEN_OBJECT[:size], partial=True)

    code = hunk.Hunk(4, "any", 0, 0, 0, hunk.Kind.CODE)
    return {
        "partial object": (lambda: repr(read(None)), "<object file, 96 bytes, 2 hunks, refused at byte 96: Overlay (11)>"),
        "its hunks": (lambda: read(None).hunks, [code, hunk.Hunk(0, "any", 0, 0, 1, None)]),
        "its units": (lambda: read(None).units, [hunk.Unit(0, b"a", 2)]),
        "its blocks": (lambda: [it.kind.name for it in read(None).blocks], ["CODE", "RELOC32", "EXT", "END", "NAME"]),
        "its entries": (lambda: [(it.name, len(it.references)) for it in read(None).entries], [(b"_a", 0), (b"_b", 1)]),
        "its findings": (lambda: read(None).findings, []),
        "an open hunk": (lambda: (read(79).hunks, len(read(79).blocks), read(79).units), ([code], 2, [hunk.Unit(0, b"a", 1)])),
        "a unit alone": (lambda: (read(13).hunks, read(13).units, read(13).size), ([], [hunk.Unit(0, b"a", 0)], 12)),
        "whole": (lambda: (read(84).refusal, len(read(84).findings), read(84).hunks), (None, 2, [code])),
    }


def wrong_calls(texts):
    """What other calls, and the texts of errors, are not as they must be."""
    one, two, symbol = (bytes.fromhex(texts[it]) for it in ("one-hunk", "two-hunks", "symbol"))
    calls = {
        "strip": (lambda: hunk.strip(symbol), one),
        "readme": (lambda: hex_lines(one), ["4e754e71"]),
        "refusal": (lambda: [line.split(": ")[0] for line in hex_lines(one[:9])], ["byte 8"]),
        "table": (lambda: hunk.table(one[:24]), [hunk.Hunk(4, "any", 0)]),
        "bases": (lambda: hunk.load(two, [0x10000, 0x20000])[0].hex(), "4ef9000200044e71"),
        "places": (lambda: placed(two, [0x1000C, 0x10001]), "aa12345678aaaaaa-aaaaaaaa4ef90001-00054e71aaaaaaaa"),
        "no place": (lambda: placed(two, [0x10011, 0x10000]), f"refused at byte 28: NoBase (29) hunk 0: {'-'.join(['aa' * 8] * 3)}"),
        "placed bytes": (lambda: hunk.load_at(two, [0x10000, 0x10008], 0x10000, memoryview(bytearray(16))), 12),
        "memory": (lambda: hunk.load(memoryview(one)), [bytes.fromhex("4e754e71")]),
        "stream": (lambda: hunk.stream.load_from(io.BytesIO(one + one)), [bytes.fromhex("4e754e71")]),
        "file": (lambda: repr(hunk.read(one + one)), "<load file, 40 bytes, 1 hunks>"),
        "block": (lambda: hunk.read(one).blocks[0][:6], (24, 12, 0, 0, hunk.Kind.CODE, hunk.Flags(0))),
        "kind": (lambda: repr(hunk.read(one).hunks), "[Hunk(size=4, memory='any', attributes=0, unit=0, number=0, kind=CODE)]"),
        "number": (lambda: repr(hunk.Kind(1234)), "TYPE_1234"),
        "object": (
            lambda: hunk.read(OBJECT).hunks,
            [hunk.Hunk(8, "chip", 0, 0, 0, hunk.Kind.BSS), hunk.Hunk(0, "fast", 0, 0, 1, hunk.Kind.DATA)],
        ),
        "spelling": (lambda: hunk.spelling(WIDE), hunk.Spelling(64, 1, 1)),
        "plain": (lambda: hunk.plain(WIDE)[40:].hex(), "000003ec0000000100000000" "0000000000000000" "000003f2"),
        "plain of a plain file": (lambda: hunk.plain(memoryview(one + one)), one + one),
        "wide": (lambda: (hunk.read(WIDE, wide=True).spelling, repr(hunk.read(WIDE, wide=True))), (hunk.Spelling(64, 1, 1), "<load file, 64 bytes, 1 hunks>")),
        "wide relocations": (lambda: [it.offset for it in hunk.read(WIDE, wide=True).relocations], [0]),
        "wide of a plain file": (lambda: hunk.read(one, wide=True).spelling, hunk.read(one).spelling),
        "wide load": (lambda: hunk.load(WIDE, 0x21000, wide=True), [bytes.fromhex("0002100000000000")]),
        "input place": (lambda: hunk.input_place(WIDE, 60), len(WIDE)),
        **partial_calls(one, two),
    }
    for name, (call, wanted) in calls.items():
        if call() != wanted:
            yield f"{name}: {call()} where {wanted} is wanted"
    errors = {
        "refused at byte 28: NoBase (29) hunk 1": lambda: hunk.load(two, [0x10000]),
        "refused at byte 20: Budget (27)": lambda: hunk.load(one, budget=3),
        "refused at byte 28: NoBase (29) hunk 0": lambda: hunk.stream.load_from(io.BytesIO(two), 0xFFFFFFFC),
        "refused at byte 8: Truncated (26)": lambda: hunk.read(one[:9]),
        # A DEBUG block after the code, which declares 2^34 bytes less 4.
        "refused at byte 44: Truncated (26)": lambda: hunk.stream.load_from(Narrow(one[:36] + bytes.fromhex("000003f1ffffffff"))),
        "refused at byte 40: ShortReloc (13)": lambda: hunk.read(WIDE),
        "refused at byte 46: BadTarget (23)": lambda: hunk.read(BAD_WIDE, wide=True),
        "refused at byte 24: Truncated (26)": lambda: hunk.read(BROKEN[:26], partial=True),
        "refused at byte 0: NotLoadFile (1)": lambda: hunk.read(b"text", partial=True),
        "refused at byte 8: Truncated (26)": lambda: hunk.read(BROKEN_OBJECT[:11], partial=True),
        "base is no number of 32 bits: 4294967296": lambda: hunk.load(one, 1 << 32),
    }
    for wanted, call in errors.items():
        try:
            yield f"{call()} where an error is wanted: {wanted}"
        except ValueError as error:
            if str(error) != wanted:
                yield f"{error} where the error is wanted: {wanted}"
            if isinstance(error, hunk.HunkError) and len(error.meaning) <= len(error.reason):
                yield f"{error}: no sentence says what it means"
    if not is_out_of_memory(lambda: hunk.library.room(1 << 66)):
        yield "an array that no machine can address: no MemoryError is raised"
    # The package imports a name when it is asked for: each that it lists has to be there, under that name.
    lacking = [name for name in (*hunk.__all__, *hunk._PLACES) if name not in hunk.__all__ or not hasattr(hunk, name)]
    if lacking or {*hunk._PLACES} != {*hunk.__all__}:
        yield f"names that the package lists and does not have, or has and does not list: {lacking}"
    calls = (hunk.table, hunk.load, hunk.check, hunk.strip, hunk.read, hunk.spelling, hunk.plain)
    for call, data in itertools.product(calls, (5, list(one), "text")):
        if not type_error(call, data):
            yield f"{call.__name__} of {data}: no TypeError is raised"
    for data, name in (("prog", "str"), (pathlib.PurePosixPath("prog"), "PurePosixPath")):
        wanted = f"bytes are wanted, not a {name}; those of a file are pathlib.Path(NAME).read_bytes()"
        if type_error(hunk.read, data) != wanted:
            yield f"read of {data!r}: the TypeError does not say: {wanted}"


def main(words):
    if words[0] == "--show":
        return show_files(words[1:])
    texts = {row[1]: row[2] for row in rows_of(words[0])}
    wrong = [it for path in words for it in wrong_rows(path)] + list(wrong_calls(texts))
    print(*wrong, sep="\n", end="\n" if wrong else "")
    return 1 if wrong else 0


if __name__ == "__main__":
    sys.exit(main(sys.argv[1:]))
