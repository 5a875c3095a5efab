"""What the command `hunk` has to print of the files that files.make makes: its words, standard output, standard error, and the
status. It is written by hand, from the texts of the files, docs/OUTPUT.md, and the formats of GNU size and nm."""

SHOWN_SYMBOL = """load file 1 hunks 4 bytes
hunk 0 4 bytes any
  CODE 4 bytes
  SYMBOL 1
    0x00000000 _m
  END
"""
SHOWN_OBJECT = """object file 1 units
unit 0 a
hunk 0 16 bytes
  CODE chip 16 bytes
  RELOC32 1
    1 0x00000002
  EXT 4
    DEF 0x00000004 _a
    REF32 1 _b
      0x00000008
    ABS 0x00001234 _c
    COMMON 16 1 _d
      0x0000000c
  END
hunk 1 16 bytes
  BSS 16 bytes
  SYMBOL 1
    0x00000008 buf
  END
"""
SHOWN_WIDE = """load file 1 hunks 8 bytes
hunk 0 8 bytes any
  CODE 8 bytes
  RELOC32 1
    0 0x00000000
  END
"""
SHOWN_CUT = """load file 2 hunks 12 bytes
hunk 0 4 bytes any
  CODE 4 bytes
  SYMBOL 1
    0x00000002 _m
  END
hunk 1 8 bytes chip
refused at byte 76: Truncated (26)
"""
SAID_CUT = "hunk: cut: refused at byte 76: Truncated: the input ends too soon (damaged)\n"
HEAD = "   text\t   data\t    bss\t    dec\t    hex\tfilename\n"
SIZE_OF_SUM = "     48\t      0\t     12\t     60\t     3c\tsum\n"
TABLE_HEAD = "class\treason\tbyte\trest\tname\n"
NO_HUNK_FILE = "refused at byte 0: NotLoadFile: the first longword is not 3F3 (no hunk file)"
NO_TEXT = f"{NO_HUNK_FILE}; by its first bytes: text"
NONE_BETWEEN = "0 object, 0 findings, 0 wide"
# What sha256sum says of it.
SUM_OF_TEXT = "982d9e3eb996f559e633f4d194def3761d909f5a3b647d1a851fead67c32c9d1"
REFUSED = f"""hunk: text: {NO_TEXT}
hunk: empty: refused at byte 0: Truncated: the input ends too soon (no hunk file)
hunk: overlay: refused at byte 36: Overlay: an OVERLAY block, of a file with overlays (not supported)
hunk: unknown: refused at byte 36: UnknownBlock: a type of block that is not known, without the bit of advisory blocks (damaged)
hunk: none: ENOENT: No such file or directory (not judged)
"""

# sum.hex as it lies at 00021000, by docs/CALLING.md and the two relocations of the file.
RELOCATED_SUM = """hunk 0 base 0x00021000 48 bytes
  41f90002102043f90002103472032018
  d19151c9fffa201193c8d0894e754e71
  11111111022222220033333300044444
hunk 1 base 0x00021030 12 bytes
  000000000000000000000000
"""
FINDINGS = """unit 0 hunk 0 offset 0x00000002 BadTarget
unit 0 hunk 0 offset 0x00000002 OutsideHunk
object file 1 units 2 findings
"""
# Of the memory of symbol at 1000, with sums that were added up by hand.
S_RECORDS = "S007000048554E4BC2\nS309000010004E754E7164\nS70500001000EA\n"
HEX_TEXT = ":041000004E754E716A\n:0400000500001000E7\n:00000001FF\n"

RUNS = [
    ("show symbol", SHOWN_SYMBOL, "", 0),
    ("show part.o", SHOWN_OBJECT, "", 0),
    ("show symbol part.o behind", f"== symbol\n{SHOWN_SYMBOL}== part.o\n{SHOWN_OBJECT}== behind\n"
     "load file 1 hunks 4 bytes\nhunk 0 4 bytes any\n  CODE 4 bytes\n  END\nrest 7 bytes\n", "", 0),
    ("show text empty overlay unknown none symbol", f"== symbol\n{SHOWN_SYMBOL}", REFUSED, 1),
    ("show wide", "", "hunk: wide: refused at byte 40: ShortReloc: a block of short relocations, whose offsets have 16 bits"
     " (not supported); its spelling is one that --wide reads\n", 1),
    ("show --wide wide", SHOWN_WIDE, "hunk: wide: 1 block of short relocations, 1 END put in\n", 0),
    ("show cut", "", SAID_CUT, 1),
    ("show --partial cut text symbol", f"== cut\n{SHOWN_CUT}== symbol\n{SHOWN_SYMBOL}",
     f"{SAID_CUT}hunk: text: {NO_TEXT}\n", 1),
    ("show --partial --wide wide", SHOWN_WIDE, "hunk: wide: 1 block of short relocations, 1 END put in\n", 0),
    ("size sum part.o attributes", f"{HEAD}{SIZE_OF_SUM}"
     "     16\t      0\t     16\t     32\t     20\tpart.o\n      8\t      0\t      4\t     12\t      c\tattributes\n", "", 0),
    ("size -t sum text sum", f"{HEAD}{SIZE_OF_SUM}{SIZE_OF_SUM}"
     "     96\t      0\t     24\t    120\t     78\t(TOTALS)\n", f"hunk: text: {NO_TEXT}\n", 1),
    ("size -A part.o", "part.o  :\nsection    size   addr   memory\n0.0:CODE     16      0   chip\n0.1:BSS      16      0   any\n"
     "Total        32\n\n\n", "", 0),
    ("size -A --base 1000 attributes", "attributes  :\nsection   size   addr   memory\n"
     "0:CODE       8   4096   attributes 0x00010004\n1:BSS        4   4104   any\nTotal       12\n\n\n", "", 0),
    ("size --json -t sum part.o", '{"name": "sum", "text": 48, "data": 0, "bss": 12, "total": 60}\n'
     '{"name": "part.o", "text": 16, "data": 0, "bss": 16, "total": 32}\n'
     '{"name": null, "text": 64, "data": 0, "bss": 28, "total": 92}\n', "", 0),
    ("size --json -A --base 1000 attributes", '{"name": "attributes", "unit": 0, "hunk": 0, "kind": "CODE", "bytes": 8,'
     ' "address": 4096, "memory": "attributes", "attributes": 65540}\n{"name": "attributes", "unit": 0, "hunk": 1, "kind": "BSS",'
     ' "bytes": 4, "address": 4104, "memory": "any", "attributes": 0}\n', "", 0),
    ("nm --json -A text part.o", "".join(f'{{"name": "part.o", "value": {value}, "letter": "{letter}", "symbol": "{name}",'
     f' "external": {external}}}\n' for value, letter, name, external in ((4, "T", "_a", "true"), ("null", "U", "_b", "true"),
     (4660, "A", "_c", "true"), (16, "C", "_d", "true"), (24, "B", "buf", "false"))), f"hunk: text: {NO_TEXT}\n", 1),
    ("relocs --json part.o symbol", "".join(f'{{"name": "part.o", "place": {place}, "unit": 0, "hunk": 0, "offset": {offset},'
     f' "width": 4, "kind": "{kind}", "target": {target}, "value": {value}, "symbols": ["{name}"]}}\n'
     for place, offset, kind, target, value, name in ((48, 2, "RELOC32", 1, 8, "buf"), (84, 8, "REF32", "null", 0, "_b"),
     (116, 12, "COMMON", "null", 0, "_d"))), "", 0),
    ("nm part.o", "00000004 T _a\n         U _b\n00001234 A _c\n00000010 C _d\n00000018 B buf\n", "", 0),
    ("nm -n part.o", "         U _b\n00000010 C _d\n00000004 T _a\n00000018 B buf\n00001234 A _c\n", "", 0),
    ("nm -g --base 21000 part.o", "00021004 T _a\n         U _b\n00001234 A _c\n00000010 C _d\n", "", 0),
    ("nm -u part.o", "         U _b\n", "", 0),
    ("nm -A -u part.o symbol", "part.o:         U _b\n", "", 0),
    ("nm symbol sum", "\nsymbol:\n00000000 T _m\n\nsum:\n", "hunk: sum: no symbols\n", 0),
    ("relocs sum", "    0 0x00000002 4 RELOC32    0+0x20\n    0 0x00000008 4 RELOC32    1+0x4\n", "", 0),
    ("relocs part.o symbol", "== part.o\n  0.0 0x00000002 4 RELOC32    0.1+0x8 buf\n  0.0 0x00000008 4 REF32      _b\n"
     "  0.0 0x0000000c 4 COMMON     _d\n== symbol\n", "", 0),
    ("dump part.o", "hunk 0.0 CODE 16 bytes chip\n"
     "  00000000  4e b9[00 00 00 08]4e b9[00 00 00 00|00 00 00 00] |N.....N.........|\n"
     "hunk 0.1 BSS 16 bytes\n  and 16 zero bytes that the file does not have\n", "", 0),
    ("dump --base 21000 sum", "hunk 0 CODE 48 bytes at 00021000\n"
     "  00021000  41 f9[00 02 10 20]43 f9[00 02 10 34]72 03 20 18  |A.... C....4r. .|\n"
     "  00021010  d1 91 51 c9 ff fa 20 11 93 c8 d0 89 4e 75 4e 71  |..Q... .....NuNq|\n"
     "  00021020  11 11 11 11 02 22 22 22 00 33 33 33 00 04 44 44  |.....\"\"\".333..DD|\n"
     "hunk 1 BSS 12 bytes at 00021030\n"
     "  00021030  00 00 00 00 00 00 00 00 00 00 00 00              |............|\n", "", 0),
    ("dump --base 1000 part.o", "", "hunk: part.o: refused at byte 0: IsObject: a load file is needed, and this is an object"
     " file: link it first (not supported)\n", 1),
    ("dump --base 1000 --budget 59 sum", "", "hunk: sum: refused at byte 24: Budget: the hunks declare more bytes than the budget"
     " allows (not judged)\n", 1),
    ("dump --base fffffff8 sum", "", "hunk: sum: refused at byte 28: NoBase of hunk 0: a hunk has no base, or would pass the"
     " address 2^32 (not judged)\n", 1),
    ("validate symbol part.o", "== symbol\nload file 1 hunks 4 bytes\n== part.o\nobject file 1 units 0 findings\n", "", 0),
    ("validate behind", "load file 1 hunks 4 bytes\nrest 7 bytes\n", "", 0),
    ("validate findings.o", FINDINGS, "", 1),
    ("validate text wide findings.o symbol", f"== findings.o\n{FINDINGS}== symbol\nload file 1 hunks 4 bytes\n",
     f"hunk: text: {NO_TEXT}\nhunk: wide: refused at byte 40: ShortReloc: a block of short relocations, whose offsets have"
     " 16 bits (not supported); its spelling is one that --wide reads\n", 1),
    ("validate --wide wide", "load file 1 hunks 8 bytes\n", "hunk: wide: 1 block of short relocations, 1 END put in\n", 0),
    ("validate --json behind findings.o", '{"name": "behind", "kind": "load", "units": 0, "hunks": 1, "memory": 4, "rest": 7,'
     ' "findings": []}\n{"name": "findings.o", "kind": "object", "units": 1, "hunks": 1, "memory": 4, "rest": 0, "findings":'
     ' [{"place": 32, "unit": 0, "hunk": 0, "offset": 2, "fault": "BadTarget"}, {"place": 32, "unit": 0, "hunk": 0,'
     ' "offset": 2, "fault": "OutsideHunk"}]}\n', "", 1),
    ("relocate --base 21000 sum", RELOCATED_SUM, "", 0),
    ("relocate --base 0x21000 text sum", f"== sum\n{RELOCATED_SUM}", f"hunk: text: {NO_TEXT}\n", 1),
    ("relocate --base 0X00021000 --budget 59 sum", "", "hunk: sum: refused at byte 24: Budget: the hunks declare more bytes than"
     " the budget allows (not judged)\n", 1),
    ("relocate --base 1000 --to bin symbol", "NuNq", "", 0),
    ("convert --to srec --base 1000 symbol -", S_RECORDS, "", 0),
    ("convert --to ihex --base 0x1000 symbol -", HEX_TEXT, "", 0),
    ("convert --to bin --base 1000 symbol -", "NuNq", "", 0),
    ("convert --to ihex --base 21000 symbol -", ":020000040002F8\n:041000004E754E716A\n:0400000500021000E5\n:00000001FF\n", "", 0),
    ("diff sum sum", "", "", 0),
    ("diff sum text", "", f"hunk: text: {NO_TEXT}\n", 2),
    ("diff part.o sum", "A is an object file, B a load file\n", "", 1),
    ("diff symbol behind", "hunk 0: blocks: 1 only in A, 0 only in B\nhunk 0: symbols: 1 only in A, 0 only in B\n"
     "rest: 7 bytes more in B\n", "", 1),
    ("diff --items symbol attributes", "hunk 0: CODE 4 bytes any in A, CODE 8 bytes attributes 0x00010004 in B\n"
     "hunk 0: content: 1 byte differs, at 0x00000001, 4 bytes more in B\n"
     "hunk 0: blocks: 1 only in A, 0 only in B\n  < SYMBOL\nhunk 0: symbols: 1 only in A, 0 only in B\n  < 0x00000000 _m\n"
     "hunk 1: only in B: BSS 4 bytes any\n", "", 1),
    ("survey --json text symbol", '{"class": "load", "reason": null, "byte": null, "rest": 0, "name": "symbol"}\n'
     '{"class": "no hunk file", "reason": "NotLoadFile", "byte": 0, "rest": null, "name": "text"}\n',
     f"2 files: 1 load, {NONE_BETWEEN}, 1 no hunk file, 0 not supported, 0 damaged, 0 not judged\n", 0),
    ("survey --sha256 ./text text", f"no hunk file\tNotLoadFile\t0\t-\t{SUM_OF_TEXT}\t-\t./text\n"
     f"no hunk file\tNotLoadFile\t0\t-\t{SUM_OF_TEXT}\t./text\ttext\n", f"2 files: 0 load, {NONE_BETWEEN}, 2 no hunk file,"
     " 0 not supported, 0 damaged, 0 not judged; 1 with the bytes of one before\n", 0),
]
# Words that are refused.
REFUSED_WORDS = ["", "none sum", "show", "show --no sum", "dump --base xyz sum", "dump --base 100000000 sum",
                 "dump --budget -1 sum", "diff sum", "survey --jobs x sum", "explain 0", "explain -1",
                 "explain 26 32", "dump --base 0x sum", "dump --base +1 sum", "dump --base 1_0 sum", "nm --base x1000 sum",
                 "relocate sum", "relocate --base 1000 --to elf sum", "relocate --base 1000 --to bin sum sum",
                 "relocate --base 1000 --to bin .", "validate", "strip", "strip sum", "strip sum out out", "convert sum out",
                 "convert --to elf sum", "convert --to coff sum out", "convert --to bin sum out", "convert --to srec sum out",
                 "convert --to ihex sum out", "- show sum", "lint", "lint --ignore 1 sum", "lint --ignore none sum", "lint --ignore",
                 "lint --no sum", "same", "same sum", "same sum sum sum", "find", "find --extract", "find --base 0 sum",
                 "survey --csv --json sum", "survey --same --sha256 sum"]
