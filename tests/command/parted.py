"""What `hunk json --parts` writes, by hand."""

import json

from compared import same
from files import hunk

OBJECT = [
    {"part": "unit", "name": "a"},
    {"part": "block", "kind": "CODE", "flags": ["chip"], "content": "4eb9000000084eb90000000000000000"},
    {"part": "block", "kind": "RELOC32"},
    {"part": "group", "target": 1, "offsets": [2]},
    {"part": "block", "kind": "EXT"},
    {"part": "entry", "kind": "DEF", "name": "_a", "value": 4},
    {"part": "entry", "kind": "REF32", "name": "_b", "offsets": [8]},
    {"part": "entry", "kind": "ABS", "name": "_c", "value": 0x1234},
    {"part": "entry", "kind": "COMMON", "name": "_d", "value": 16, "offsets": [12]},
    {"part": "block", "kind": "END"},
    {"part": "block", "kind": "BSS", "longs": 4},
    {"part": "block", "kind": "SYMBOL"},
    {"part": "symbol", "name": "buf", "value": 8},
    {"part": "block", "kind": "END"},
]
ATTRIBUTES = [
    {"part": "hunk", "longs": 2, "memory": "attributes", "attributes": 0x10004},
    {"part": "block", "kind": "CODE", "content": "4e714e714e754e71"},
    {"part": "block", "kind": "END"},
    {"part": "hunk", "longs": 1, "memory": "any"},
    {"part": "block", "kind": "BSS", "longs": 1},
    {"part": "block", "kind": "END"},
]
# Names without a longword, with one of zero bytes, and with more padding than is usual; an advisory block; and bits of size words.
ODD = """000003f3 00000000 00000001 00000000 00000000 00000003
    000003e8 00000000 000003e8 00000002 61000000 00000000 200004d2 00000001 000000ff
    800003ea 40000001 00000000 000003f0 00000001 00000000 00000007 01000000 00000008 02000001 61006200 00000009 00000000
    000003f2"""
ODD_PARTS = [
    {"part": "hunk", "longs": 3, "memory": "any"},
    {"part": "block", "kind": "NAME", "name": ""},
    {"part": "block", "kind": "NAME", "content": "6100000000000000"},
    {"part": "block", "kind": "ADVISORY", "type": 1234, "flags": ["advisory"], "content": "000000ff"},
    {"part": "block", "kind": "DATA", "flags": ["fast"], "bits": 1, "content": "00000000"},
    {"part": "block", "kind": "SYMBOL"},
    {"part": "symbol", "name": "", "value": 7},
    {"part": "symbol", "name": "", "value": 8, "top": 1},
    {"part": "symbol", "content": "61006200", "value": 9, "top": 2},
    {"part": "block", "kind": "END"},
]


def parts_of(name, home, *words):
    return json.loads(hunk("json", "--parts", *words, name, folder=home)[0]).get("parts")


def documents(home):
    same("parts of an object file", parts_of("part.o", home), OBJECT)
    same("parts of attributes", parts_of("attributes", home), ATTRIBUTES)
    (home / "odd").write_bytes(bytes.fromhex(ODD))
    same("odd parts", parts_of("odd", home), ODD_PARTS)
    (home / "odd").unlink()
    group = [{"part": "block", "kind": "RELOC32"}, {"part": "group", "target": 0, "offsets": [0]}, {"part": "block", "kind": "END"}]
    same("parts of another spelling", parts_of("wide", home, "--wide")[2:], group)
    same("parts before a fault", parts_of("cut", home, "--partial"), None)
    same("a document without parts", "parts" in json.loads(hunk("json", "symbol", folder=home)[0]), False)
