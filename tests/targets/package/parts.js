// What is built of parts: node parts.js FILE, a load file of one hunk with one symbol. It prints what is not so, and ends with status
// 1; else `as promised`.
import { readFile } from "node:fs/promises";
import { BuildError, ENTRY_KINDS, FLAGS, HunkError, KINDS, open, Part, partOf, PARTS } from "hunk-files";
import { finish, hold, refuses, thrown } from "./held.js";

const hex = (bytes) => Buffer.from(bytes).toString("hex");
const spelled = (text) => text.replace(/\s/g, "");

// By hand, of docs/FORMAT.md.
const OBJECT = spelled(`000003e7 00000001 61000000 400003e9 00000002 4eb90000 00004e75
  000003ef 81000001 5f660000 00000001 00000002 01000001 5f6d0000 00000000 00000001 00000000 00000005 00000000
  000003ec 00000001 00000000 00000004 00000000 000003f2
  800003eb 40000002 000003f0 00000001 00000000 00000001 03000000 00000002 00000000 000003f2`);
const PARTS_OF_OBJECT = [
  Part.unit("a"), Part.block(KINDS.CODE, Buffer.from("4eb9000000004e75", "hex"), FLAGS.CHIP), Part.block(KINDS.EXT),
  Part.entry(ENTRY_KINDS.REF32, "_f", 0, [2]), Part.entry(ENTRY_KINDS.DEF, "_m"), Part.entry(ENTRY_KINDS.SYMB, "", 5),
  Part.block(KINDS.RELOC32), Part.group(0, [4]), Part.end(),
  Part.bss(2, FLAGS.FAST, 1), Part.block(KINDS.SYMBOL), Part.symbol("", 1), Part.symbol("", 2, 3), Part.end(),
];
// A hunk of two longwords whose content is shorter, with these offsets.
const relocated = (...offsets) => [Part.hunk(2), Part.block(KINDS.CODE, "abcde"), Part.block(KINDS.RELOC32), Part.group(0, offsets), Part.end()];

function holdRefusals(hunk) {
  const error = thrown(() => hunk.build(relocated(4, 5)));
  hold("a refusal is a BuildError", error instanceof BuildError && error instanceof HunkError && error.name === "BuildError");
  hold("a refusal has its part", error.row === 3 && error.place === 56 && error.reason === "BadOffset");
  hold("a refusal says it", error.message === "part 3 refused at byte 56: BadOffset (24)");
  const strange = thrown(() => hunk.build([Part.hunk(1), Part.symbol("a", 1)]));
  hold("a part elsewhere", strange.reason === "Strange" && strange.text === "no file has such a part there" && strange.row === 1);
  hold("no parts", thrown(() => hunk.build([])).reason === "Truncated");
}

function holdArguments(hunk) {
  const wrong = [
    () => hunk.build(), () => hunk.build(null), () => hunk.build("parts"), () => hunk.build([null]), () => hunk.build([5]), () => hunk.build([{}]),
    () => hunk.build([{ what: PARTS.UNIT, content: [1] }]), () => hunk.build([{ what: PARTS.UNIT, content: new Uint16Array(2) }]),
    () => hunk.build([{ what: PARTS.GROUP, offsets: 5 }]), () => Part.hunk(1, "slow"), () => partOf([], {}), () => partOf(new Uint8Array(), null),
  ];
  const large = [
    () => hunk.build([{ what: 7 }]), () => hunk.build([{ what: PARTS.UNIT, word: 2 ** 32 }]), () => hunk.build([{ what: PARTS.UNIT, value: -1 }]),
    () => hunk.build([Part.group(0, [2 ** 32])]), () => Part.hunk(2 ** 30), () => Part.block(2 ** 29), () => Part.block(1, "", 8),
    () => Part.unit("\u0100"), () => Part.symbol("a", 1.5), () => partOf(new Uint8Array(3), { content: 0, contentBytes: 4, offsets: 0, offsetCount: 0 }),
  ];
  wrong.forEach((call, i) => hold(`no argument, ${i}`, refuses(TypeError, call)));
  large.forEach((call, i) => hold(`a number out of its range, ${i}`, refuses(RangeError, call)));
}

const hunk = await open();
const bytes = await readFile(process.argv[2]);
hold("parts of an object file", hex(hunk.build(PARTS_OF_OBJECT)) === OBJECT);
const again = [...hunk.parts(bytes).rows].map((row) => partOf(bytes, row));
hold("a file again", hex(hunk.build(again)) === hex(bytes));
const input = hunk.put(bytes);
hold("a file again, of an Input", hex(hunk.build([...hunk.parts(input).rows].map((row) => partOf(input, row)))) === hex(bytes));
hold("content in the module's memory", hex(hunk.build([{ what: PARTS.UNIT, content: input.bytes }])).endsWith(hex(bytes)));
const built = hunk.build(relocated(4, 0));
hold("filled up", hex(built.slice(32, 40)) === "6162636465000000");
hold("offsets stay in their order", hex(built.slice(40, 60)) === spelled("000003ec 00000002 00000000 00000004 00000000"));
hold("content of many bytes", hunk.build([Part.hunk(1 << 18), Part.block(KINDS.DATA, new Uint8Array(1 << 20)), Part.end()]).length === (1 << 20) + 36);
holdRefusals(hunk);
holdArguments(hunk);
finish();
