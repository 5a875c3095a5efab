// Random and damaged files in each call of the package, handed over in every way while the module's memory has to grow: node
// fuzz.js BUILDS TABLE.., what builds.py beside this folder prints, and tables of the conformance suite. An answer has to be the
// same in each way, and of `parts` and `build` what BUILDS says; what is held has to be right afterwards; all that was taken has to
// be given back, also where a call throws. Each run has the same files. It prints what is not so, and ends with status 1; else `as
// promised`.
import { readFileSync } from "node:fs";
import { BuildError, Hunk, HunkError, nameOf } from "hunk-files";
import { fill, finish, free, hold, isFreeFrom, modules, refuses, thrown } from "./held.js";

const SEED = 75;
const RUNS = 80;
const BUDGET = 1 << 16;
const BASE = 0x21000;
const TABLES = ["check", "units", "blocks", "symbols", "relocations", "entries", "references", "parts", "warnings"];
/** Longwords that mean something in such files. */
const BLOCKS = [0x3e7, 0x3e8, 0x3e9, 0x3ea, 0x3eb, 0x3ec, 0x3ef, 0x3f0, 0x3f1, 0x3f2, 0x3f3, 0x3fc];
const WORDS = [0, 1, 2, 3, 0xffffffff, ...BLOCKS, 0xc0000001];

/** Random numbers below another number, the same of each seed. */
function dice(seed) {
  let state = seed;
  return (below) => {
    state ^= state << 13;
    state ^= state >>> 17;
    state ^= state << 5;
    return (state >>> 0) % below;
  };
}

// ---- The files.

/** The texts of tables: each cell of hexadecimal digits. */
function textsOf(tables) {
  const cells = tables.flatMap((table) => readFileSync(table, "utf8").split(/[\t\n]/));
  return cells.filter((it) => /^([0-9a-f]{2}){8,}$/.test(it)).map((it) => Buffer.from(it, "hex"));
}

function longword(word) {
  const bytes = Buffer.alloc(4);
  bytes.writeUInt32BE(word);
  return bytes;
}

/** Ways to damage a file of one longword or more, which may be changed. */
const DAMAGES = [
  (roll, bytes) => bytes.subarray(0, roll(bytes.length + 1)),
  (roll, bytes) => Buffer.concat([bytes, Buffer.alloc(roll(9), roll(256))]),
  (roll, bytes) => (bytes.writeUInt8(roll(256), roll(bytes.length)), bytes),
  (roll, bytes) => (bytes.writeUInt32BE(WORDS[roll(WORDS.length)], 4 * roll(bytes.length >> 2)), bytes),
  (roll, bytes) => (bytes.copyWithin(4 * roll(bytes.length >> 2), 4 * roll(bytes.length >> 2)), bytes),
  (roll) => Buffer.from(Array.from({ length: roll(40) }, () => roll(256))),
  (roll) => Buffer.concat(Array.from({ length: roll(12) }, () => longword(WORDS[roll(WORDS.length)]))),
];

/** One of the texts, damaged up to two times. */
function fileOf(roll, texts) {
  let bytes = Buffer.from(texts[roll(texts.length)]);
  for (let i = roll(3); i > 0 && bytes.length >= 4; i--) bytes = DAMAGES[roll(DAMAGES.length)](roll, bytes);
  return Uint8Array.from(bytes);
}

/** A file with what else a call is given: the bases of its hunks, one right after the other, and memory with something in it. */
function givenOf(hunk, file) {
  let at = BASE;
  const next = (row) => (at += row.bytes) - row.bytes;
  const bases = thrown(() => hunk.table(file, BUDGET)) ? [at] : Array.from(hunk.table(file, BUDGET).rows, next);
  return { file, bases, memory: Uint8Array.from({ length: 256 }, (_, i) => i) };
}

// ---- What calls answer, as text.

function shown(_, value) {
  if (value instanceof Uint8Array) return Buffer.from(value).toString("hex");
  return value?.[Symbol.iterator] && typeof value !== "string" ? [...value] : value;
}

/** What a call answers, or why it refuses the file. */
function told(call) {
  try {
    return JSON.stringify(call(), shown);
  } catch (error) {
    if (!(error instanceof HunkError)) return `threw ${error}`;
    const { number, reason, place, hunk, count, text } = error;
    return `refused ${number} ${reason} ${place} ${hunk} ${count} ${text}`;
  }
}

/** A copy that is freed again. */
function put(hunk, { bytes }) {
  const copy = hunk.put(bytes);
  const has = Uint8Array.from(copy.bytes);
  copy.free();
  return has;
}

/** The plain spelling is checked after the memory has grown, as calls make it. */
function wide(hunk, { bytes }) {
  const check = (plain) => {
    hunk.alloc(1 << 17).free();
    return hunk.check(plain);
  };
  return hunk.wide(bytes, check);
}

/** What is in the memory then, also where the file is refused. */
function loadAt(hunk, { bytes, bases, memory, now }) {
  return [told(() => hunk.loadAt(bytes, bases, BASE - 16, memory)), now()];
}

/** The file piece by piece, of the loader's buffer or of elsewhere. */
function stream(hunk, { bytes, bases, file }) {
  const list = Array.from(bases);
  const table = hunk.table(bytes, BUDGET);
  const loader = hunk.begin(table, list);
  const roll = dice(file.length + 1);
  for (let at = table.header; at < file.length; ) {
    let piece = file.subarray(at, at + 1 + roll(40));
    if (roll(2) > 0) {
      loader.buffer.set(piece, 9);
      piece = loader.buffer.subarray(9, 9 + piece.length);
    }
    const taken = loader.feed(piece);
    if (taken < piece.length) break;
    at += taken;
  }
  return { ...loader.end(), memory: loader.memory() };
}

const CALLS = {
  put,
  wide,
  loadAt,
  stream,
  table: (hunk, { bytes }) => hunk.table(bytes, BUDGET),
  load: (hunk, { bytes, bases }) => hunk.load(bytes, bases, BUDGET),
  loadPacked: (hunk, { bytes }) => hunk.loadPacked(bytes, BASE, BUDGET),
  inputPlace: (hunk, { bytes, file }) => [0, 37, file.length].map((place) => hunk.inputPlace(bytes, place)),
};
for (const name of ["spelling", "plain", "strip", "front"]) CALLS[name] = (hunk, { bytes }) => hunk[name](bytes);
for (const name of TABLES) {
  CALLS[name] = (hunk, { bytes, file }) => {
    const listed = hunk[name](bytes);
    return { ...listed, names: Array.from(listed.rows, (row) => ("nameBytes" in row ? nameOf(file, row) : "")) };
  };
}

// ---- The ways in which the same is handed over. An Input has each part of what is given, and `twice` the file two times.

const inside = (inputs) => ({ now: () => Uint8Array.from(inputs.memory.bytes) });
const outside = (memory) => ({ memory, now: () => Uint8Array.from(memory) });
const longsOf = ({ bytes }) => new Uint32Array(bytes.buffer, bytes.byteOffset, bytes.length / 4);

const WAYS = {
  "a Uint8Array": ({ file, memory }) => ({ bytes: file, ...outside(Uint8Array.from(memory)) }),
  "a Buffer": ({ file, bases, memory }) => {
    return { bytes: Buffer.from(file), bases: Uint32Array.from(bases), ...outside(Buffer.from(memory)) };
  },
  "an Int8Array": ({ file, memory }) => ({ bytes: Int8Array.from(file), ...outside(Uint8ClampedArray.from(memory)) }),
  "an Input": (_, inputs) => ({ bytes: inputs.file, memory: inputs.memory, ...inside(inputs) }),
  "a view": (_, inputs) => {
    return { bytes: inputs.file.bytes, bases: longsOf(inputs.bases), memory: inputs.memory.bytes, ...inside(inputs) };
  },
  "a part": ({ file }, inputs) => {
    return { bytes: inputs.twice.bytes.subarray(file.length), memory: inputs.memory.bytes, ...inside(inputs) };
  },
};

/** What a call answers where nothing is free in the memory, so that it grows. */
function toldInFull(hunk, way, call, given) {
  const { file, bases, memory } = given;
  const longs = new Uint8Array(Uint32Array.from(bases).buffer);
  const parts = { file, twice: Buffer.concat([file, file]), bases: longs, memory };
  const inputs = Object.fromEntries(Object.entries(parts).map(([name, bytes]) => [name, hunk.put(bytes)]));
  // All Inputs are there before the first view is made.
  const handed = { ...given, ...way(given, inputs) };
  const filling = fill(hunk);
  const answer = told(() => call(hunk, handed));
  for (const input of [filling, ...Object.values(inputs)]) input.free();
  return answer;
}

// ---- What is held while others make the memory grow.

/** An Input, a view of it, and all its rows. */
function keep(hunk, file) {
  const input = hunk.put(file);
  const lists = TABLES.flatMap((name) => (thrown(() => hunk[name](file)) ? [] : [hunk[name](input).rows]));
  return { input, view: input.bytes, lists, text: JSON.stringify(lists, shown), end: input.bytes.buffer.byteLength };
}

function holdKept(what, hunk, file, { input, view, lists, text, end }) {
  hold(`${what}: the memory has grown`, input.bytes.buffer.byteLength > end);
  hold(`${what}: an Input has its bytes`, Buffer.compare(input.bytes, file) === 0);
  hold(`${what}: rows are as they were`, JSON.stringify(lists, shown) === text);
  hold(`${what}: an old view is empty, and no file`, view.length === 0 && refuses(TypeError, () => hunk.check(view)));
  hold(`${what}: nor is it copied`, refuses(TypeError, () => hunk.put(view)));
}

// ---- What is listed and built by a model.

const hex = (bytes) => Buffer.from(bytes).toString("hex");
const unhex = (digits) => Buffer.from(digits, "hex");

/** How the content of a part is handed over: its bytes, which stand from a byte of an Input on. */
const CONTENTS = {
  "a Uint8Array": (bytes) => Uint8Array.from(bytes),
  "a Buffer": (bytes) => bytes,
  "a text": (bytes) => bytes.toString("latin1"),
  "a view": (bytes, at, input) => input.bytes.subarray(at, at + bytes.length),
};

/** The parts of a list as `build` takes them. */
function partsOf(list, hand, input) {
  let at = 0;
  return list.map(([what, word, value, digits, offsets]) => {
    const bytes = unhex(digits);
    at += bytes.length;
    return { what, word, value, content: hand(bytes, at - bytes.length, input), offsets };
  });
}

/** What is built of parts, in the words of BUILDS. */
function built(hunk, parts) {
  try {
    return [0, hex(hunk.build(parts))];
  } catch (error) {
    return error instanceof BuildError ? [error.number, error.place, error.row] : [`threw ${error}`];
  }
}

/** The rows of a file, without what is reserved. */
function rowsOf(hunk, bytes) {
  const row = (it) => [it.what, it.word, it.value, it.content, it.contentBytes, it.offsets, it.offsetCount];
  return Array.from(hunk.parts(bytes).rows, row);
}

/** A list, where nothing is free in the memory. */
function holdList(what, hunk, { parts, answer }) {
  const { from } = free(hunk);
  for (const [way, hand] of Object.entries(CONTENTS)) {
    const input = hunk.put(unhex(parts.map((it) => it[3]).join("")));
    const filling = fill(hunk);
    const told = built(hunk, partsOf(parts, hand, input));
    filling.free();
    input.free();
    hold(`${what} of ${way}: ${told}, and not ${answer}`, told.join() === answer.join());
    hold(`${what} of ${way}: all is given back`, isFreeFrom(hunk, from));
  }
}

async function holdBuilds(what, module, { file, rows, lists }) {
  const hunk = await Hunk.open(module);
  if (rows) {
    const listed = JSON.stringify(rowsOf(hunk, unhex(file)));
    hold(`${what}, ${file}: its parts are ${listed}`, listed === JSON.stringify(rows));
  }
  lists.forEach((list, i) => holdList(`${what}, list ${i} (${JSON.stringify(list.parts)})`, hunk, list));
}

// ---- The tests.

async function holdFile(what, module, calm, file) {
  const hunk = await Hunk.open(module);
  const { from } = free(hunk);
  const kept = keep(hunk, file);
  const then = free(hunk).from;
  const given = givenOf(calm, file);
  for (const [name, call] of Object.entries(CALLS)) {
    const wanted = told(() => call(calm, { ...given, ...WAYS["a Uint8Array"](given) }));
    hold(`${what}, ${name}: ${wanted}`, !wanted.startsWith("threw"));
    for (const [way, hand] of Object.entries(WAYS)) {
      const answer = toldInFull(hunk, hand, call, given);
      hold(`${what}, ${name} of ${way}: ${answer}, and not ${wanted}`, answer === wanted);
      hold(`${what}, ${name} of ${way}: all is given back`, isFreeFrom(hunk, then));
    }
  }
  holdKept(what, hunk, file, kept);
  kept.input.free();
  hold(`${what}: all is given back`, isFreeFrom(hunk, from));
}

/** Memory that can't be had, and what a caller's own function throws. */
function holdThrows(what, hunk) {
  const { from } = free(hunk);
  const hunks = 65536;
  const words = [0x3f3, 0, hunks, 0, hunks - 1, ...new Array(hunks).fill(0x3fffffff)];
  const large = Buffer.concat(words.map(longword));
  const bases = new Uint32Array(hunks);
  const { size } = hunk.table(large, 2 ** 53);
  hold(`${what}: hunks of 2^48 bytes`, size === hunks * (2 ** 32 - 4));
  const input = hunk.put(large);
  const calls = [
    () => hunk.alloc(2 ** 53),
    () => hunk.alloc(2 ** 45),
    () => hunk.load(large, bases, 2 ** 53),
    () => hunk.loadPacked(input, 0, 2 ** 53),
    () => hunk.load(input.bytes, bases, 2 ** 53),
    () => hunk.begin(hunk.table(large, 2 ** 53), bases),
  ];
  for (const [i, call] of calls.entries()) hold(`${what}: memory that can't be had, ${i}`, refuses(RangeError, call));
  const own = new Error("own");
  const throws = () => {
    throw own;
  };
  for (const it of [large, input]) hold(`${what}: what a function throws`, thrown(() => hunk.wide(it, throws)) === own);
  input.free();
  hold(`${what}: all is given back after that`, isFreeFrom(hunk, from));
}

const [table, ...tables] = process.argv.slice(2);
const builds = readFileSync(table, "utf8").trim().split("\n").map((line) => JSON.parse(line));
const answers = builds.flatMap((it) => it.lists).map((it) => it.answer[0]);
const texts = textsOf(tables);
hold("there are texts", texts.length > 100);
hold("there are files and refusals", answers.filter((it) => it === 0).length > 100 && new Set(answers).size > 10);
for (const [name, module] of await modules()) {
  const calm = await Hunk.open(module);
  const roll = dice(SEED);
  for (let run = 0; run < RUNS; run++) {
    const file = fileOf(roll, texts);
    await holdFile(`${name}, file ${run} (${Buffer.from(file).toString("hex")})`, module, calm, file);
  }
  holdThrows(name, calm);
  for (const [i, it] of builds.entries()) await holdBuilds(`${name}, line ${i}`, module, it);
}
finish();
