// What is no argument, handed to each call of the package: node wrong.js FILE, a load file of one hunk with one symbol. Each has
// to throw a TypeError, or of a number out of range a RangeError, that names the argument, and nothing may stay taken. It prints
// what is not so, and ends with status 1; else `as promised`.
import { readFile } from "node:fs/promises";
import { entryKindName, faultName, flagNames, Hunk, kindName, Loader, nameOf, Rows, warningName } from "hunk-files";
import { finish, free, hold, isFreeFrom, modules, thrown } from "./held.js";

const TABLES = ["check", "units", "blocks", "symbols", "relocations", "entries", "references", "parts", "warnings"];
/** The calls that take no argument, and what only other scripts of the package call. */
const REST = ["constructor", "abi", "error", "buffer", "want", "end", "memory", "isOf", "copy", "length"];
/** Of other kinds than a number, even where `Number` would make one of them. */
const KINDS = [null, "x", "5", "", true, {}, [], [5], 5n, Symbol("5"), () => 5, new Date(5), { valueOf: () => 5 }];
const COUNTS = [NaN, Infinity, -Infinity, -1, 0.5, -0.5, 2 ** 53 + 2];
const LONGS = [...COUNTS, -(2 ** 31), 2 ** 32, 2 ** 33 + 5];

// An argument is its name, and what it is not, each with the kind of error.
const by = (Kind) => (value) => [value, Kind];
const other = (name, values) => [name, values.map(by(TypeError))];
const number = (name, ranges, others = KINDS) => [name, [...others.map(by(TypeError)), ...ranges.map(by(RangeError))]];
/** One that has to be given. */
const needed = (name, ranges) => number(name, ranges, [undefined, ...KINDS]);

/** A view whose buffer was handed on, and where this engine has such buffers one whose buffer is too short by now. */
function gone(Kind) {
  const moved = new Kind(4);
  structuredClone(moved.buffer, { transfer: [moved.buffer] });
  const buffer = new ArrayBuffer(64, { maxByteLength: 64 });
  if (!buffer.resizable) return [moved];
  const cut = new Kind(buffer, 32, 1);
  buffer.resize(8);
  return [moved, cut];
}

function lists(name) {
  const none = [undefined, null, 5, NaN, "12", true, () => 0, Symbol("0"), {}, new Set([1]), new ArrayBuffer(8)];
  const lengths = [-1, NaN, Infinity, 1.5, "2", null].map((length) => ({ length }));
  const texts = [["0"], [undefined], [null], [0n], new Array(1), { length: 1 }, new BigInt64Array(1)];
  const numbers = [[NaN], [-1], [2 ** 32], [0.5], Float64Array.of(0.5), Int32Array.of(-1), [0, Infinity]];
  const kinds = [...none, new DataView(new ArrayBuffer(8)), ...lengths, ...texts, ...gone(Uint32Array), ...gone(Uint8Array)];
  return number(name, numbers, kinds);
}

function notBytes() {
  const none = [undefined, null, 0, 5, NaN, "abc", "", true, 5n, Symbol("5"), () => 0];
  const objects = [{}, [], [0, 0, 3, 0xf3], { length: 4 }, new Set()];
  const wide = [Uint16Array.of(0x3f3, 5), new Uint32Array(1), new Int16Array(0), new Float64Array(1), new BigUint64Array(1)];
  const buffers = [new ArrayBuffer(8), new DataView(new ArrayBuffer(8)), Object.create(Uint8Array.prototype)];
  return [...none, ...objects, ...wide, ...buffers, ...gone(Uint8Array), ...gone(Int8Array)];
}

/** An Input that was freed, with a view of it that was kept. */
function freed(hunk) {
  const input = hunk.alloc(8);
  const { bytes } = input;
  input.free();
  return [input, bytes];
}

/** What is no bytes for a library: also what is of its memory, and of no Input. */
function bytesOf(hunk) {
  const [input, view] = freed(hunk);
  return (name) => other(name, [...notBytes(), input, view, new Uint8Array(view.buffer)]);
}

/** What is no list of parts. */
function noParts() {
  const none = [undefined, null, 5, "x", true, {}, new Set(), new Uint8Array(4), [5], [null], ["x"], [{}], [{ what: "1" }], [{ what: 5n }]];
  const unit = (field) => [{ what: 2 }, { what: 2, ...field }];
  const fields = [{ word: "1" }, { value: null }, { content: 5 }, { content: [1] }, { content: new Uint16Array(2) }, { offsets: 5 }];
  const views = [...gone(Uint8Array)].map((content) => ({ content }));
  const numbers = [{ word: 2 ** 32 }, { word: -1 }, { value: 0.5 }, { value: NaN }, { content: "\u0100" }, { offsets: [2 ** 32] }];
  return number("parts", [[{ what: 7 }], [{ what: 0 }], ...numbers.map(unit)], [...none, ...[...fields, ...views].map(unit)]);
}

/** What each call of a library is given by right, and then its arguments. */
function callsOf(hunk, file) {
  const bytes = bytesOf(hunk);
  const table = hunk.table(file);
  const tables = [undefined, null, 5, "x", {}, [], { ...table, rows: [] }, { ...table, rows: hunk.blocks(file).rows }];
  const sizes = [{ ...table, header: "28" }, { ...table, size: undefined }];
  const ranges = [{ ...table, header: -1 }, { ...table, size: NaN }];
  const place = [file, [0], 0, new Uint8Array(8)];
  const calls = {
    alloc: [[16], needed("length", COUNTS)],
    put: [[file], bytes("bytes")],
    reason: [[5], needed("number", LONGS)],
    reasonText: [[5], needed("number", LONGS)],
    table: [[file, 100], bytes("bytes"), number("budget", COUNTS)],
    load: [[file, [0], 100], bytes("bytes"), lists("bases"), number("budget", COUNTS)],
    loadAt: [place, bytes("bytes"), lists("bases"), needed("start", LONGS), bytes("memory")],
    loadPacked: [[file, 0, 100], bytes("bytes"), needed("base", LONGS), number("budget", COUNTS)],
    begin: [[table, [0]], number("table", ranges, [...tables, ...sizes]), lists("bases")],
    inputPlace: [[file, 0], bytes("bytes"), needed("place", COUNTS)],
    build: [[[{ what: 1, word: 1 }, { what: 3, word: 0x3eb, value: 1 }, { what: 3, word: 0x3f2 }]], noParts()],
    wide: [[file, () => 0], bytes("bytes"), other("call", [undefined, null, 5, "x", {}, [], Symbol("x")])],
  };
  const most = number("most", COUNTS.filter((it) => it !== Infinity));
  for (const name of TABLES) calls[name] = [[file, 5], bytes("bytes"), most];
  for (const name of ["spelling", "plain", "strip", "front"]) calls[name] = [[file], bytes("bytes")];
  return calls;
}

/** Whether an error is of this kind, and names the argument. */
const tells = (error, Kind, name) => error?.constructor === Kind && new RegExp(`^${name}(\\[|\\.|:)`).test(error.message);

/** Calls with what is right, and with all that is wrong in the place of each argument. */
function holdCall(what, call, [right, ...given]) {
  const use = (...values) => call(...values)?.free?.();
  const refused = thrown(() => use(...right));
  hold(`${what}, of what is right: ${refused}`, refused === null);
  for (const [place, [name, wrongs]] of given.entries()) {
    for (const [i, [value, Kind]] of wrongs.entries()) {
      const error = thrown(() => use(...right.map((it, at) => (at === place ? value : it))));
      hold(`${what}, ${name}, wrong value ${i}: ${error?.name}: ${error?.message}`, tells(error, Kind, name));
    }
  }
}

/** Every call that a class has is tried. */
function holdAll(Class, names) {
  const untried = Object.getOwnPropertyNames(Class.prototype).filter((it) => !REST.includes(it) && !names.includes(it));
  hold(`each call of ${Class.name} is tried: ${untried}`, untried.length === 0);
}

function holdLibrary(what, hunk, file) {
  const { from } = free(hunk);
  const calls = callsOf(hunk, file);
  holdAll(Hunk, Object.keys(calls));
  for (const [name, call] of Object.entries(calls)) {
    const { end } = free(hunk);
    holdCall(`${what}: ${name}`, (...values) => hunk[name](...values), call);
    hold(`${what}: ${name} takes nothing`, isFreeFrom(hunk, from) && free(hunk).end === end);
  }
}

function holdRows(what, hunk, file) {
  const { rows } = hunk.blocks(file);
  const indexes = [...COUNTS, 3, 2 ** 32];
  const fields = [undefined, null, 0, "", "x", "reserved", "toString", "__proto__", Symbol("place"), {}, ["place"]];
  const { at, get } = { at: (i) => rows.at(i), get: (i, name) => rows.get(i, name) };
  holdAll(Rows, ["at", "get", "column"]);
  holdCall(`${what}: rows.at`, at, [[2], needed("i", indexes)]);
  holdCall(`${what}: rows.get`, get, [[2, "place"], needed("i", indexes), other("name", fields)]);
  holdCall(`${what}: rows.column`, (name) => rows.column(name), [["place"], other("name", fields)]);
}

function holdLoader(what, hunk, file) {
  const loader = hunk.begin(hunk.table(file), [0]);
  const input = hunk.put(file);
  holdAll(Loader, ["feed"]);
  holdCall(`${what}: feed`, (bytes) => loader.feed(bytes), [[new Uint8Array()], other("bytes", [...notBytes(), input])]);
  input.free();
}

/** The functions that need no library. */
function holdFunctions(hunk, file) {
  const row = hunk.symbols(file).rows.at(0);
  const [input] = freed(hunk);
  const rows = [undefined, null, 5, "x", {}, [], { name: 0 }, { name: "0", nameBytes: 0 }, { name: 0n, nameBytes: 0n }];
  const ranges = [{ ...row, name: -1 }, { ...row, nameBytes: NaN }, { ...row, name: 0.5 }, { ...row, nameBytes: file.length }];
  holdCall("nameOf", nameOf, [[file, row], other("bytes", [...notBytes(), input]), number("row", ranges, rows)]);
  holdCall("kindName", kindName, [[0x3e9], needed("kind", [...LONGS, 2 ** 29])]);
  holdCall("entryKindName", entryKindName, [[1], needed("kind", [...LONGS, 256])]);
  holdCall("flagNames", flagNames, [[1], needed("flags", [...LONGS, 8])]);
  holdCall("faultName", faultName, [[1], needed("fault", LONGS)]);
  holdCall("warningName", warningName, [[1], needed("kind", LONGS)]);
}

/** What is no module. */
async function holdOpen() {
  const empty = Uint8Array.of(0, 97, 115, 109, 1, 0, 0, 0);
  for (const source of [null, 5, "hunk.wasm", true, {}, [], Symbol("x"), () => 0, empty, new WebAssembly.Module(empty)]) {
    const error = await Hunk.open(source).catch((it) => it);
    hold(`no module: ${error?.message}`, error?.constructor === TypeError && /^(source:|Hunk.open )/.test(error.message));
  }
}

const file = await readFile(process.argv[2]);
for (const [name, module] of await modules()) {
  const hunk = await Hunk.open(module);
  holdLibrary(name, hunk, file);
  holdRows(name, hunk, file);
  holdLoader(name, hunk, file);
  holdFunctions(hunk, file);
  const input = (await Hunk.open(module)).put(file);
  holdCall(`${name}: an Input of another library`, (it) => hunk.check(it), [[file], other("bytes", [input])]);
}
await holdOpen();
finish();
