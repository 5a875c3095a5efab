// Each answer of a module on files, and all that it writes, as dump.c prints them of the library:
// node dump.mjs MODULE.wasm [in-place] < NAMES, of files in this folder. With in-place each file is read into the module's memory
// once, and so is the memory that hunks are loaded to.
import { readFileSync } from "node:fs";
import { Hunk, HunkError, nameOf } from "../../bindings/javascript/hunk.js";

const BUDGET = 1 << 20;
const BASE = 0xfffff000;
const PIECE = 7;
const TABLES = ["check", "units", "blocks", "symbols", "relocations", "entries", "references", "parts", "warnings"];

const lines = [];
const say = (line) => lines.push(line);

function sum(bytes) {
  let h = 2166136261;
  for (const byte of bytes) h = Math.imul(h ^ byte, 16777619);
  return (h >>> 0).toString(16).padStart(8, "0");
}

/** What a call answers, or nothing: then a line says why it refuses. */
function attempt(name, call) {
  try {
    return call();
  } catch (error) {
    if (!(error instanceof HunkError)) throw error;
    say(`${name} refused ${error.number} ${error.hunk} ${error.place} ${error.count}`);
    return null;
  }
}

function sayName(bytes, row) {
  const digits = [...nameOf(bytes, row)].map((c) => c.charCodeAt(0).toString(16).padStart(2, "0"));
  say(`  = ${digits.join("")}`);
}

function list(hunk, name, bytes) {
  const listed = attempt(name, () => hunk[name](bytes));
  if (!listed) return;
  say(`${name} ${listed.hunks} ${listed.bytes} ${listed.rows.length}`);
  for (const row of listed.rows) {
    say(`  ${Object.values(row).join(" ")}`);
    if ("nameBytes" in row) sayName(bytes, row);
  }
}

function sayLoaded(name, loaded) {
  if (!loaded) return;
  say(`${name} ${loaded.hunks} ${loaded.bytes} ${loaded.memory.length}`);
  say(`  ${sum(loaded.memory)}`);
}

function feedAll(loader, bytes, from) {
  let wants = 0;
  let at = from;
  try {
    while (at < bytes.length) {
      const want = loader.want();
      wants = (Math.imul(wants, 31) + want.bytes + 7 * want.place + 13 * want.hunks) >>> 0;
      const piece = bytes.subarray(at, at + PIECE);
      const taken = loader.feed(piece);
      at += taken;
      if (taken < piece.length) break;
    }
    return { wants, error: null };
  } catch (error) {
    return { wants, error };
  }
}

function stream(hunk, bytes, table, bases) {
  const loader = hunk.begin(table, bases);
  const { wants, error } = feedAll(loader, bytes.bytes ?? bytes, table.header);
  const loaded = attempt("stream", () => {
    if (error) throw error;
    return { ...loader.end(), memory: loader.memory() };
  });
  sayLoaded("stream", loaded);
  say(`  wants ${wants}`);
}

/** Each hunk to its own place, the last first. */
function place(hunk, bytes, table) {
  const bases = new Uint32Array(table.rows.length);
  const start = Math.floor(BASE / 2);
  let at = start;
  for (let h = bases.length - 1; h >= 0; h--) {
    bases[h] = at;
    at += table.rows.get(h, "bytes");
  }
  const memory = isInPlace ? hunk.put(new Uint8Array(table.size)) : new Uint8Array(table.size);
  const placed = attempt("at", () => hunk.loadAt(bytes, bases, start, memory));
  sayLoaded("at", placed && { ...placed, memory: memory.bytes ?? memory });
  if (isInPlace) memory.free();
}

function loadFile(hunk, bytes) {
  const table = attempt("table", () => hunk.table(bytes, BUDGET));
  if (!table) return;
  say(`table ${table.rows.length} ${table.header} ${table.size}`);
  for (const row of table.rows) say(`  ${Object.values(row).join(" ")}`);
  const bases = Uint32Array.from(table.rows, (_, h) => BASE + 0x10000 * h);
  sayLoaded("load", attempt("load", () => hunk.load(bytes, bases, BUDGET)));
  sayLoaded("packed", attempt("packed", () => hunk.loadPacked(bytes, BASE, BUDGET)));
  stream(hunk, bytes, table, bases);
  place(hunk, bytes, table);
}

function stripFile(hunk, bytes) {
  const stripped = attempt("strip", () => hunk.strip(bytes));
  if (!stripped) return;
  say(`strip ${stripped.hunks} ${stripped.bytes} ${stripped.text.length}`);
  say(`  ${sum(stripped.text)}`);
}

function plainFile(hunk, bytes) {
  const { bytes: length, shortBlocks, ends } = hunk.spelling(bytes);
  say(`plain ${length} ${shortBlocks} ${ends}`);
  say(`  ${sum(hunk.plain(bytes))} ${hunk.inputPlace(bytes, length)}`);
}

function frontOfFile(hunk, bytes) {
  const { hunks, bytes: place, text } = hunk.front(bytes);
  say(`front ${hunks} ${place} ${text.length}`);
  say(`  ${sum(text)}`);
}

const [module, way] = process.argv.slice(2);
const isInPlace = way === "in-place";
const hunk = await Hunk.open(readFileSync(module));
say(`abi ${hunk.abi()}`);
for (let number = 0; number < 40; number++) say(`${number} ${hunk.reason(number)}: ${hunk.reasonText(number)}`);
for (const name of readFileSync(0, "utf8").split("\n").filter(Boolean)) {
  const file = new Uint8Array(readFileSync(name));
  const bytes = isInPlace ? hunk.put(file) : file;
  say(`== ${name}`);
  for (const table of TABLES) list(hunk, table, bytes);
  stripFile(hunk, bytes);
  plainFile(hunk, bytes);
  frontOfFile(hunk, bytes);
  loadFile(hunk, bytes);
  if (isInPlace) bytes.free();
  if (lines.length > 100000) process.stdout.write(lines.splice(0).join("\n") + "\n");
}
process.stdout.write(lines.join("\n") + "\n");
