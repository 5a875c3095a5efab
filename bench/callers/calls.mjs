// calls.mjs HUNK.js MODULE FILE..: as calls.c, by the package of bindings/javascript. `column` is a sum of two columns, and `view`
// what a plain reader of the file by a DataView takes, which makes the same objects.
import { readFileSync } from "node:fs";
import { resolve } from "node:path";
import { pathToFileURL } from "node:url";

const ROUNDS = 25;
const LEAST = 4000;

const [script, module, ...paths] = process.argv.slice(2);
const { Hunk } = await import(pathToFileURL(resolve(script)));
const hunk = await Hunk.open(readFileSync(module));
let sum = 0;

function took(act, times) {
  const start = process.cpuUsage();
  for (let i = 0; i < times; i++) act();
  const { user, system } = process.cpuUsage(start);
  return user + system;
}

function tell(file, what, act) {
  let times = 1;
  while (took(act, times) < LEAST) times *= 2;
  const least = Math.min(...Array.from({ length: ROUNDS }, () => took(act, times)));
  console.log(file, what, (least / times).toFixed(2));
}

const bytesOf = (view, at) => 4 * view.getUint32(at);
const RELOC32 = 0x3ec;
const [SYMBOL, END] = [0x3f0, 0x3f2];

/** The relocations, or the symbols, of a load file whose hunks have CODE or DATA and then one block of these. */
function* read(bytes) {
  const view = new DataView(bytes.buffer, bytes.byteOffset, bytes.byteLength);
  let at = 20 + bytesOf(view, 8);
  for (let hunk = 0; at < bytes.length; hunk++) {
    at += 8 + bytesOf(view, at + 4);
    const kind = view.getUint32(at);
    at += 4;
    for (let count = view.getUint32(at); kind !== END && count !== 0; count = view.getUint32(at)) {
      if (kind === SYMBOL) {
        const row = { place: at, unit: 0, hunk, name: at + 4, nameBytes: 4 * count, value: view.getUint32(at + 4 + 4 * count) };
        while (bytes[row.name + row.nameBytes - 1] === 0) row.nameBytes -= 1;
        yield row;
        at += 8 + 4 * count;
        continue;
      }
      const target = view.getUint32(at + 4);
      for (const end = at + 8 + 4 * count, first = at + 8; (at = at < first ? first : at + 4) < end; ) {
        yield { place: at, unit: 0, hunk, kind: RELOC32, width: 4, target, offset: view.getUint32(at) };
      }
    }
    at += kind === END ? 0 : 8;
  }
}

const ofSymbol = (row) => row.value + row.nameBytes;
const ofRelocation = (row) => row.offset + row.target;

for (const path of paths) {
  const bytes = readFileSync(path);
  const input = hunk.put(bytes);
  const [name, of, fields] =
    path === "symbols" ? ["symbols", ofSymbol, ["value", "nameBytes"]] : ["relocations", ofRelocation, ["offset", "target"]];
  const { rows } = hunk[name](input);
  const total = (each) => {
    let all = 0;
    for (const row of each) all += of(row);
    return all;
  };
  if (total(rows) !== total(read(bytes))) throw new Error(`${path}: the plain reader reads something else`);
  tell(path, "load", () => (sum += hunk.loadPacked(input, 0x1000).bytes));
  tell(path, "list", () => {
    const other = hunk.put(bytes);
    sum += hunk[name](other).count;
    other.free();
  });
  tell(path, "rows", () => (sum += total(rows)));
  tell(path, "view", () => (sum += total(read(bytes))));
  tell(path, "column", () => {
    let all = 0;
    for (const field of fields) for (const it of rows.column(field)) all += it;
    sum += all;
  });
  input.free();
}
