// Holds a module to the rows of the conformance suite, and to what vectors/every prints:
// node vectors.mjs MODULE.wasm LOAD.tsv OBJECTS.tsv EVERY WARNINGS.tsv. Prints what differs, and then how many answers were
// compared.
import { readFileSync } from "node:fs";
import { Hunk, HunkError, WARNINGS } from "../../bindings/javascript/hunk.js";

const BUDGET = 1 << 20;
const BUDGET_NUMBER = 27;
const BASE = 0x21000;

const unhex = (text) => Uint8Array.from(text.match(/../g) ?? [], (digits) => parseInt(digits, 16));
const hex = (bytes) => Array.from(bytes, (byte) => byte.toString(16).padStart(2, "0")).join("");
const same = (one, other) => one.length === other.length && one.every((byte, i) => byte === other[i]);
const isObject = (bytes) => bytes.length >= 4 && bytes[0] + bytes[1] === 0 && bytes[2] === 3 && bytes[3] === 0xe7;

/** What a call comes to, in the words of the suite. */
function told(call) {
  try {
    return call();
  } catch (error) {
    if (!(error instanceof HunkError)) throw error;
    return `refused ${error.place} ${error.number}`;
  }
}

/** Loads the bytes in one call and by a loader: both have to come to the same. */
function loaded(hunk, bytes) {
  const table = hunk.table(bytes, BUDGET);
  let at = BASE;
  const bases = Uint32Array.from(table.rows, (row) => (at += row.bytes) - row.bytes);
  const loader = hunk.begin(table, bases);
  const packed = told(() => hunk.loadPacked(bytes, BASE, BUDGET).memory);
  const fed = told(() => {
    loader.feed(bytes.subarray(table.header));
    loader.end();
    return loader.memory();
  });
  if (typeof fed === "string") return fed === packed ? fed : `${fed} by a loader, ${packed} in one call`;
  if (!same(packed, fed)) return "another memory by a loader";
  return `accepted ${table.rows.length} ${fed.length}`;
}

/** The file as either kind; the units of an object file, and what a load file declares. */
function checked(hunk, bytes) {
  const { hunks, rows } = hunk.check(bytes);
  if (hunks === 0) return `accepted ${hunk.units(bytes).rows.length} ${rows.length}`;
  let declared = 0;
  for (const row of hunk.table(bytes, 2 ** 53).rows) declared += row.bytes;
  return `accepted ${hunks} ${declared}`;
}

const LISTS = ["check", "units", "blocks", "symbols", "relocations", "entries", "references", "warnings"];

/** Whether each row has, one by one and in its columns, the numbers that its object has. */
function agree(rows) {
  const is = (i, name, value) => rows.get(i, name) === value && rows.column(name)[i] === value;
  return [...rows].every((row, i) => Object.entries(row).every(([name, value]) => is(i, name, value)));
}

function declaresTooMuch(hunk, bytes) {
  return told(() => hunk.table(bytes, BUDGET)).toString().endsWith(` ${BUDGET_NUMBER}`);
}

const [module, ...tables] = process.argv.slice(2);
const hunk = await Hunk.open(readFileSync(module));
let compared = 0;
let failed = 0;

function hold(what, wanted, said) {
  compared += 1;
  if (said === wanted) return;
  failed += 1;
  console.log(`${what}: ${said}, and not ${wanted}`);
}

/** The cells of each row of a table. */
function rowsOf(table) {
  const lines = readFileSync(table, "utf8").split("\n");
  return lines.filter((it) => it && !it.startsWith("#")).map((line) => line.split("\t"));
}

for (const table of tables.slice(0, -1)) {
  for (const cells of rowsOf(table)) {
    const [hex, ...answer] = cells.slice(-4);
    const what = cells.slice(0, -4).join(" ");
    const wanted = answer.join(" ");
    const bytes = unhex(hex);
    const isOf = table.endsWith("objects.tsv") || (!table.endsWith("load.tsv") && isObject(bytes));
    if (isOf === isObject(bytes)) {
      hold(`${what}, checked`, wanted, told(() => checked(hunk, bytes)));
      const rows = () => (LISTS.every((name) => agree(hunk[name](bytes).rows)) ? wanted : "rows that differ from their fields");
      hold(`${what}, its rows`, wanted, told(rows));
      hold(`${what}, stripped`, wanted, told(() => hunk.strip(bytes) && wanted));
    }
    if (!isOf && !declaresTooMuch(hunk, bytes)) hold(`${what}, loaded`, wanted, told(() => loaded(hunk, bytes)));
  }
}
// Each warning has to have a kind that the package knows.
const known = Object.values(WARNINGS);
const warned = (row) => (known.includes(row.kind) ? Object.values(row).join(" ") : "a kind that has no name");
for (const [name, digits, wanted] of rowsOf(tables.at(-1))) {
  const bytes = unhex(digits);
  hold(`${name}, its warnings`, wanted, told(() => [...hunk.warnings(bytes).rows].map(warned).join("; ")));
}
// A short block, and no END; then with a target that is no hunk, which is refused at its 16-bit word.
const wide = unhex("000003f30000000000000001000000000000000000000002000003e900000002" + "0000000000000000000003fc0001000000000000");
const bad = Uint8Array.from(wide).fill(5, 47, 48);
const spelled = ({ bytes, shortBlocks, ends }) => `${bytes} ${shortBlocks} ${ends}`;
hold("a wide spelling", "64 1 1", spelled(hunk.spelling(wide)));
hold("loaded of it", "00021000", told(() => hunk.wide(wide, (plain) => hex(hunk.loadPacked(plain, BASE).memory.slice(0, 4)))));
hold("refused of it", "refused 46 23", told(() => hunk.wide(bad, (plain) => hunk.check(plain))));
console.log(`${compared} answers`);
process.exit(failed > 0 ? 1 : 0);
