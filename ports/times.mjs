// node times.mjs MODULE.wasm FILE..: processor milliseconds that the calls of hunk.js take on each file, the least of
// five. Each call copies the file into the module's memory, which is counted. In a second line the file lies there before, and
// hunks are loaded to there.
import { readFileSync } from "node:fs";
import { Hunk, HunkError } from "../bindings/javascript/hunk.js";

const BASE = 0x21000;
const BUDGET = 2 ** 30;
const RUNS = 5;
/** The last byte of the word that an object file begins with. */
const OBJECT = 0xe7;

const [module, ...files] = process.argv.slice(2);
const hunk = await Hunk.open(readFileSync(module));
const CALLS = {
  load: (bytes) => hunk.loadPacked(bytes, BASE, BUDGET),
  check: (bytes) => hunk.check(bytes, 0),
  blocks: (bytes) => hunk.blocks(bytes, 0),
  strip: (bytes) => hunk.strip(bytes),
};

/** An object file is not loaded: its refusal is timed, as times.c does. */
function timed(call, bytes) {
  const began = process.cpuUsage();
  try {
    call(bytes);
  } catch (error) {
    if (!(error instanceof HunkError)) throw error;
  }
  const { user, system } = process.cpuUsage(began);
  return (user + system) / 1000;
}

/** Each call with its time. */
function told(calls, bytes) {
  const times = Object.entries(calls).map(([name, call]) => {
    const least = Math.min(...Array.from({ length: RUNS }, () => timed(call, bytes)));
    return `${name} ${least.toFixed(1)}`;
  });
  return times.join(" ");
}

/** The calls on a file in place. */
function callsOn(input, isObject) {
  const { load, ...calls } = CALLS;
  if (isObject) return calls;
  const { rows, size } = hunk.table(input, BUDGET);
  const memory = hunk.alloc(size);
  let at = BASE;
  const bases = Uint32Array.from(rows, (row) => (at += row.bytes) - row.bytes);
  return { loadAt: () => hunk.loadAt(input, bases, BASE, memory), ...calls };
}

for (const file of files) {
  const bytes = new Uint8Array(readFileSync(file));
  console.log(`${file} ${told(CALLS, bytes)}`);
  const input = hunk.put(bytes);
  console.log(`${file}, in place: ${told(callsOn(input, bytes[3] === OBJECT), input)}`);
  input.free();
}
