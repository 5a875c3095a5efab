// What the tests of the package share: what is not so, what a call throws, and whether a module's memory is given back.
import { readFile } from "node:fs/promises";
import { takesMemory64 } from "hunk-files";

/** How many lines of what is not so are printed, and how much of each. */
const MOST_LINES = 20;
const MOST_TEXT = 1000;
let failed = 0;

/** Prints what is not so. */
export function hold(what, isSo) {
  if (isSo) return;
  failed += 1;
  if (failed <= MOST_LINES) console.log(`not so: ${what.slice(0, MOST_TEXT)}`);
}

/** The end of a test: `as promised`, or status 1. */
export function finish() {
  if (failed === 0) console.log("as promised");
  process.exit(failed > 0 ? 1 : 0);
}

/** What a call throws; null where it does not. */
export function thrown(call) {
  try {
    call();
    return null;
  } catch (error) {
    return error;
  }
}
export const refuses = (kind, call) => thrown(call) instanceof kind;

/** The bytes of a file of the package. */
export const beside = (name) => readFile(new URL(`./node_modules/hunk-files/${name}`, import.meta.url));

/** The modules that this node takes, by their names. */
export async function modules() {
  const names = takesMemory64() ? ["hunk.wasm", "hunk32.wasm"] : ["hunk32.wasm"];
  return Promise.all(names.map(async (name) => [name, await WebAssembly.compile(await beside(name))]));
}

/** The first byte of a library's memory that nobody has, and where that memory ends. */
export function free(hunk) {
  const input = hunk.alloc(1);
  const { byteOffset: from, buffer } = input.bytes;
  input.free();
  return { from, end: buffer.byteLength };
}

/** Whether all is given back that was taken since the memory was free from a byte on. */
export function isFreeFrom(hunk, from) {
  const now = free(hunk);
  if (now.from !== from) return false;
  const all = hunk.alloc(now.end - from);
  const { byteOffset, buffer } = all.bytes;
  all.free();
  return byteOffset === from && buffer.byteLength === now.end;
}

/** Takes all that is free after the first byte that nobody has: whoever takes more makes the memory grow. */
export function fill(hunk) {
  const { from, end } = free(hunk);
  return hunk.alloc(end - from);
}
