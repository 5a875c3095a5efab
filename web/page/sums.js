// Sums by which the same program is known again, whatever else its file has, by docs/SUMS.md.

import { KINDS } from "../../bindings/javascript/kinds.js";
import { isContent } from "./names.js";
import { sha256 } from "./sha256.js";

const LONG = 4;

/** The bytes of longwords, high byte first. */
function longs(...values) {
  const view = new DataView(new ArrayBuffer(LONG * values.length));
  values.forEach((value, i) => view.setUint32(LONG * i, value));
  return new Uint8Array(view.buffer);
}

/** A content without the zero longwords at its end. */
function withoutZeros(content) {
  let end = content.length;
  while (end > 0 && content[end - 1] === 0) end -= 1;
  return content.subarray(0, LONG * Math.ceil(end / LONG));
}

/** A target and an offset in one number, below 2^53, so that they are sorted together. */
const OFFSETS = 2 ** 32;

/** Whether the relocated longwords at these offsets are the same or do not overlap: else it counts which comes
 * first. */
function areApart(keys) {
  const offsets = keys.map((it) => it % OFFSETS).sort();
  return offsets.every((offset, i) => i === 0 || offset === offsets[i - 1] || offset - offsets[i - 1] >= LONG);
}

/** The relocations of a hunk: for each target how many offsets it has, the target, and the offsets, all rising. */
function groupsOf(keys) {
  const parts = [];
  for (let first = 0; first < keys.length; ) {
    const target = Math.floor(keys[first] / OFFSETS);
    let end = first;
    while (end < keys.length && keys[end] < (target + 1) * OFFSETS) end += 1;
    const offsets = Array.from(keys.subarray(first, end), (it) => it % OFFSETS);
    parts.push(longs(offsets.length, target), ...split(offsets));
    first = end;
  }
  return parts;
}

/** A call takes no million of arguments. */
function split(values) {
  const parts = [];
  for (let i = 0; i < values.length; i += 1024) parts.push(longs(...values.slice(i, i + 1024)));
  return parts;
}

/** What is relocated in each hunk, sorted: a number for each offset. */
function relocatedOf(relocations, hunks) {
  const found = Array.from({ length: hunks }, () => []);
  for (let i = 0; i < relocations.length; i++) {
    found[relocations.get(i, "hunk")].push(relocations.get(i, "target") * OFFSETS + relocations.get(i, "offset"));
  }
  return found.map((keys) => Float64Array.from(keys).sort());
}

/** The file that all load files with the same table and memory have in common; null where relocated longwords
 * overlap. */
export function canonical(hunk, bytes) {
  const { rows, hunks } = hunk.blocks(bytes);
  const relocated = relocatedOf(hunk.relocations(bytes).rows, hunks);
  if (!relocated.every(areApart)) return null;
  const parts = [bytes.subarray(0, rows.get(0, "place"))];
  for (const row of rows) {
    if (!isContent(row.kind)) continue;
    const content = withoutZeros(bytes.subarray(row.content, row.content + row.contentBytes));
    const keys = relocated[row.hunk];
    parts.push(longs(KINDS.CODE, content.length / LONG), content);
    if (keys.length > 0) parts.push(longs(KINDS.RELOC32), ...groupsOf(keys), longs(0));
    parts.push(longs(KINDS.END));
  }
  return parts;
}

/** The names of the sums, in the order in which one is looked for that another file has. */
export const SUMS = ["file", "program", "memory"];

/** The sums of a file: of its bytes; of its program and memory, where its text, in the plain spelling, is accepted. An
 * object file has no memory, nor has one whose relocated longwords overlap.
 * @returns {{ file: string, program?: string, memory?: string }} */
export function sumsOf(hunk, input, text, isLoad) {
  const file = sha256(input);
  if (!text) return { file };
  const parts = isLoad ? canonical(hunk, text) : null;
  return { file, program: sha256(hunk.strip(text).text), memory: parts ? sha256(...parts) : undefined };
}
