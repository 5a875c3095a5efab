// A byte as a link says it, whichever file it is of: at=24 is that of the file, and at=1:8 the one at offset 8 of hunk
// 1 in memory, both in hexadecimal, but for the number of the hunk.

import { hex, lastAt, numberOf } from "./names.js";
import { filePlace } from "./places.js";

const LONG = 4;

/** What a link says of a byte of the memory or of the file; nothing of the first of the file.
 * @param {import("./file.js").Examined} examined
 * @param {{ memory?: number, file?: number }} byte */
export function byteText(examined, { memory, file }) {
  if (memory === undefined) return file > 0 ? hex(file, 1) : "";
  const hunk = lastAt(examined.starts, memory);
  return `${hunk}:${hex(memory - examined.starts[hunk], 1)}`;
}

/** The bytes that a link says of a file; null where it says none that are there.
 * @param {import("./file.js").Examined} examined
 * @param {string} said
 * @returns {import("./places.js").Target | null} */
export function rangeOf(examined, said) {
  const [, number, offset] = /^(\d{1,5}):(.+)$/.exec(said) ?? [];
  const at = numberOf(offset ?? said);
  if (at === null) return null;
  if (number === undefined) {
    return at < examined.input.length ? { file: { from: filePlace(at), to: filePlace(at + LONG) } } : null;
  }
  const hunk = Number(number);
  const memory = hunk < (examined.table?.rows.length ?? 0) ? examined.inMemory(hunk, at, LONG) : undefined;
  if (!memory) return null;
  const place = examined.contents().place(hunk, at);
  return { memory, file: place === undefined ? undefined : examined.range(place, LONG) };
}
