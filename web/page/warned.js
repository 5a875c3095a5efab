// Warnings of a load file that is accepted: what they are, by docs/warnings.tsv, and where they stand in the file and
// its memory.

import { MEMORIES, WARNINGS } from "../../bindings/javascript/kinds.js";
import { counted, hex, lastAt, longAt, nameText } from "./names.js";
import { textPlace } from "./places.js";
import { WARNING_TEXTS } from "./data.js";

/** @typedef {import("./file.js").Examined} Examined */
/** @typedef {import("../../bindings/javascript/hunk.js").Warning} Warning */

const LONG = 4;
/** As many rows as a list has at most: a place and a row in one number are below 2^53. */
const MOST_ROWS = 2 ** 21;

/** A later library may have other kinds. */
const textsOf = (kind) => WARNING_TEXTS[kind] ?? [`kind ${kind}`, "", "", ""];

/** Whether it is of a longword that is relocated, and so of one in memory. */
const isOfRelocation = (kind) => kind <= WARNINGS.OutsideTarget;

/** What a row has of its own; nothing where it has no more than its kind means. */
function detailOf(file, { kind, place, target, value, other }) {
  if (kind === WARNINGS.Overlap) return `with that at ${hex(other)}`;
  if (kind === WARNINGS.OutsideTarget) return `hunk ${target} + ${hex(value)}`;
  if (kind === WARNINGS.MemoryIgnored) return `${MEMORIES[value] ?? value} memory`;
  if (kind !== WARNINGS.SymbolOutside) return "";
  const nameBytes = LONG * (longAt(file.bytes, place) & 0xffffff);
  return nameText(file.bytes, { name: place + LONG, nameBytes });
}

/** The offset of its hunk that a row is of, as text; nothing where it is of the hunk itself. */
export function offsetText(row) {
  if (isOfRelocation(row.kind)) return hex(row.offset);
  return row.kind === WARNINGS.SymbolOutside ? hex(row.value) : "";
}

export function warningText(file, row) {
  const [name, meaning] = textsOf(row.kind);
  return `${name}: ${detailOf(file, row) || meaning}`;
}

/** Where a row stands.
 * @param {Examined} file
 * @param {Warning} row
 * @returns {import("./places.js").Target} */
export function warningTarget(file, row) {
  const inFile = file.range(textPlace(row.place), LONG);
  if (row.kind === WARNINGS.SymbolOutside) return { file: inFile };
  const [offset, bytes] = isOfRelocation(row.kind) ? [row.offset, LONG] : [0, Infinity];
  return { file: inFile, memory: file.inMemory(row.hunk, offset, bytes) };
}

/** A line for each kind that a file has: how many, what they mean, what comes of them, and what a developer does. */
export function warningsText(file) {
  const { rows } = file.list("warnings");
  const counts = new Map();
  for (let i = 0; i < rows.length; i++) {
    const kind = rows.get(i, "kind");
    counts.set(kind, (counts.get(kind) ?? 0) + 1);
  }
  const lines = [...counts].sort(([one], [other]) => one - other).map(([kind, count]) => {
    const [name, meaning, effect, developer] = textsOf(kind);
    return `${name}, ${counted(count, "warning")}: ${meaning}; ${effect}. Developer: ${developer}.`;
  });
  return lines.join("\n");
}

/** The warnings of a file by their places. */
export class Warned {
  /** @param {Examined} file */
  constructor(file) {
    const { rows } = file.list("warnings");
    this.rows = rows;
    this.places = Float64Array.from({ length: rows.length }, (_, i) => file.inFile(textPlace(rows.get(i, "place"))));
    this.hunks = new Float64Array(file.table?.rows.length ?? 0);
    const both = new Float64Array(rows.length);
    let count = 0;
    for (let i = 0; i < rows.length; i++) {
      const hunk = rows.get(i, "hunk");
      this.hunks[hunk] += 1;
      if (!isOfRelocation(rows.get(i, "kind"))) continue;
      both[count++] = (file.starts[hunk] + rows.get(i, "offset")) * MOST_ROWS + i;
    }
    this.sorted = both.subarray(0, count).sort();
    this.memory = this.sorted.map((it) => Math.floor(it / MOST_ROWS));
  }

  /** The names of those with the longword to which a byte of the file belongs; nothing where there is none. */
  inFile(at) {
    return this.#names(this.places, at, (i) => i);
  }

  /** The same for a byte of the memory. */
  inMemory(at) {
    return this.#names(this.memory, at, (i) => this.sorted[i] % MOST_ROWS);
  }

  #names(places, at, rowOf) {
    const last = lastAt(places, at);
    if (last < 0 || at >= places[last] + LONG) return "";
    const found = new Set();
    for (let i = last; i >= 0 && places[i] === places[last]; i--) {
      found.add(textsOf(this.rows.get(rowOf(i), "kind"))[0]);
    }
    return [...found].reverse().join(", ");
  }
}
