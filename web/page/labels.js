// The names that are shown beside bytes: of blocks in a file, and of symbols in its memory.

import { blockName, hex, lastAt, lastOf, nameText } from "./names.js";

/** The places from one byte to before another, of a list in which they rise. */
function placesBetween(rows, from, to, call) {
  const place = (i) => rows.get(i, "place");
  for (let i = lastOf(rows.length, place, from - 1) + 1; i < rows.length && place(i) < to; i++) call(i, place(i));
}

/** What begins in these bytes of a file: its header, units and blocks.
 * @param {import("./file.js").Examined} file
 * @param {import("./places.js").FilePlace} first
 * @param {import("./places.js").FilePlace} end */
export function namesInFile(file, first, end) {
  const [from, to] = [file.inText(first), end < file.end ? file.inText(end) : file.about.length];
  const found = file.table && from === 0 ? [[0, "HEADER"]] : [];
  if (!file.table) placesBetween(file.list("units").rows, from, to, (_, place) => found.push([place, "UNIT"]));
  placesBetween(file.blocks, from, to, (i, place) => {
    const type = file.typeOf(file.blocks.at(i));
    if (type !== undefined) found.push([place, blockName(type)]);
  });
  return found.sort((one, other) => Number(one[0]) - Number(other[0])).map(([, name]) => name);
}

/** As many rows as a list has at most: a place and a row in one number are below 2^53, and are sorted together. */
const MOST_ROWS = 2 ** 21;

/** The symbols of a load file by where they stand in its memory. */
export class Labels {
  constructor(file) {
    const { rows } = file.list("symbols");
    const both = new Float64Array(rows.length);
    let count = 0;
    for (let i = 0; i < rows.length; i++) {
      const hunk = rows.get(i, "hunk");
      const value = rows.get(i, "value");
      // One that stands behind its hunk would be shown in another.
      if (value < file.table.rows.get(hunk, "bytes")) both[count++] = (file.starts[hunk] + value) * MOST_ROWS + i;
    }
    this.file = file;
    this.sorted = both.subarray(0, count).sort();
  }

  #place(i) {
    return Math.floor(this.sorted[i] / MOST_ROWS);
  }

  #name(i) {
    const { bytes, lists } = this.file;
    return nameText(bytes, lists.symbols.rows.at(this.sorted[i] % MOST_ROWS));
  }

  /** The number of the first label that stands at this byte or after it. */
  #first(at) {
    return lastOf(this.sorted.length, (i) => this.#place(i), at - 1) + 1;
  }

  isAt(at) {
    const first = this.#first(at);
    return first < this.sorted.length && this.#place(first) === at;
  }

  /** The names from a byte to before another: so many at most. */
  between(from, to, most) {
    const found = [];
    for (let i = this.#first(from); i < this.sorted.length && this.#place(i) < to; i++) {
      if (found.length === most) return [...found, "…"];
      found.push(this.#name(i));
    }
    return found;
  }

  get count() {
    return this.sorted.length;
  }

  /** The last label of a hunk that is not after an offset of it, and how far after it that stands: {name, past}; null
   * where there is none, or the offset is not in the hunk. */
  nearest(hunk, offset) {
    const { starts, table } = this.file;
    const at = starts[hunk] + offset;
    const last = offset < table.rows.get(hunk, "bytes") ? lastOf(this.sorted.length, (i) => this.#place(i), at) : -1;
    if (last < 0 || this.#place(last) < starts[hunk]) return null;
    const place = this.#place(last);
    return { name: this.#name(this.#first(place)), past: at - place };
  }

  /** The same of a byte of the memory, as text. */
  before(at) {
    const { starts } = this.file;
    const hunk = lastAt(starts, at);
    const found = this.nearest(hunk, at - starts[hunk]);
    if (!found) return "";
    return found.name + (found.past === 0 ? "" : ` + ${hex(found.past, 1)}`);
  }
}
