// Where the contents of hunks stand in a file. The hunks are numbered through, whichever unit they are of.

import { blockName, isContent, lastOf } from "./names.js";
import { textPlace } from "./places.js";

/** The number of each unit's first hunk, and of one after the last. */
function firstHunks(units) {
  const firsts = new Float64Array(units.length + 1);
  for (let i = 0; i < units.length; i++) firsts[i + 1] = firsts[i] + units.get(i, "hunks");
  return firsts;
}

/** A unit and a hunk as one number that rises through a list: where the blocks are listed, no unit has as many
 * hunks. */
const orderOf = (unit, hunk) => unit * 2 ** 21 + hunk;

export class Contents {
  constructor(file) {
    this.file = file;
    this.blocks = file.blocks;
    this.firsts = file.table ? [0, file.table.rows.length] : firstHunks(file.list("units").rows);
    const found = [];
    for (let i = 0; i < this.blocks.length; i++) if (isContent(this.blocks.get(i, "kind"))) found.push(i);
    this.found = Uint32Array.from(found);
  }

  get count() {
    return this.found.length;
  }

  /** The number of a hunk of a unit; nothing where the unit has no such hunk. */
  number(unit, hunk) {
    const number = this.firsts[unit] + hunk;
    return number < this.firsts[unit + 1] ? number : undefined;
  }

  /** A field of the row of the block that is a hunk's content. */
  get(number, field) {
    return this.blocks.get(this.found[number], field);
  }

  /** The bytes of a hunk in memory. One whose content does not stand before the fault has none. */
  bytes(number) {
    const { table } = this.file;
    if (table) return table.rows.get(number, "bytes");
    return number < this.count ? this.get(number, "memory") : 0;
  }

  /** The number of its kind of memory. In an object file the block's word names it: its flags are an advisory bit, and
   * these. */
  memory(number) {
    const { table } = this.file;
    return table ? table.rows.get(number, "memory") : this.get(number, "flags") >> 1;
  }

  /** The name of the block; nothing where the blocks are too many to be listed. */
  name(number) {
    return number < this.count ? blockName(this.get(number, "kind")) : "";
  }

  /** The byte that comes to this offset of a hunk; nothing where that is not in the file. */
  place(number, offset) {
    if (!(number < this.count) || offset >= this.get(number, "contentBytes")) return undefined;
    return textPlace(this.get(number, "content") + offset);
  }

  /** Where a hunk stands: the block of its content in the file, and all of it in the memory. */
  target(number) {
    const { file } = this;
    const place = textPlace(number < this.count ? this.get(number, "place") : 0);
    return {
      file: number < this.count ? file.range(place, this.get(number, "bytes")) : undefined,
      memory: file.inMemory(number, 0, this.bytes(number)),
    };
  }
}

/** Which rows of a list are of one hunk: from the first to before the last, as a list is in the order of the file. */
export function rowsOfHunk(rows, unit, hunk) {
  const order = (i) => orderOf(rows.get(i, "unit"), rows.get(i, "hunk"));
  const own = orderOf(unit, hunk);
  return [lastOf(rows.length, order, own - 1) + 1, lastOf(rows.length, order, own) + 1];
}
