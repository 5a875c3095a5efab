// Blocks that are walked part by part: groups of offsets, symbols, and the entries of EXT. A zero longword ends each.

import { ENTRY_KINDS, KINDS } from "../../bindings/javascript/kinds.js";
import { placeIn } from "./fields.js";
import { counted, entryName, isCommon, isDefinition, lastAt, longAt, nameText } from "./names.js";

/** How far apart the starts are that are kept: from one of them a part is found quickly in a block of any size. */
const APART = 4096;

/** The bytes of a name, by the word that it stands behind. */
const nameBytes = (word) => 4 * (word & 0xffffff);

function bytesOfEntry(bytes, start, word) {
  const behind = start + 4 + nameBytes(word);
  const kind = word >>> 24;
  if (isDefinition(kind)) return behind + 4 - start;
  const counts = isCommon(kind) ? behind + 4 : behind;
  return counts + 4 + 4 * longAt(bytes, counts) - start;
}

function bytesOfPart(kind, bytes, start) {
  const word = longAt(bytes, start);
  if (word === 0) return 4;
  if (kind === KINDS.SYMBOL) return 8 + nameBytes(word);
  if (kind === KINDS.EXT) return bytesOfEntry(bytes, start, word);
  return 8 + 4 * word;
}

/** The parts of a block. */
export class Parts {
  constructor(bytes, row) {
    this.bytes = bytes;
    this.place = row.place;
    this.kind = row.kind;
    this.starts = [row.place + 4];
  }

  /** Where the part begins to which a byte belongs. */
  at(byte) {
    let start = this.starts[lastAt(this.starts, byte)];
    for (;;) {
      const next = start + bytesOfPart(this.kind, this.bytes, start);
      if (byte < next) return start;
      start = next;
      if (start >= this.starts.at(-1) + APART) this.starts.push(start);
    }
  }
}

/** A group: how many offsets, the hunk whose base is added, and the offsets. */
export function groupItem(file, row, start, from) {
  const count = longAt(file.bytes, start);
  const hunk = longAt(file.bytes, start + 4);
  if (from === start) {
    return { from, to: from + 4, name: "count", says: `${counted(count, "offset")} for hunk ${hunk}` };
  }
  if (from === start + 4) {
    return { from, to: from + 4, name: "target", says: `hunk ${hunk}`, targets: [placeIn(file, row.unit, hunk, 0)] };
  }
  const name = `offset ${((from - start) / 4 - 1).toLocaleString("en")} of ${count.toLocaleString("en")}`;
  const targets = [placeIn(file, row.unit, row.hunk, longAt(file.bytes, from))];
  return { from, to: from + 4, name, says: `the base of hunk ${hunk} is added there`, targets };
}

/** The word and the name that a symbol and an entry begin with; nothing for what comes behind. */
function namedItem(file, start, from, what) {
  const length = nameBytes(longAt(file.bytes, start));
  const behind = start + 4 + length;
  if (from >= behind) return null;
  const name = nameText(file.bytes, { name: start + 4, nameBytes: length });
  if (from > start) return { from: start + 4, to: behind, name: "name", says: name };
  return { from, to: from + 4, name: what, says: `${counted(length / 4, "longword")} of name: ${name}` };
}

export function symbolItem(file, row, start, from) {
  const named = namedItem(file, start, from, "symbol");
  if (named) return named;
  const targets = [placeIn(file, row.unit, row.hunk, longAt(file.bytes, from))];
  return { from, to: from + 4, name: "value", says: "offset in its hunk", targets };
}

/** What comes behind the name of an entry: a value; or a count and offsets, behind the size of a common block. */
function behindName(file, row, kind, behind, from) {
  const value = longAt(file.bytes, from);
  const item = { from, to: from + 4 };
  if (isDefinition(kind)) {
    if (kind === ENTRY_KINDS.ABS) return { ...item, name: "value", says: "absolute" };
    return { ...item, name: "value", says: "offset in its hunk", targets: [placeIn(file, row.unit, row.hunk, value)] };
  }
  const counts = isCommon(kind) ? behind + 4 : behind;
  if (from < counts) return { ...item, name: "size of the common block", says: counted(value, "byte") };
  if (from === counts) return { ...item, name: "count", says: counted(value, "offset") };
  const [number, count] = [(from - counts) / 4, longAt(file.bytes, counts)].map((it) => it.toLocaleString("en"));
  const name = `offset ${number} of ${count}`;
  return { ...item, name, says: "refers to the name there", targets: [placeIn(file, row.unit, row.hunk, value)] };
}

export function entryItem(file, row, start, from) {
  const word = longAt(file.bytes, start);
  const kind = word >>> 24;
  const named = namedItem(file, start, from, `${entryName(kind)} entry`);
  return named ?? behindName(file, row, kind, start + 4 + nameBytes(word), from);
}
