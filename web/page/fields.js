// The bytes of a content that are relocated or refer to a name, and where what stands there leads to.

import { KINDS } from "../../bindings/javascript/kinds.js";
import { rowsOfHunk } from "./contents.js";
import * as names from "./names.js";

const { hex, lastAt, lastOf } = names;
const LONG = 4;

/** The bytes of a longword that no field has: between the end of one and where the next begins. */
function between(offset, end, next) {
  const long = offset - (offset % LONG);
  const from = Math.max(long, end);
  return { offset: from, width: Math.min(long + LONG, next) - from };
}

/** Of a load file: its relocated longwords are sorted for the picture of the memory. */
function longAtOffset(file, hunk, offset) {
  const { places, targets } = file.relocated();
  const start = file.starts[hunk];
  const found = lastAt(places, start + offset);
  const end = found < 0 ? 0 : places[found] + LONG - start;
  if (offset >= end) return between(offset, end, found + 1 < places.length ? places[found + 1] - start : Infinity);
  const target = targets[found];
  return { offset: end - LONG, width: LONG, target, isOffset: true, says: `the base of hunk ${target} is added` };
}

/** The row of a list that has an offset, of those from `first` to before `end`: its number; `around` is told of the
 * others. */
function rowAt(rows, first, end, offset, around) {
  for (let i = first; i < end; i++) {
    const from = rows.get(i, "offset");
    const to = from + rows.get(i, "width");
    if (from > offset) around.next = Math.min(around.next, from);
    else if (to <= offset) around.end = Math.max(around.end, to);
    else return i;
  }
  return -1;
}

function relocationAt(file, { unit, hunk }, offset, around) {
  const { rows } = file.list("relocations");
  const found = rowAt(rows, ...rowsOfHunk(rows, unit, hunk), offset, around);
  if (found < 0) return null;
  const row = rows.at(found);
  return { ...row, isOffset: row.kind === KINDS.RELOC32, says: `${names.blockName(row.kind)} to hunk ${row.target}` };
}

function referenceAt(file, { unit, hunk }, offset, around) {
  const entries = file.list("entries").rows;
  const { rows } = file.list("references");
  const ofEntry = (i) => rows.get(i, "entry");
  const [first, end] = rowsOfHunk(entries, unit, hunk).map((entry) => lastOf(rows.length, ofEntry, entry - 1) + 1);
  const found = rowAt(rows, first, end, offset, around);
  if (found < 0) return null;
  const entry = entries.at(ofEntry(found));
  return { ...rows.at(found), says: `${names.entryName(entry.kind)} ${names.nameText(file.bytes, entry)}` };
}

/** What stands at an offset of a hunk, of which `row` is any row: what is relocated there, {offset, width, target,
 * isOffset, says}, or the bytes {offset, width} of a longword that are not. */
export function fieldAt(file, row, offset) {
  if (file.table) return longAtOffset(file, row.hunk, offset);
  const around = { end: 0, next: Infinity };
  const field = relocationAt(file, row, offset, around) ?? referenceAt(file, row, offset, around);
  return field ?? between(offset, around.end, around.next);
}

/** An offset of a hunk, as a place to go to: so many bytes from there on.
 * @returns {import("./places.js").Lead | null} */
export function placeIn(file, unit, hunk, offset, bytes = LONG) {
  const contents = file.contents();
  const number = contents.number(unit, hunk);
  if (number === undefined) return null;
  const isInside = offset < contents.bytes(number);
  const address = file.isLoadable ? ` = ${hex((file.base + file.starts[hunk] + offset) >>> 0)}` : "";
  const place = contents.place(number, offset);
  return {
    text: `hunk ${hunk} + ${hex(offset)}${address}${isInside ? "" : ", outside of it"}`,
    file: place === undefined ? undefined : file.range(place, bytes),
    memory: file.inMemory(hunk, offset, bytes),
  };
}

/** Where a relocated longword leads to, by the offset that it has in the file. */
export function leadsTo(file, row, field, offset) {
  return field.isOffset ? placeIn(file, row.unit, field.target, offset) : null;
}
