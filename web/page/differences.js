// What differs between two files, hunk by hunk, as the command `hunk diff` tells it.

import { MEMORIES } from "../../bindings/javascript/kinds.js";
import { rowsOfHunk } from "./contents.js";
import { ITEMS } from "./itemtexts.js";
import { hex, shown } from "./names.js";
import { nameOf } from "../../bindings/javascript/hunk.js";
import { textPlace } from "./places.js";

/** A difference: the hunk in which it is, what it is, what A and B have there, and where that stands in each.
 * `text` is the line of `hunk diff --items`.
 * @typedef {{ text: string, where: string, what: string, a: string, b: string, inA?: import("./places.js").Target,
 *   inB?: import("./places.js").Target }} Difference */

/** The bytes of both from an offset on that a difference of contents shows. */
const SHOWN = 8;

/** How many bytes of two differ, and the first of them; that is -1 where none does. */
function differing(a, b) {
  const common = Math.min(a.length, b.length);
  let count = 0;
  let first = -1;
  for (let i = 0; i < common; i++) {
    if (a[i] === b[i]) continue;
    if (first < 0) first = i;
    count += 1;
  }
  return { count, first };
}

/** How two runs of bytes differ; nothing where they do not. */
function bytesText(a, b) {
  const { count, first } = differing(a, b);
  const at = `0x${hex(first)}`;
  const some = count === 1 ? `1 byte differs, at ${at}` : `${count} bytes differ, the first at ${at}`;
  const parts = count > 0 ? [some] : [];
  const more = a.length - b.length;
  const many = Math.abs(more);
  if (many > 0) parts.push(`${many} byte${many === 1 ? "" : "s"} more in ${more > 0 ? "A" : "B"}`);
  return parts.join(", ");
}

const bytesAt = (bytes, at) => Array.from(bytes.subarray(at, at + SHOWN), (it) => hex(it, 2)).join(" ");

/** A hunk of a file, by its number through all units. */
class Side {
  constructor(file, number) {
    const contents = file.contents();
    this.file = file;
    this.number = number;
    this.unit = contents.get(number, "unit");
    this.hunk = contents.get(number, "hunk");
    this.start = contents.get(number, "content");
    this.data = file.bytes.subarray(this.start, this.start + contents.get(number, "contentBytes"));
    const [memory, extra] = [contents.memory(number), file.table?.rows.get(number, "extra")];
    const attributes = memory === MEMORIES.indexOf("attributes") && extra ? ` 0x${hex(extra)}` : "";
    this.kind = `${contents.name(number)} ${contents.bytes(number)} bytes ${MEMORIES[memory]}${attributes}`;
  }

  /** Which hunk it is. */
  get where() {
    return this.file.table ? `${this.hunk}` : `${this.unit}.${this.hunk}`;
  }

  /** Where it stands. */
  get target() {
    return this.file.contents().target(this.number);
  }

  /** Where its content stands from an offset on. */
  from(offset) {
    const place = textPlace(this.start + Math.min(offset, Math.max(0, this.data.length - 1)));
    return { file: this.file.range(place, Math.min(SHOWN, Math.max(1, this.data.length - offset))) };
  }

  /** The rows of a list that are its own: their numbers. */
  rowsOf(list) {
    const [first, end] = rowsOfHunk(this.file.list(list).rows, this.unit, this.hunk);
    return Array.from({ length: end - first }, (_, i) => first + i);
  }
}

/** Which of the rows of both are only in one of them, where the same may be there more than once. */
function onlyIn(rows, keyOf, others, otherKeyOf) {
  const counts = new Map();
  for (const i of others) {
    const key = otherKeyOf(i);
    counts.set(key, (counts.get(key) ?? 0) + 1);
  }
  // Of those that are alike the first are told: as many as the other lacks.
  const left = new Map();
  for (const i of rows) {
    const key = keyOf(i);
    left.set(key, (left.get(key) ?? 0) + 1);
  }
  for (const [key, count] of left) left.set(key, count - (counts.get(key) ?? 0));
  return rows.filter((i) => {
    const key = keyOf(i);
    const lacks = left.get(key);
    left.set(key, lacks - 1);
    return lacks > 0;
  });
}

/** What differs in a list of a hunk.
 * @returns {Generator<Difference>} */
function* itemsOf(list, a, b) {
  const { key, text, target } = ITEMS[list];
  const [rows, others] = [a.rowsOf(list), b.rowsOf(list)];
  const [keyOf, otherKeyOf] = [(i) => key(a.file, i), (i) => key(b.file, i)];
  if (rows.length === others.length && rows.every((row, i) => keyOf(row) === otherKeyOf(others[i]))) return;
  const onlyA = onlyIn(rows, keyOf, others, otherKeyOf);
  const onlyB = onlyIn(others, otherKeyOf, rows, keyOf);
  const { where } = a;
  const isOrder = onlyA.length + onlyB.length === 0;
  const head = isOrder ? `${list} in another order` : `${list}: ${onlyA.length} only in A, ${onlyB.length} only in B`;
  yield { text: `hunk ${where}: ${head}`, where, what: head, a: "", b: "", inA: a.target, inB: b.target };
  for (const i of onlyA) {
    const said = text(a.file, i);
    yield { text: `  < ${said}`, where, what: list, a: said, b: "", inA: target(a.file, i) };
  }
  for (const i of onlyB) {
    const said = text(b.file, i);
    yield { text: `  > ${said}`, where, what: list, a: "", b: said, inB: target(b.file, i) };
  }
}

/** What differs in a hunk that both have.
 * @returns {Generator<Difference>} */
function* inHunk(a, b) {
  const { where } = a;
  const both = { where, inA: a.target, inB: b.target };
  if (a.kind !== b.kind) {
    yield { text: `hunk ${where}: ${a.kind} in A, ${b.kind} in B`, what: "hunk", a: a.kind, b: b.kind, ...both };
  }
  const told = bytesText(a.data, b.data);
  if (told) {
    const { first } = differing(a.data, b.data);
    const at = first < 0 ? Math.min(a.data.length, b.data.length) : first;
    const [its, others] = [bytesAt(a.data, at), bytesAt(b.data, at)];
    const what = `content: ${told}`;
    yield { text: `hunk ${where}: ${what}`, where, what, a: its, b: others, inA: a.from(at), inB: b.from(at) };
  }
  for (const list of Object.keys(ITEMS)) yield* itemsOf(list, a, b);
}

/** @returns {Generator<Difference>} */
function* inUnits(a, b) {
  const [rows, others] = [a, b].map((file) => file.list("units").rows);
  if (rows.length !== others.length) {
    const [one, two] = [rows.length, others.length];
    yield { text: `units: ${one} in A, ${two} in B`, where: "", what: "units", a: `${one}`, b: `${two}` };
  }
  for (let i = 0; i < Math.min(rows.length, others.length); i++) {
    const [one, two] = [nameOf(a.bytes, rows.at(i)), nameOf(b.bytes, others.at(i))].map(shown);
    if (one === two) continue;
    yield { text: `unit ${i}: ${one} in A, ${two} in B`, where: `${i}`, what: "unit", a: one, b: two };
  }
}

/** The hunks of a file by unit and number, in that order. */
const sidesOf = (file) => {
  const sides = Array.from({ length: file.contents().count }, (_, i) => new Side(file, i));
  return new Map(sides.map((side) => [side.unit * 2 ** 21 + side.hunk, side]));
};

/** @returns {Generator<Difference>} */
function* inHunks(a, b) {
  const [ours, theirs] = [sidesOf(a), sidesOf(b)];
  for (const key of [...new Set([...ours.keys(), ...theirs.keys()])].sort((one, other) => one - other)) {
    const [one, two] = [ours.get(key), theirs.get(key)];
    if (one && two) yield* inHunk(one, two);
    else {
      const { where, kind, target } = one ?? two;
      const its = one ? { a: kind, b: "", inA: target } : { a: "", b: kind, inB: target };
      const what = `only in ${one ? "A" : "B"}`;
      yield { text: `hunk ${where}: ${what}: ${kind}`, where, what, ...its };
    }
  }
}

const restOf = (file) => file.bytes.subarray(file.about.length);

/** All that differs between two files that are accepted: nothing where their bytes are the same.
 * @param {import("./file.js").Examined} a
 * @param {import("./file.js").Examined} b
 * @returns {Generator<Difference>} */
export function* differences(a, b) {
  const told = bytesText(a.bytes, b.bytes);
  if (!told) return;
  if (Boolean(a.table) !== Boolean(b.table)) {
    const [one, two] = [a, b].map((file) => (file.table ? "load file" : "object file"));
    const text = a.table ? "A is a load file, B an object file" : "A is an object file, B a load file";
    yield { text, where: "", what: "kind", a: one, b: two };
    return;
  }
  let count = 0;
  for (const found of [inUnits(a, b), inHunks(a, b)]) {
    for (const it of found) {
      count += 1;
      yield it;
    }
  }
  const [ours, theirs] = [restOf(a), restOf(b)];
  const rest = bytesText(ours, theirs);
  const text = rest ? `rest: ${rest}` : `in the file: ${told}`;
  if (rest) yield { text, where: "", what: text, a: bytesAt(ours, 0), b: bytesAt(theirs, 0) };
  else if (count === 0) yield { text, where: "", what: text, a: "", b: "" };
}
