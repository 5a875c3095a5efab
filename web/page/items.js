// What a byte of a file belongs to: an item of its header, of a unit, or of a block, with what it says.
//
// An item is {from, to, where, name, says, targets}: its bytes, the texts of it, and what it leads to. A target is
// {text, place, memory}: a byte of the file, and one of the memory. All this is of files that are accepted, or of what
// stands before the fault of others, so each block is whole.

import { KINDS } from "../../bindings/javascript/kinds.js";
import { fieldAt, leadsTo } from "./fields.js";
import { markAtFault } from "./front.js";
import * as names from "./names.js";
import { entryItem, groupItem, symbolItem } from "./parts.js";
import { textPlace } from "./places.js";

const { counted, hex, lastAt, lastOf, longAt } = names;

/** Counts of longwords, as the low 30 bits of a size word are. */
const longs = (count) => `${counted(count, "longword")}, ${counted(4 * count, "byte")}`;
const sizeOf = (word) => word & 0x3fffffff;

/** @type {[string, (value: number) => string][]} */
const HEADER = [
  ["block word", () => ""],
  ["names of resident libraries", () => "none"],
  ["size of the table", (count) => counted(count, "hunk")],
  ["first hunk", (hunk) => `hunk ${hunk}`],
  ["last hunk", (hunk) => `hunk ${hunk}`],
];

function headerItem(file, from) {
  const where = "HEADER";
  const word = longAt(file.bytes, from);
  if (from < 4 * HEADER.length) {
    const [name, says] = HEADER[from / 4];
    return { from, to: from + 4, where, name, says: says(word) };
  }
  const places = file.sizePlaces();
  const hunk = lastAt(places, from);
  if (from === places[hunk]) {
    const says = `${longs(sizeOf(word))}, ${names.memoryName(file.table.rows.get(hunk, "memory"))}`;
    return { from, to: from + 4, where, name: `size of hunk ${hunk}`, says };
  }
  return { from, to: from + 4, where, name: `memory attributes of hunk ${hunk}`, says: "" };
}

/** A count of longwords and a name of so many, as UNIT and NAME have behind their word. */
function nameItem(file, where, from, name, nameBytes) {
  if (from < name) {
    return { from, to: from + 4, where, name: "length of the name", says: counted(nameBytes / 4, "longword") };
  }
  const says = names.nameText(file.bytes, { name, nameBytes });
  return { from: name, to: name + nameBytes, where, name: "name", says };
}

function unitItem(file, from) {
  const { rows } = file.list("units");
  const unit = lastOf(rows.length, (i) => rows.get(i, "place"), from);
  const row = rows.at(unit);
  const where = `UNIT ${unit}`;
  if (from === row.place) return { from, to: from + 4, where, name: "block word", says: counted(row.hunks, "hunk") };
  // With the bytes that fill up its last longword, which the row leaves out.
  return nameItem(file, where, from, row.place + 8, 4 * longAt(file.bytes, row.place + 4));
}

/** What is relocated in a content, or of a longword what is not. */
function contentItem(file, row, where, at) {
  const field = fieldAt(file, row, at - row.content);
  const from = row.content + field.offset;
  const to = Math.min(from + field.width, row.content + row.contentBytes);
  const name = `content at offset ${hex(field.offset)}`;
  const texts = [file.table && file.labels().before(file.starts[row.hunk] + field.offset), field.says];
  const isWhole = to - from === field.width;
  const targets = [isWhole && leadsTo(file, row, field, longAt(file.bytes, from)), memoryTarget(file, row.hunk, field)];
  return { from, to, where, name, says: texts.filter(Boolean).join(", "), targets: targets.filter(Boolean) };
}

/** Where a field is loaded to. */
function memoryTarget(file, hunk, { offset, width }) {
  const memory = file.inMemory(hunk, offset, width);
  return memory && { text: `memory ${hex((file.base + memory.from) >>> 0)}`, memory };
}

/** The size of a block and what it is of: a longword, or the content from `row.content` on. */
function sizedItem(file, row, where, at) {
  const from = at - (at % 4);
  if (from === row.place + 4) {
    return { from, to: from + 4, where, name: "size", says: longs(sizeOf(longAt(file.bytes, from))) };
  }
  return contentItem(file, row, where, at);
}

/** DEBUG and advisory blocks: a count, and as many longwords, of which nothing is known. */
function dataItem(file, row, where, at) {
  const from = at - (at % 4);
  if (from === row.place + 4) return { from, to: from + 4, where, name: "size", says: longs(row.contentBytes / 4) };
  return { from, to: from + 4, where, name: `data at ${hex(from - row.content)}`, says: "" };
}

function blockWord(file, row, where) {
  const flags = names.flagsText(row.flags);
  const items = row.items > 0 ? counted(row.items, "item") : "";
  const { from, to } = file.range(textPlace(row.place), row.bytes);
  const says = [flags, `a block of ${counted(to - from, "byte")}`, items].filter(Boolean).join(", ");
  return { from: row.place, to: row.place + 4, where, name: "block word", says };
}

/** What is walked part by part: each kind of part. */
function partItem(file, row, where, at, itemOf) {
  const from = at - (at % 4);
  const start = file.partsOf(row).at(from);
  if (longAt(file.bytes, start) === 0) {
    return { from, to: from + 4, where, name: "end", says: "no more follow in this block" };
  }
  return { where, ...itemOf(file, row, start, from) };
}

function blockItem(file, row, at) {
  const where = `${names.whereText(file, row)}, ${names.blockName(file.typeOf(row) ?? row.kind)}`;
  if (at < row.place + 4) return blockWord(file, row, where);
  const { kind } = row;
  if (kind === KINDS.NAME) return nameItem(file, where, at - (at % 4), row.place + 8, row.contentBytes);
  if (kind >= KINDS.CODE && kind <= KINDS.BSS) return sizedItem(file, row, where, at);
  if (kind === KINDS.SYMBOL) return partItem(file, row, where, at, symbolItem);
  if (kind === KINDS.EXT) return partItem(file, row, where, at, entryItem);
  if (kind === KINDS.DEBUG || !names.isKnown(kind)) return dataItem(file, row, where, at);
  return partItem(file, row, where, at, groupItem);
}

/** A longword of which no more is known. */
const plainItem = (from, where) => ({ from, to: from + 4, where, name: "", says: "" });

function refusedItem(file, at) {
  const { fault } = file;
  if (at >= fault && at < fault + 4) return plainItem(fault, `refused here, ${file.about.refusal.reason}`);
  const from = at - (at % 4);
  return plainItem(from, markAtFault(file, from)?.title ?? "");
}

/** What is said of warnings with these names. */
export const warningAt = (names) => (names ? `warning: ${names}` : "");

/** The item of a file to which a byte belongs.
 * @param {import("./file.js").Examined} file
 * @param {import("./places.js").FilePlace} at */
export function itemOfFile(file, at) {
  if (at >= file.end) return file.about.refusal ? refusedItem(file, at) : plainItem(at - (at % 4), "after the file");
  const item = itemOfText(file, file.inText(at));
  const says = [item.says, warningAt(file.warned().inFile(at))].filter(Boolean).join(", ");
  return { ...item, says, from: file.inFile(textPlace(item.from)), to: file.inFile(textPlace(item.to)) };
}

/** The item of what is read to which a byte belongs.
 * @param {import("./file.js").Examined} file
 * @param {import("./places.js").TextPlace} at */
function itemOfText(file, at) {
  const from = at - (at % 4);
  if (!file.hasBlocks) return plainItem(from, "");
  const block = lastAt(file.blockPlaces, at);
  if (block >= 0 && at < file.blockPlaces[block] + file.blocks.get(block, "bytes")) {
    return blockItem(file, file.blocks.at(block), at);
  }
  return file.table ? headerItem(file, from) : unitItem(file, from);
}
