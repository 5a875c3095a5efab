// Parts of a file with their bytes: made one by one, or taken from a file, and as hunk_build takes them.

import { bytesOf, MOST_BYTES, MOST_LONG, refuse, refuseKind, whole } from "./arguments.js";
import { KINDS, MEMORIES, PARTS } from "./kinds.js";
import { LAYOUTS } from "./structs.js";

const MOST_LONGS = 2 ** 30 - 1;
const MOST_KIND = 2 ** 29 - 1;
const MOST_FLAGS = 7;
const MOST_BITS = 3;
const MOST_TYPE = 255;
const TOP_BITS = 2 ** 30;
const FLAG = 2 ** 29;
const LONGWORD = 4;

/** The bytes of a content, or of a text in which each character is a byte. */
function contentOf(name, content) {
  if (typeof content !== "string") return bytesOf(name, content, "a Uint8Array or a text");
  const bytes = Uint8Array.from(content, (it) => whole(`${name}: a character`, it.codePointAt(0), MOST_TYPE));
  return bytes;
}

/** A name of an item whose word has this top byte: an empty one gets a longword where the word would be 0. */
function named(name, top) {
  const bytes = contentOf("name", name);
  return bytes.length || top ? bytes : new Uint8Array(LONGWORD);
}

const part = (what, { word = 0, value = 0, content = new Uint8Array(), offsets = [] }) => ({ what, word, value, content, offsets });

function sizeWord(longs, bits) {
  return whole("bits", bits, MOST_BITS) * TOP_BITS + whole("longs", longs, MOST_LONGS);
}

const blockWord = (kind, flags) => whole("flags", flags, MOST_FLAGS) * FLAG + whole("kind", kind, MOST_KIND);

/** Makes parts by what they are. What a number has no room for is a RangeError. */
export const Part = Object.freeze({
  hunk(longs, memory = "any", attributes = 0) {
    if (!MEMORIES.includes(memory)) refuseKind("memory", `one of ${MEMORIES.join(", ")}`, memory);
    const value = whole("attributes", attributes, MOST_LONG);
    return part(PARTS.HUNK, { word: sizeWord(longs, MEMORIES.indexOf(memory)), value });
  },
  unit: (name = "") => part(PARTS.UNIT, { content: contentOf("name", name) }),
  block(kind, content = "", flags = 0, bits = 0) {
    const value = sizeWord(0, bits);
    return part(PARTS.BLOCK, { word: blockWord(kind, flags), value, content: contentOf("content", content) });
  },
  bss: (longs, flags = 0, bits = 0) => part(PARTS.BLOCK, { word: blockWord(KINDS.BSS, flags), value: sizeWord(longs, bits) }),
  end: () => part(PARTS.BLOCK, { word: KINDS.END }),
  group: (target, offsets) => part(PARTS.GROUP, { word: whole("target", target, MOST_LONG), offsets: [...offsets] }),
  symbol(name, value, top = 0) {
    const word = whole("top", top, MOST_TYPE);
    return part(PARTS.SYMBOL, { word, value: whole("value", value, MOST_LONG), content: named(name, top) });
  },
  entry(kind, name, value = 0, offsets = []) {
    const word = whole("kind", kind, MOST_TYPE);
    return part(PARTS.ENTRY, { word, value: whole("value", value, MOST_LONG), content: named(name, kind), offsets: [...offsets] });
  },
});

/** So many bytes of a file, from a place on; where there are none, the place may be any. */
function run(file, place, length) {
  const end = whole("row: its place", place, MOST_BYTES) + whole("row: its length", length, MOST_BYTES);
  if (length === 0) return new Uint8Array();
  if (end > file.length) throw new RangeError(`row: it is not in these ${file.length} bytes, but in those of another file`);
  return file.slice(place, end);
}

/** A row of `parts` as a part, with copies of its bytes of the file. */
export function partOfRow(file, row) {
  const offsets = run(file, row.offsets, LONGWORD * row.offsetCount);
  const view = new DataView(offsets.buffer);
  const { what, word, value } = row;
  const numbers = Array.from({ length: offsets.length / LONGWORD }, (_, i) => view.getUint32(LONGWORD * i));
  return part(what, { word, value, content: run(file, row.content, row.contentBytes), offsets: numbers });
}

/** A part that is handed over, with the bytes of its content. */
function checked(name, given) {
  if (given === null || typeof given !== "object") refuseKind(name, "a part", given);
  const { what, word = 0, value = 0, content = "", offsets = [] } = given;
  if (!Object.values(PARTS).includes(what)) refuse(`${name}.what`, "one of PARTS", what);
  if (!Array.isArray(offsets)) refuseKind(`${name}.offsets`, "a list of numbers", offsets);
  offsets.forEach((it, i) => whole(`${name}.offsets[${i}]`, it, MOST_LONG));
  whole(`${name}.word`, word, MOST_LONG);
  whole(`${name}.value`, value, MOST_LONG);
  return { what, word, value, content: contentOf(`${name}.content`, content), offsets };
}

/** Puts a row of hunk.h, and answers where the next bytes go. */
function putRow(rows, at, it, content) {
  const offsets = content + it.content.length;
  const values = [it.what, it.word, it.value, 0, content, it.content.length, offsets, it.offsets.length];
  Object.values(LAYOUTS.part.fields).forEach((field, i) => {
    if (field.bytes === LONGWORD) rows.setUint32(at + field.at, values[i], true);
    else rows.setBigUint64(at + field.at, BigInt(values[i]), true);
  });
  return offsets + LONGWORD * it.offsets.length;
}

/** The rows of parts, and the bytes in which their content and offsets stand one after the other. */
export function packed(given) {
  if (!Array.isArray(given)) refuseKind("parts", "a list of parts", given);
  const list = Array.from(given, (it, i) => checked(`parts[${i}]`, it));
  const rows = new DataView(new ArrayBuffer(LAYOUTS.part.size * list.length));
  const bytes = new Uint8Array(list.reduce((sum, it) => sum + it.content.length + LONGWORD * it.offsets.length, 0));
  const view = new DataView(bytes.buffer);
  let at = 0;
  list.forEach((it, i) => {
    bytes.set(it.content, at);
    it.offsets.forEach((offset, j) => view.setUint32(at + it.content.length + LONGWORD * j, offset));
    at = putRow(rows, LAYOUTS.part.size * i, it, at);
  });
  return { rows: new Uint8Array(rows.buffer), bytes };
}
