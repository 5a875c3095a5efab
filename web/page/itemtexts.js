// The items of a hunk as `hunk diff` knows them: what makes two the same, the words of `hunkinfo show`, and where each
// stands.

import { nameOf } from "../../bindings/javascript/hunk.js";
import { flagNames, KINDS } from "../../bindings/javascript/kinds.js";
import { LISTS } from "./listed.js";
import { blockName, entryName, hex, isCommon, isDefinition, isKnown, lastOf, shown } from "./names.js";

const offset = (number) => `0x${hex(number)}`;
const nameIn = (file, row) => nameOf(file.bytes, row);
/** A name may be empty, or end with spaces. */
const joined = (...parts) => parts.join(" ").trim();

/** Whether a block has what is in no other list. */
const isOwn = (kind) => kind === KINDS.NAME || kind === KINDS.DEBUG || !isKnown(kind);

function blockKey(file, i) {
  const { kind, flags, content, contentBytes } = file.blocks.at(i);
  return `${kind} ${flags} ${isOwn(kind) ? nameIn(file, { name: content, nameBytes: contentBytes }) : ""}`;
}

function blockText(file, i) {
  const { kind, flags, content, contentBytes } = file.blocks.at(i);
  const names = flagNames(flags);
  if (!isKnown(kind)) return ["ADVISORY", kind, `${contentBytes} bytes`, ...names.slice(1)].join(" ");
  const parts = [blockName(kind), ...names];
  if (kind === KINDS.NAME) parts.push(shown(nameIn(file, { name: content, nameBytes: contentBytes }).split("\0")[0]));
  if (kind === KINDS.DEBUG) parts.push(`${contentBytes} bytes`);
  return joined(...parts);
}

/** The offsets at which an entry is referred to. */
function offsetsOf(file, entry) {
  const { rows } = file.list("references");
  const ofEntry = (i) => rows.get(i, "entry");
  const [first, end] = [entry - 1, entry].map((it) => lastOf(rows.length, ofEntry, it) + 1);
  return Array.from({ length: end - first }, (_, i) => rows.get(first + i, "offset"));
}

function entryKey(file, i) {
  const row = file.list("entries").rows.at(i);
  return `${row.kind} ${row.value} ${offsetsOf(file, i)} ${nameIn(file, row)}`;
}

function entryText(file, i) {
  const row = file.list("entries").rows.at(i);
  const [kind, name] = [entryName(row.kind), shown(nameIn(file, row))];
  if (isDefinition(row.kind)) return joined(kind, offset(row.value), name);
  const offsets = offsetsOf(file, i);
  const head = joined(kind, ...(isCommon(row.kind) ? [row.value] : []), offsets.length, name);
  return [head, ...offsets.map(offset)].join(" ");
}

const symbolAt = (file, i) => file.list("symbols").rows.at(i);
const relocationAt = (file, i) => file.list("relocations").rows.at(i);
const relocationText = ({ kind, target, offset: at }) => `${blockName(kind)} ${target} ${offset(at)}`;
const targetIn = (list) => (file, i) => LISTS.find(({ id }) => id === list).rows(file).target(i);

/** By the list, in the order in which they are compared: what makes two items the same wherever they stand, their
 * words, and where an item stands. */
export const ITEMS = {
  blocks: { key: blockKey, text: blockText, target: targetIn("blocks") },
  symbols: {
    key: (file, i) => `${symbolAt(file, i).value} ${nameIn(file, symbolAt(file, i))}`,
    text: (file, i) => joined(offset(symbolAt(file, i).value), shown(nameIn(file, symbolAt(file, i)))),
    target: targetIn("symbols"),
  },
  relocations: {
    key: (file, i) => relocationText(relocationAt(file, i)),
    text: (file, i) => relocationText(relocationAt(file, i)),
    target: targetIn("relocations"),
  },
  entries: { key: entryKey, text: entryText, target: targetIn("entries") },
};
