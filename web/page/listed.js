// The lists of a file: their columns, the texts of each row, and the target that it leads to, {file, memory}.

import { nameOf } from "../../bindings/javascript/hunk.js";
import { KINDS } from "../../bindings/javascript/kinds.js";
import { stateOfHunk } from "./front.js";
import * as names from "./names.js";
import { textPlace } from "./places.js";
import { relocationRows } from "./relocated.js";
import { offsetText, warningTarget, warningText } from "./warned.js";
import { meaningOf } from "./words.js";

/** @typedef {import("./file.js").Examined} Examined */
/** @typedef {{ name: string, isNumber?: boolean, isRest?: boolean, isName?: boolean, least?: number,
 *   leaves?: number }} Column */
/** A list: `target(i)` says where a row stands, `cells(i)` is its texts, and a list that is sorted has for each column
 * the `keys` of its rows.
 * @typedef {{ columns: Column[], count: number, target: (i: number) => import("./places.js").Target,
 *   cells: (i: number) => any[], keys?: ((i: number) => any)[] }} Listed */

const { counted, hex, shown } = names;
const LONG = 4;
/** A unit and a hunk as one number that rises through a list. */
const UNIT = 2 ** 21;

const text = (name) => ({ name });
const number = (name) => ({ name, isNumber: true });
/** The column that has the rest of the room: names, which are shown whole, or with `least` what may be cut to so many
 * ems. */
const rest = (name, least = undefined) => ({ name, isRest: true, least, isName: name === "name" });

/** Where an item stands: in an object file with its unit. */
const whereOf = (file, row) => (file.about.hunks > 0 ? row.hunk : `${row.unit}.${row.hunk}`);
const placeText = (file, row) => hex(file.inFile(textPlace(row.place)));
const nameIn = (file, row) => shown(nameOf(file.bytes, row));

/** So many bytes of the file, at the place that a row has.
 * @param {Examined} file */
const inFile = (file, row, bytes) => file.range(textPlace(row.place), bytes);
const named = ({ nameBytes }) => LONG * Math.ceil(nameBytes / LONG);

/** @type {(file: Examined) => Listed} */
function hunkRows(file) {
  const counts = file.relocationCounts();
  // A file that is refused lies nowhere.
  const [where, stands] = file.front
    ? ["read", (i) => stateOfHunk(file, i)]
    : ["base", (i) => hex((file.base + file.starts[i]) >>> 0)];
  return {
    columns: [number("hunk"), number("bytes"), rest("memory"), text(where), number("relocated")],
    count: file.starts.length,
    target: (i) => file.contents().target(i),
    cells(i) {
      const row = file.table.rows.at(i);
      const hunk = { text: i, chip: names.hunkColour(i) };
      return [hunk, row.bytes.toLocaleString("en"), names.memoryText(row), stands(i), counts[i].toLocaleString("en")];
    },
  };
}

function blockText(file, row) {
  const parts = [names.flagsText(row.flags)];
  if (row.kind === KINDS.NAME) parts.push(nameIn(file, { name: row.content, nameBytes: row.contentBytes }));
  else if (row.contentBytes > 0) parts.push(`${counted(row.contentBytes, "byte")} of content`);
  if (row.memory > row.contentBytes) parts.push(`${counted(row.memory, "byte")} in memory`);
  if (row.items > 0) parts.push(counted(row.items, "item"));
  return parts.filter(Boolean).join(", ");
}

/** @type {(file: Examined) => Listed} */
function blockRows(file) {
  const { rows } = file.list("blocks");
  return {
    columns: [text("at"), number("hunk"), { name: "block", isName: true }, number("bytes"), rest("of it", 4)],
    count: rows.length,
    // A block with content has the memory of its hunk; what others say of one is in no memory.
    target(i) {
      const row = rows.at(i);
      const memory = names.isContent(row.kind) ? file.inMemory(row.hunk, 0, Infinity) : undefined;
      return { file: inFile(file, row, row.bytes), memory };
    },
    cells(i) {
      const row = rows.at(i);
      const { from, to } = inFile(file, row, row.bytes);
      const type = file.typeOf(row);
      const name = names.blockName(type ?? row.kind);
      const kind = { text: name, chip: names.blockColour(row.kind), title: meaningOf(name) };
      const said = type === undefined ? "left out in the file" : blockText(file, row);
      return [hex(from), whereOf(file, row), kind, (to - from).toLocaleString("en"), said];
    },
  };
}

/** @type {(file: Examined) => Listed} */
function unitRows(file) {
  const { rows } = file.list("units");
  return {
    columns: [text("at"), number("unit"), number("hunks"), rest("name")],
    count: rows.length,
    target: (i) => ({ file: inFile(file, rows.at(i), 2 * LONG + named(rows.at(i))) }),
    cells(i) {
      const row = rows.at(i);
      return [placeText(file, row), i, row.hunks, nameIn(file, row)];
    },
  };
}

/** @type {(file: Examined) => Listed} */
function symbolRows(file) {
  const { rows } = file.list("symbols");
  const isLoad = file.isLoadable;
  return {
    columns: [text("at"), number("hunk"), text("value"), ...(isLoad ? [text("address")] : []), rest("name")],
    count: rows.length,
    target(i) {
      const row = rows.at(i);
      return { file: inFile(file, row, 2 * LONG + named(row)), memory: file.inMemory(row.hunk, row.value, LONG) };
    },
    cells(i) {
      const row = rows.at(i);
      const address = isLoad ? [hex((file.base + file.starts[row.hunk] + row.value) >>> 0)] : [];
      return [placeText(file, row), whereOf(file, row), hex(row.value), ...address, nameIn(file, row)];
    },
    keys: [
      (i) => rows.get(i, "place"),
      (i) => rows.get(i, "unit") * UNIT + rows.get(i, "hunk"),
      (i) => rows.get(i, "value"),
      ...(isLoad ? [(i) => (file.base + file.starts[rows.get(i, "hunk")] + rows.get(i, "value")) >>> 0] : []),
      (i) => nameIn(file, rows.at(i)),
    ],
  };
}

/** @type {(file: Examined) => Listed} */
function entryRows(file) {
  const { rows } = file.list("entries");
  return {
    columns: [text("at"), number("hunk"), text("entry"), text("value"), number("used"), rest("name")],
    count: rows.length,
    target: (i) => ({ file: inFile(file, rows.at(i), LONG + named(rows.at(i))) }),
    cells(i) {
      const row = rows.at(i);
      const entry = names.entryName(row.kind);
      return [placeText(file, row), whereOf(file, row), entry, hex(row.value), row.references, nameIn(file, row)];
    },
  };
}

/** @type {(file: Examined) => Listed} */
function referenceRows(file) {
  const { rows } = file.list("references");
  const entries = file.list("entries").rows;
  return {
    columns: [text("at"), number("hunk"), text("offset"), number("bytes"), rest("name")],
    count: rows.length,
    target: (i) => ({ file: inFile(file, rows.at(i), LONG) }),
    cells(i) {
      const row = rows.at(i);
      const entry = row.entry < entries.length ? entries.at(row.entry) : null;
      const [where, name] = entry ? [whereOf(file, entry), nameIn(file, entry)] : ["", `entry ${row.entry}`];
      return [placeText(file, row), where, hex(row.offset), row.width, name];
    },
  };
}

/** @type {(file: Examined) => Listed} */
function findingRows(file) {
  const { rows } = file.list("check");
  return {
    columns: [number("hunk"), text("offset"), rest("what is wrong", 4)],
    count: rows.length,
    target: (i) => ({ file: inFile(file, rows.at(i), LONG) }),
    cells(i) {
      const row = rows.at(i);
      return [whereOf(file, row), hex(row.offset), { text: names.faultText(row.fault), tone: "bad" }];
    },
  };
}

/** @type {(file: Examined) => Listed} */
function warningRows(file) {
  const { rows } = file.list("warnings");
  return {
    columns: [number("hunk"), text("offset"), rest("what is suspicious", 4)],
    count: rows.length,
    target: (i) => warningTarget(file, rows.at(i)),
    cells(i) {
      const row = rows.at(i);
      return [whereOf(file, row), offsetText(row), { text: warningText(file, row), tone: "warn" }];
    },
  };
}

/** In the order of their tabs. */
export const LISTS = [
  { id: "warnings", label: "Warnings", rows: warningRows, count: (file) => file.list("warnings").count },
  { id: "check", label: "Findings", rows: findingRows, count: (file) => file.list("check").count },
  { id: "hunks", label: "Hunks", rows: hunkRows, count: (file) => (file.table ? file.starts.length : 0) },
  { id: "units", label: "Units", rows: unitRows, count: (file) => file.list("units").count },
  { id: "blocks", label: "Blocks", rows: blockRows, count: (file) => file.list("blocks").count },
  { id: "symbols", label: "Symbols", rows: symbolRows, count: (file) => file.list("symbols").count },
  { id: "relocations", label: "Relocations", rows: relocationRows, count: (file) => file.list("relocations").count },
  { id: "entries", label: "External names", rows: entryRows, count: (file) => file.list("entries").count },
  { id: "references", label: "References", rows: referenceRows, count: (file) => file.list("references").count },
];
