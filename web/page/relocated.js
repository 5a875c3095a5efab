// The list of relocations: where each stands, and where it leads to, as symbol and offset.

import { KINDS } from "../../bindings/javascript/kinds.js";
import { blockName, hex, hunkColour, longAt } from "./names.js";
import { textPlace } from "./places.js";

/** @typedef {import("./file.js").Examined} Examined */

const LONG = 4;
/** A unit and a hunk as one number that rises through a list. */
const UNIT = 2 ** 21;

/** The offset that a relocated longword has of its target; nothing where no longword is relocated, or its bytes are not
 * known. */
function valueOf(file, row) {
  if (row.kind !== KINDS.RELOC32) return undefined;
  const contents = file.contents();
  const number = contents.number(row.unit, row.hunk);
  if (number === undefined || row.offset + LONG > contents.bytes(number)) return undefined;
  const place = contents.place(number, row.offset);
  if (place === undefined) return file.isLoadable ? 0 : undefined;
  return contents.place(number, row.offset + LONG - 1) === undefined ? undefined : longAt(file.bytes, place);
}

/** An offset of a hunk: by the symbol before it, with so many digits, or by the hunk where there is none. */
function placeText(file, unit, hunk, offset, digits = 1) {
  if (offset === undefined) return "";
  const number = file.contents().number(unit, hunk);
  const found = number === undefined ? null : file.symbols().nearest(number, offset);
  if (!found) return `${file.table ? hunk : `${unit}.${hunk}`} + ${hex(offset)}`;
  return found.past === 0 ? found.name : `${found.name} + ${hex(found.past, digits)}`;
}

const sourceText = (file, row, digits) => placeText(file, row.unit, row.hunk, row.offset, digits);
const targetText = (file, row, digits) => placeText(file, row.unit, row.target, valueOf(file, row), digits);
/** All digits, so that offsets behind one symbol are sorted as numbers. */
const DIGITS = 8;

/** What is a number in a list, for its order; what is not there comes first. */
const orNone = (number) => number ?? -1;

/** By the names of columns: the cell, and what rows are sorted by. */
const CELLS = {
  at: [(file, row) => hex(file.inFile(textPlace(row.place))), (_, row) => row.place],
  hunk: [(file, row) => (file.table ? row.hunk : `${row.unit}.${row.hunk}`), (_, row) => row.unit * UNIT + row.hunk],
  offset: [(_, row) => hex(row.offset), (_, row) => row.offset],
  source: [
    (file, row) => ({ text: sourceText(file, row), chip: hunkColour(row.hunk) }),
    (file, row) => sourceText(file, row, DIGITS),
  ],
  target: [(_, row) => ({ text: row.target, chip: hunkColour(row.target) }), (_, row) => row.unit * UNIT + row.target],
  "of it": [
    (file, row) => {
      const value = valueOf(file, row);
      return value === undefined ? "" : hex(value);
    },
    (file, row) => orNone(valueOf(file, row)),
  ],
  "leads to": [
    (file, row) => ({ text: targetText(file, row), chip: hunkColour(row.target) }),
    (file, row) => targetText(file, row, DIGITS),
  ],
  kind: [(_, row) => blockName(row.kind), (_, row) => blockName(row.kind)],
};

/** The columns of a file without symbols, and of one with: there numbers leave where they have no room. */
const NUMBERED = [
  { name: "at" }, { name: "hunk", isNumber: true }, { name: "offset", isName: true },
  { name: "target", isNumber: true }, { name: "of it", isOptional: true, leaves: 1 }, { name: "kind", isRest: true },
];
const NAMED = [
  { name: "at", leaves: 3 }, { name: "hunk", isNumber: true, leaves: 4 }, { name: "offset", leaves: 5 },
  { name: "source", isRest: true, isName: true }, { name: "target", isNumber: true, leaves: 6 },
  { name: "of it", isOptional: true, leaves: 2 }, { name: "leads to", isRest: true }, { name: "kind", leaves: 1 },
];

/** @type {(file: Examined) => import("./listed.js").Listed} */
export function relocationRows(file) {
  const { rows } = file.list("relocations");
  const columns = file.symbols().count > 0 ? NAMED : NUMBERED;
  return {
    columns,
    count: rows.length,
    target(i) {
      const row = rows.at(i);
      return { file: file.range(textPlace(row.place), LONG), memory: file.inMemory(row.hunk, row.offset, row.width) };
    },
    cells(i) {
      const row = rows.at(i);
      return columns.map(({ name }) => CELLS[name][0](file, row));
    },
    keys: columns.map(({ name }) => (i) => CELLS[name][1](file, rows.at(i))),
  };
}
