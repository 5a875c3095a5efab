// What the table of many files has of each: a line is an object with some of FIELDS.

import { csvOf } from "./csv.js";
import { inOrder } from "./dropped.js";
import { inPlain, summary } from "./file.js";
import { namesOf } from "./linking.js";
import { classOf, whatOf } from "./reasons.js";
import { SUMS, sumsOf } from "./sums.js";

/** In the words and the order of `hunk survey`. */
export const CLASSES = ["load", "object", "findings", "wide", "no hunk file", "not supported", "damaged", "not judged"];

/** As they are saved. `memory` is what a load file declares; behind it are what the file is, its sums, the first of
 * these that an earlier file has, and that file, and how many names are needed that no file of the table defines. */
const FIELDS = [
  "file", "bytes", "class", "answer", "kind", "hunks", "memory", "units", "findings", "warnings", "place", "reason",
  "number", "what", "file sum", "program sum", "memory sum", "same", "first", "undefined",
];

/** The digits of a sum that the table shows: that of the program, where a file has one. */
const SHOWN = 8;

/** The line of a file that was read. */
export function lineOf(hunk, name, bytes) {
  const about = summary(hunk, bytes);
  const line = { file: name, bytes: bytes.length, kind: about.kind };
  const read = about.refusal ? inPlain(hunk, bytes, about) : { bytes, about };
  const more = moreOf(hunk, bytes, read ?? { about });
  if (about.refusal) {
    const { place, reason, number } = about.refusal;
    return { ...line, class: classOf(read?.about ?? about), answer: "refused", place, reason, number, ...more };
  }
  const { hunks, declared, warnings, units, findings } = about;
  const counts = hunks > 0 ? { hunks, memory: declared, warnings } : { units, findings };
  return { ...line, class: classOf(about), answer: "accepted", ...counts, ...more };
}

/** What an archive and a linker ask of a file, of which this is its reading: what it is, its sums, and its names. */
function moreOf(hunk, input, { bytes = null, about }) {
  const isLoad = about.hunks > 0;
  const names = bytes && !isLoad ? namesOf(hunk, bytes) : undefined;
  const sums = sumsOf(hunk, input, bytes, isLoad);
  const what = whatOf(hunk, input, bytes, about);
  // What its class says already.
  const told = about.refusal || what.includes(",") ? what : undefined;
  return { what, told, sums, sum: (sums.program ?? sums.file).slice(0, SHOWN), names };
}

/** Notes of each line the first of its sums that an earlier one has, and the name of that one. */
export function noteSame(line, firsts) {
  for (const name of SUMS.filter((it) => line.sums?.[it])) {
    const first = firsts.get(`${name} ${line.sums[name]}`);
    if (first !== undefined && line.same === undefined) {
      Object.assign(line, { same: name, first, copy: `${first} (${name})` });
    }
    if (first === undefined) firsts.set(`${name} ${line.sums[name]}`, line.file);
  }
}

/** The line of a file that could not be read, by the reason of the library that says so. */
export const unreadLine = (name) => ({ file: name, class: "not judged", answer: "unread", reason: "Read", number: 30 });

const byValue = (one, other) => (typeof one === "string" ? inOrder(one, other) : one - other);

/** Sorts lines by a field, in the direction 1 or -1. Those that have none stay last. */
export function sortLines(lines, field, direction) {
  lines.sort((first, second) => {
    const [one, other] = [first[field], second[field]];
    if (one === undefined || other === undefined) return Number(one === undefined) - Number(other === undefined);
    return direction * byValue(one, other);
  });
}

/** Lines as they are saved. */
export function csvOfLines(lines) {
  const sumsIn = ({ sums = {} }) => Object.fromEntries(SUMS.map((name) => [`${name} sum`, sums[name]]));
  const whole = lines.map((line) => ({ ...line, ...sumsIn(line) }));
  return csvOf([FIELDS, ...whole.map((line) => FIELDS.map((it) => line[it] ?? ""))]);
}
