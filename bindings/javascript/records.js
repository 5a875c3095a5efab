// Memory as Motorola S-records of 32 bits. The command `hunk convert` of bindings/python writes the same lines.

import { MOST_LONG, whole } from "./arguments.js";
import { notZero } from "./sections.js";

/** The most bytes of a line, none of which goes past an address that is a multiple of this number. */
const PER_LINE = 32;
const HEAD = Array.from("HUNK", (it) => it.charCodeAt(0));
const DIGITS = Array.from({ length: 256 }, (_, i) => i.toString(16).toUpperCase().padStart(2, "0"));

/** A line: its kind, how many bytes follow, the address of so many bytes, the data, and a sum. */
function record(kind, address, width, data) {
  const addressed = [24, 16, 8, 0].slice(4 - width).map((shift) => (address >>> shift) & 0xff);
  const body = [width + data.length + 1, ...addressed, ...data];
  const sum = ~body.reduce((one, other) => one + other, 0) & 0xff;
  return `S${kind}${body.map((it) => DIGITS[it]).join("")}${DIGITS[sum]}\n`;
}

/** The lines of bytes that begin at an address. */
function linesOf(start, bytes) {
  const lines = [];
  for (let at = 0; at < bytes.length; ) {
    const end = at + PER_LINE - ((start + at) % PER_LINE);
    lines.push(record(3, start + at, 4, bytes.subarray(at, end)));
    at = end;
  }
  return lines.join("");
}

/** The S-records of a program that is loaded at the base, of which this is the memory of each hunk, without those that are zero. */
export function sRecords(file, base, memory) {
  whole("base", base, MOST_LONG);
  const parts = [record(0, 0, 2, HEAD)];
  let next = base;
  notZero(file).forEach((is, i) => {
    if (is) parts.push(linesOf(next, memory[i]));
    next += file.hunks[i].bytes;
  });
  return [...parts, record(7, base, 4, [])].join("");
}
