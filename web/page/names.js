// The names of the format's numbers, and how numbers are shown.

import { nameOf } from "../../bindings/javascript/hunk.js";
import { ENTRY_KINDS, entryKindName, flagNames, kindName, KINDS, MEMORIES } from "../../bindings/javascript/kinds.js";
import { paper } from "./paper.js";

const FAULTS = {
  1: "BadTarget: no hunk of its unit",
  2: "OutsideHunk: past its hunk's end",
};

export const hex = (number, digits = 8) => number.toString(16).padStart(digits, "0");
/** The number that a text is, of up to eight hexadecimal digits, with or without `0x` or `$`; null where it is none. */
export function numberOf(text) {
  const found = /^(?:0x|\$)?([0-9a-f]{1,8})$/i.exec(text.trim());
  return found && parseInt(found[1], 16);
}

export const counted = (number, what) => `${number.toLocaleString("en")} ${what}${number === 1 ? "" : "s"}`;
export const blockName = kindName;
export const entryName = entryKindName;
export const faultText = (fault) => FAULTS[fault] ?? `fault ${fault}`;
export const flagsText = (flags) => flagNames(flags).join(" ");
export const isContent = (kind) => kind >= KINDS.CODE && kind <= KINDS.BSS;
export const isDefinition = (kind) => kind <= ENTRY_KINDS.ABS;
export const isCommon = (kind) => kind === ENTRY_KINDS.COMMON || kind === ENTRY_KINDS.RELCOMMON;

/** Whether a type of block is in the table; all others are advisory. */
export const isKnown = (kind) => Object.values(KINDS).includes(kind);

/** Where an item stands: in an object file with its unit. */
export const whereText = (file, row) => (file.table ? `hunk ${row.hunk}` : `unit ${row.unit}, hunk ${row.hunk}`);

export const memoryName = (memory) => (memory === 3 ? "memory by attributes" : `${MEMORIES[memory]} memory`);
export const memoryText = (row) => MEMORIES[row.memory] + (row.memory === 3 ? ` ${hex(row.extra)}` : "");

/** A name as it may be shown: bytes that are no printable ASCII, and the backslash, as `\x` and two digits. */
export function shown(name) {
  return name.replace(/[^\x20-\x5b\x5d-\x7e]/g, (c) => `\\x${hex(c.charCodeAt(0), 2)}`);
}

/** The most bytes of a name that are shown beside others: a file may have one of any length. */
const MOST_NAME = 100;

/** The name of a row as it may be shown, without the zero bytes that fill up its last longword. */
export function nameText(bytes, { name, nameBytes }) {
  const text = nameOf(bytes, { name, nameBytes: Math.min(nameBytes, MOST_NAME) });
  return shown(text.replace(/\0+$/, "")) + (nameBytes > MOST_NAME ? "…" : "");
}

const scheme = matchMedia("(prefers-color-scheme: dark)");

/** Calls for a change between light and dark, after which all that has colours is to be drawn again. */
export const whenSchemeChanges = (call) => scheme.addEventListener("change", call);

/** Calls before it is printed, and after that: both change the colours where these are dark. */
export function whenPrinted(call) {
  for (const name of ["beforeprint", "afterprint"]) addEventListener(name, () => scheme.matches && call());
}

/** A colour of the page, of this hue. The paper has `light` 100, and less is further away from it: darker on white
 * paper, and lighter on dark paper. Text in the colour of ink can be read on 65 and more. */
function tint(hue, light, colourful = 1) {
  const lightness = 0.3 + 0.007 * light;
  const shown = scheme.matches && !paper.isPrinted ? 1.25 - lightness : lightness;
  const chroma = colourful * Math.min(0.13, 0.02 + 0.55 * (1 - lightness));
  return `oklch(${shown.toFixed(3)} ${chroma.toFixed(3)} ${hue.toFixed(1)})`;
}

/** The colour of a hunk: neighbours differ. */
export const hunkColour = (hunk, light = 75) => tint((hunk * 137.5 + 65) % 360, light);

const HUES = { CODE: 255, DATA: 150, BSS: 200, EXT: 15, SYMBOL: 310, DEBUG: 60, NAME: 285 };

/** The colour of a block, by its kind: relocations are yellow, and headers grey. */
export function blockColour(kind, light = 78) {
  const name = kind === null ? "" : blockName(kind);
  return name === "" || name === "END" ? tint(0, light, 0) : tint(HUES[name] ?? 95, light);
}

const MEMORY_HUES = [0, 330, 45, 275];

/** The colour of a kind of memory, by its number in a row of the table: that of any memory is grey. */
export const memoryColour = (memory) => tint(MEMORY_HUES[memory], memory === 0 ? 80 : 55, memory === 0 ? 0 : 1);

/** The number of the last of so many that is at most this one, where `at` gives each and they rise; -1 where there is
 * none. */
export function lastOf(count, at, number) {
  let low = 0;
  let high = count;
  while (low < high) {
    const middle = (low + high) >> 1;
    if (at(middle) <= number) low = middle + 1;
    else high = middle;
  }
  return low - 1;
}

/** The number of the last element of a list that is at most this one; -1 where there is none. */
export const lastAt = (list, number) => lastOf(list.length, (i) => list[i], number);

/** The longword at a byte, high byte first. */
export const longAt = (bytes, at) =>
  ((bytes[at] << 24) | (bytes[at + 1] << 16) | (bytes[at + 2] << 8) | bytes[at + 3]) >>> 0;
