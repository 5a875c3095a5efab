// The names of the format's numbers, as the tables of docs/FORMAT.md have them. The page of web/ shows these, too.

import { MOST_LONG, whole } from "./arguments.js";

/** The types of blocks. An advisory block may have any other number. */
export const KINDS = Object.freeze({
  UNIT: 0x3e7,
  NAME: 0x3e8,
  CODE: 0x3e9,
  DATA: 0x3ea,
  BSS: 0x3eb,
  RELOC32: 0x3ec,
  RELOC16: 0x3ed,
  RELOC8: 0x3ee,
  EXT: 0x3ef,
  SYMBOL: 0x3f0,
  DEBUG: 0x3f1,
  END: 0x3f2,
  HEADER: 0x3f3,
  OVERLAY: 0x3f5,
  BREAK: 0x3f6,
  DREL32: 0x3f7,
  DREL16: 0x3f8,
  DREL8: 0x3f9,
  LIB: 0x3fa,
  INDEX: 0x3fb,
  RELOC32SHORT: 0x3fc,
  RELRELOC32: 0x3fd,
  ABSRELOC16: 0x3fe,
});

/** The types of EXT entries: SYMB, DEF and ABS define their name, all others refer to it. */
export const ENTRY_KINDS = Object.freeze({
  SYMB: 0,
  DEF: 1,
  ABS: 2,
  REF32: 129,
  COMMON: 130,
  REF16: 131,
  REF8: 132,
  DEXT32: 133,
  DEXT16: 134,
  DEXT8: 135,
  RELREF32: 136,
  RELCOMMON: 137,
  ABSREF16: 138,
  ABSREF8: 139,
});

/** The flags of a block's word. */
export const FLAGS = Object.freeze({ ADVISORY: 1, CHIP: 2, FAST: 4 });

/** What is wrong with an offset of an object file. */
export const FAULTS = Object.freeze({ BadTarget: 1, OutsideHunk: 2 });

/** What a part is: a hunk of a load file, a unit, a block, a group of offsets, a symbol or an entry. */
export const PARTS = Object.freeze({ HUNK: 1, UNIT: 2, BLOCK: 3, GROUP: 4, SYMBOL: 5, ENTRY: 6 });

/** The kinds of warnings of load files. `docs/warnings` writes this from docs/warnings.tsv. */
export const WARNINGS = Object.freeze({
  OddOffset: 1,
  Twice: 2,
  Overlap: 3,
  InBss: 4,
  OutsideTarget: 5,
  SymbolOutside: 6,
  NoEntry: 7,
  MemoryIgnored: 8,
});

/** The memory that a hunk asks for, by the number in its row of the table. */
export const MEMORIES = Object.freeze(["any", "chip", "fast", "attributes"]);

const byNumber = (names) => new Map(Object.entries(names).map(([name, number]) => [number, name]));
const KIND_NAMES = byNumber(KINDS);
const ENTRY_NAMES = byNumber(ENTRY_KINDS);
const FAULT_NAMES = byNumber(FAULTS);
const WARNING_NAMES = byNumber(WARNINGS);

/** The most that a block's type is, which has 29 bits, an entry's of 8 bits, and its flags, of 3. */
const MOST_KIND = 2 ** 29 - 1;
const MOST_ENTRY_KIND = 255;
const MOST_FLAGS = 7;

/** The name of a block's type, as "CODE"; of one that is in no table "ADVISORY" and its number, as the program prints it. */
export const kindName = (kind) => KIND_NAMES.get(whole("kind", kind, MOST_KIND)) ?? `ADVISORY ${kind}`;

/** The name of an EXT entry's type, as "REF32". */
export const entryKindName = (kind) => ENTRY_NAMES.get(whole("kind", kind, MOST_ENTRY_KIND)) ?? `type ${kind}`;

/** The names of the flags that are set, as ["chip"]. */
export function flagNames(flags) {
  whole("flags", flags, MOST_FLAGS);
  return Object.keys(FLAGS).filter((name) => flags & FLAGS[name]).map((name) => name.toLowerCase());
}

/** The name of a finding's fault, as "BadTarget". */
export const faultName = (fault) => FAULT_NAMES.get(whole("fault", fault, MOST_LONG)) ?? `fault ${fault}`;

/** The name of a warning's kind, as "OddOffset". */
export const warningName = (kind) => WARNING_NAMES.get(whole("kind", kind, MOST_LONG)) ?? `kind ${kind}`;
