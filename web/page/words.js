// The words of the page: each is told where it stands, by the title of what has it, and all of them at the end of the
// page.

/** @type {Record<string, string>} */
export const WORDS = {
  hunk: "A piece of a program that is loaded to one place: code, data, or room that begins as zeros (BSS).",
  "load file": "A program as AmigaDOS loads it: a header, and its hunks.",
  "object file": "A part of a program, as a compiler writes it; a linker joins it with others.",
  unit: "The hunks of one object file. Several units may stand in a file, one behind the other.",
  longword: "Four bytes, as one number: the first byte counts most.",
  block: "A part of a file with a word that says what it is: content, relocations, symbols, or the END of a hunk.",
  base: "The address that a hunk is loaded to.",
  offset: "How many bytes behind the first byte of a hunk something stands, in hexadecimal.",
  relocation: "An offset in a hunk at which the base of a hunk, its target, is added.",
  symbol: "A name of an offset in a hunk, as debuggers show it.",
  "external name": "A name that an object file defines for others, or that it has of them.",
  reference: "An offset at which a linker fills in what a name of another file stands for.",
  finding: "An offset of an object file that leads to no hunk, or outside of one. The file is accepted.",
  warning: "Something in a load file that may make it crash, as a pointer that leads elsewhere. The file is accepted.",
  "another spelling":
    "With short relocations, or with an END left out. Later versions of AmigaDOS load it, and --wide reads it.",
  "plain spelling": "What says the same as another spelling, with long relocations and each END.",
  stripped: "Without names, symbols and debug data. It is loaded to the same memory.",
  "any memory": "The hunk may be loaded to memory of any kind.",
  "chip memory": "The hunk is to lie where the custom chips reach it.",
  "fast memory": "The hunk is to lie where the custom chips do not slow the processor.",
  "memory by attributes": "A longword behind the size says what kind of memory the hunk is to lie in.",
  sum: "SHA-256 of the program without names, symbols and debug data, or else of the file: its first digits.",
  undefined: "A name that an object file asks for, and that none of the files here defines. In a table, how many.",
};

/** Of kinds of blocks, and the classes of files in the words of `hunk survey`.
 * @type {Record<string, string>} */
export const KIND_WORDS = {
  HEADER: "What a load file begins with: how many hunks it has, and the size and the memory of each.",
  UNIT: "What an object file begins with: the name of a unit.",
  NAME: "The name of a hunk.",
  CODE: "The content of a hunk: instructions.",
  DATA: "The content of a hunk: data.",
  BSS: "A hunk without content: its memory begins as zeros.",
  RELOC32: "Offsets of longwords at which the base of a target is added.",
  RELOC32SHORT: "The same, in 16 bits an offset.",
  RELRELOC32: "Offsets of longwords that a linker relocates in another way.",
  RELOC16: "Offsets of fields of 16 bits that a linker relocates.",
  RELOC8: "Offsets of bytes that a linker relocates.",
  DREL32: "In a load file short relocations; in an object file offsets of longwords that a linker relocates.",
  DREL16: "Offsets of fields of 16 bits that a linker relocates.",
  DREL8: "Offsets of bytes that a linker relocates.",
  ABSRELOC16: "Offsets of fields of 16 bits that a linker relocates.",
  EXT: "Names that a unit defines, and those that it refers to.",
  SYMBOL: "Names of offsets in a hunk.",
  DEBUG: "Data for debuggers, in forms of their own.",
  END: "The end of a hunk.",
  OVERLAY: "A table of parts that are loaded later.",
  BREAK: "The end of a part that is loaded later.",
};

/** @type {Record<string, string>} */
const CLASS_WORDS = {
  load: "Load files that are accepted.",
  object: "Object files that are accepted, without findings.",
  findings: "Object files that are accepted, with findings.",
  wide: "Files in another spelling: --wide reads them.",
  "no hunk file": "Files that begin otherwise.",
  "not supported": "Hunk files with something that is not read here, as overlays.",
  damaged: "Hunk files that are wrong somewhere.",
  "not judged": "Files that were not read, or not to their end.",
};

/** Heads of columns that are no words of the format.
 * @type {Record<string, string>} */
const HEAD_WORDS = {
  at: "The byte of the file at which it stands, in hexadecimal.",
  target: "The hunk whose base is added.",
  "of it": "The offset that the longword has of its target, in hexadecimal.",
  source: "What is relocated: the symbol before it, and how many bytes behind that it stands, in hexadecimal.",
  "leads to": "What the longword points at: a symbol of the target, and how many bytes behind that, in hexadecimal.",
  kind: "The kind of block that has it.",
  memory: "The kind of memory that the hunk is to lie in.",
  relocated: "How many relocations the hunk has.",
  value: "The offset in its hunk that a name stands for, in hexadecimal; of an absolute one the number.",
  address: "Where it is in memory, in hexadecimal.",
  entry: "DEF, ABS: the name is defined. All others: it is asked for, at so many offsets.",
  used: "How many offsets refer to it.",
  "in memory": "The bytes of all hunks once they are loaded.",
  "refused at": "The byte at which reading ended.",
  reason: "Why it is refused, by the name that all programs here have for it.",
  file: "The name that it was found by.",
  class: "What it is, in the words of hunk survey.",
  "what it is": "By its first bytes.",
  "same as": "The first of these files with the same sum, and which sum that is.",
};

/** What a text means that has a word alone, in any number; nothing of others. */
export function meaningOf(text) {
  const one = text.replace(/s$/, "").toLowerCase();
  return KIND_WORDS[text] ?? HEAD_WORDS[text] ?? WORDS[text] ?? WORDS[one] ?? "";
}

export const meaningOfClass = (name) => CLASS_WORDS[name] ?? "All files.";

const IN_TEXTS = new RegExp(`\\b(${Object.keys(WORDS).join("|")})(s?)\\b`, "gi");

/** A text in which the title of each word that is told above says what it means. */
export function explained(text) {
  const made = document.createDocumentFragment();
  let behind = 0;
  for (const found of text.matchAll(IN_TEXTS)) {
    const word = Object.assign(document.createElement("abbr"), { textContent: found[0], title: meaningOf(found[0]) });
    made.append(text.slice(behind, found.index), word);
    behind = found.index + found[0].length;
  }
  made.append(text.slice(behind));
  return made;
}

/** Has a list tell all words of the format. */
export function tellWords(list) {
  for (const [word, meaning] of Object.entries({ ...WORDS, ...KIND_WORDS })) {
    const [term, told] = ["dt", "dd"].map((name) => document.createElement(name));
    term.textContent = word;
    told.textContent = meaning;
    list.append(term, told);
  }
}
