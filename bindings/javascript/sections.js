// What a hunk file is in ELF: a section for each hunk, its names, and what changes its bytes.
//
// A file is given as `{ units, findings, hunks, symbols, relocations, entries }`, rows as the library lists them, but that each
// symbol and each entry has its `name` as a text, of which each character is a byte, and each entry its `references`. `units` and
// `findings` of a load file are empty. Each hunk is `{ bytes, memory, kind, content }`: its bytes in memory, the name of that
// memory, the type of its content block, and the data of that. For a program the caller has the memory of each hunk, too.

import { MOST_LONG, whole } from "./arguments.js";
import { ABSOLUTE, COMMON, EXECUTABLE, FLAGS, GLOBAL, LOCAL, RELOCATABLE, STEP, UNDEFINED, write } from "./elf.js";
import { ENTRY_KINDS, KINDS, entryKindName, faultName, kindName } from "./kinds.js";

/** The name of a hunk's section, and its flags. */
const FORMS = {
  [KINDS.CODE]: [".text", FLAGS.ALLOC | FLAGS.CODE],
  [KINDS.DATA]: [".data", FLAGS.ALLOC | FLAGS.WRITE],
  [KINDS.BSS]: [".bss", FLAGS.ALLOC | FLAGS.WRITE],
};
/** The kinds of what changes bytes that have a form: R_68K_32 and the others. */
const FORMS_OF_BLOCKS = new Map([[KINDS.RELOC32, 1], [KINDS.ABSRELOC16, 2], [KINDS.RELRELOC32, 4], [KINDS.RELOC16, 5]]);
const FORMS_OF_ENTRIES = new Map([
  [ENTRY_KINDS.REF32, 1], [ENTRY_KINDS.COMMON, 1], [ENTRY_KINDS.ABSREF16, 2], [ENTRY_KINDS.ABSREF8, 3],
  [ENTRY_KINDS.RELREF32, 4], [ENTRY_KINDS.RELCOMMON, 4], [ENTRY_KINDS.REF16, 5],
]);
/** A branch of 8 bits counts from the byte after its own, and whether a linker for the Amiga adds that is not known. */
const NOT_TRIED = ["RELOC8", "REF8"];
/** Each hunk may have a section for its relocations, too, and numbers from FF00 on mean something else. */
const MOST_HUNKS = 0x7f00;
const COMMON_KINDS = [ENTRY_KINDS.COMMON, ENTRY_KINDS.RELCOMMON];

/** Says what of a file has no form in ELF, and at which byte it stands. */
export class NoForm extends Error {
  constructor(place, text) {
    super(`byte ${place}: ${text}`);
    this.name = "NoForm";
    this.place = place;
  }
}

// What changes bytes: relocations, and then references, in the order of the file.
function patchesOf({ relocations, entries }) {
  const found = relocations.map((it) => ({ ...it, form: FORMS_OF_BLOCKS.get(it.kind), what: kindName(it.kind) }));
  for (const { hunk, kind, name, references } of entries) {
    const its = { hunk, name, form: FORMS_OF_ENTRIES.get(kind), what: entryKindName(kind) };
    for (const it of references) found.push({ ...its, place: it.place, offset: it.offset, width: it.width });
  }
  return found;
}

/** Refuses bytes that are changed twice: ELF does not add there, the last one counts. */
function refuseTwice(file, patches) {
  const hex = (it) => `0x${it.toString(16)}`;
  const sorted = [...patches].sort((one, other) => one.hunk - other.hunk || one.offset - other.offset);
  sorted.slice(1).forEach((other, i) => {
    const one = sorted[i];
    if (one.hunk !== other.hunk || other.offset >= one.offset + one.width) return;
    const which = file.units.length > 0 ? `0.${other.hunk}` : other.hunk;
    const told = `the bytes at ${hex(one.offset)} and ${hex(other.offset)} of hunk ${which} are relocated, and overlap`;
    throw new NoForm(other.place, `${told}: ELF does not add twice`);
  });
}

function refuseKind({ place, form, what }) {
  if (NOT_TRIED.includes(what)) {
    throw new NoForm(place, `${what} is not converted: from which byte it counts is not known for sure`);
  }
  if (form === undefined) throw new NoForm(place, `${what} has no form in ELF: it counts from a base register`);
}

/** Refuses what can't be one file of ELF. */
function refuseUnits({ units, findings, hunks }) {
  for (const { place, fault } of findings) {
    throw new NoForm(place, `${faultName(fault)}: an offset or a target that is wrong has no form in ELF`);
  }
  if (units.length > 1) throw new NoForm(units[1].place, `there are ${units.length} units, and a file of ELF is one`);
  if (hunks.length > MOST_HUNKS) {
    throw new NoForm(0, `there are ${hunks.length} hunks, and a file of ELF has at most ${MOST_HUNKS}`);
  }
}

/** A name as a message has it. */
const shown = (name) =>
  Array.from(name, (it) => (it >= " " && it <= "~" && it !== "\\" ? it : `\\x${it.charCodeAt(0).toString(16).padStart(2, "0")}`)).join("");

/** The symbol of an entry of an EXT block. The value of a common block is what it is aligned to. */
function symbolOf({ kind, hunk, value, name }) {
  const made = { name, value, section: hunk, binding: GLOBAL, size: 0 };
  if (kind === ENTRY_KINDS.SYMB) return { ...made, binding: LOCAL };
  if (kind === ENTRY_KINDS.DEF) return made;
  if (kind === ENTRY_KINDS.ABS) return { ...made, section: ABSOLUTE };
  if (COMMON_KINDS.includes(kind)) return { ...made, value: STEP, section: COMMON, size: value };
  return { ...made, value: 0, section: UNDEFINED };
}

/** What a name is that an entry has once more: as it is defined, else a common block, else undefined. */
function merged(known, entry) {
  const made = symbolOf(entry);
  if (known.section === UNDEFINED) return made;
  if (known.section === COMMON && made.section !== UNDEFINED) {
    return made.section === COMMON ? { ...made, size: Math.max(known.size, made.size) } : made;
  }
  if (made.section !== UNDEFINED && made.section !== COMMON) throw new NoForm(entry.place, `${shown(made.name)} is defined twice`);
  return known;
}

const localOf = ({ name, value, hunk }) => ({ name, value, section: hunk, binding: LOCAL, size: 0 });

/** The names of a file: those that only a debugger needs, and then each of EXT blocks once. An empty one is left out. */
function symbolsOf({ symbols, entries }) {
  const found = new Map();
  const own = symbols.map(localOf);
  for (const entry of entries) {
    const it = symbolOf(entry);
    if (it.binding === LOCAL) own.push(it);
    else if (it.name !== "") found.set(it.name, found.has(it.name) ? merged(found.get(it.name), entry) : it);
    else if (entry.references.length > 0) throw new NoForm(entry.place, "what is referred to has no name");
  }
  return [...own.filter(({ name }) => name !== ""), ...found.values()];
}

/** Of each hunk whether it is not zero in memory: all but a BSS of which nothing is relocated. */
export function notZero(file, patches = patchesOf(file)) {
  const changed = new Set(patches.map(({ hunk }) => hunk));
  return file.hunks.map(({ kind }, i) => kind !== KINDS.BSS || changed.has(i));
}

/** A hunk's section, with the content that it gets. */
function sectionOf({ bytes, memory, kind }, i, address, content, relocations) {
  const [name, flags] = FORMS[kind];
  return { name: `${name}.hunk${i}${memory === "any" ? "" : `.${memory}`}`, flags, address, size: bytes, content, relocations };
}

/** The number that stands in a hunk, with its sign. */
function addendAt(content, { offset, width }) {
  const view = new DataView(content.buffer, content.byteOffset, content.byteLength);
  return width === 4 ? view.getInt32(offset) : width === 2 ? view.getInt16(offset) : view.getInt8(offset);
}

/** The file of ELF that a linker takes. */
export function relocatable(file) {
  refuseUnits(file);
  const patches = patchesOf(file);
  const symbols = symbolsOf(file);
  refuseTwice(file, patches);
  patches.forEach(refuseKind);
  const has = notZero(file, patches);
  const contents = file.hunks.map(({ bytes, content }, i) => {
    const made = new Uint8Array(has[i] ? bytes : 0);
    if (has[i]) made.set(content);
    return made;
  });
  const places = new Map(symbols.map(({ name, binding }, i) => [binding === GLOBAL ? name : "", i]));
  const relocations = file.hunks.map(() => []);
  for (const it of patches) {
    const row = { offset: it.offset, kind: it.form, addend: addendAt(contents[it.hunk], it) };
    relocations[it.hunk].push(it.name === undefined ? { ...row, section: it.target } : { ...row, symbol: places.get(it.name) });
  }
  const sections = file.hunks.map((hunk, i) => sectionOf(hunk, i, 0, contents[i], relocations[i]));
  return write(RELOCATABLE, sections, symbols);
}

/** The program of ELF that is loaded at the base, of which this is the memory of each hunk. It begins where its first one does. */
export function program(file, base, memory) {
  whole("base", base, MOST_LONG);
  refuseUnits(file);
  const has = notZero(file);
  let next = base;
  const sections = file.hunks.map((hunk, i) => {
    const address = next % 2 ** 32;
    next += hunk.bytes;
    return sectionOf(hunk, i, address, has[i] ? memory[i] : new Uint8Array(0), []);
  });
  const placed = ({ section, value, ...it }) => ({ ...it, section, value: (sections[section].address + value) % 2 ** 32 });
  return write(EXECUTABLE, sections, file.symbols.map(localOf).filter(({ name }) => name !== "").map(placed), base);
}
