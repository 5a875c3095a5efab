// Files of ELF for the 68000, of 32 bits and high byte first: sections, symbols, relocations, and what is loaded. The command
// `hunk convert` of bindings/python writes the same bytes.

export const RELOCATABLE = 1;
export const EXECUTABLE = 2;
export const FLAGS = Object.freeze({ WRITE: 1, ALLOC: 2, CODE: 4 });
/** What a symbol belongs to that is in no section. */
export const UNDEFINED = -1;
export const ABSOLUTE = 0xfff1;
export const COMMON = 0xfff2;
export const LOCAL = 0;
export const GLOBAL = 1;
/** Where parts of a file begin, and what a common block is aligned to. */
export const STEP = 4;

const [PROGBITS, SYMTAB, STRTAB, RELA, NOBITS] = [1, 2, 3, 4, 8];
const [HEADER, SEGMENT, SECTION, SYMBOL, RELOCATION] = [52, 32, 40, 16, 12];
const [M68K, LOADED, READ_WRITE, READ_RUN, OF_SECTION, INFO_LINK] = [4, 1, 6, 5, 3, 0x40];
const MAGIC = [0x7f, 0x45, 0x4c, 0x46, 1, 2, 1, 0, 0, 0, 0, 0, 0, 0, 0, 0];

/** Bytes that grow. */
class Bytes {
  #room = new Uint8Array(1 << 12);
  length = 0;

  put(bytes) {
    const length = this.length + bytes.length;
    if (length > this.#room.length) {
      const room = new Uint8Array(2 * length);
      room.set(this.all());
      this.#room = room;
    }
    this.#room.set(bytes, this.length);
    this.length = length;
  }

  all() {
    return this.#room.subarray(0, this.length);
  }
}

/** Numbers of 32 bits, and of 16. */
function longs(...values) {
  const view = new DataView(new ArrayBuffer(4 * values.length));
  values.forEach((value, i) => view.setUint32(4 * i, value));
  return new Uint8Array(view.buffer);
}
const shorts = (...values) => Uint8Array.from(values.flatMap((value) => [value >> 8, value & 0xff]));

/** The bytes of a text, of which each character is one. */
const bytesOf = (text) => Uint8Array.from(text, (it) => it.charCodeAt(0));

/** A table of names, each ended by a zero byte, and each there once. */
class Names {
  bytes = new Bytes();
  #places = new Map([["", 0]]);

  constructor() {
    this.bytes.put([0]);
  }

  place(name) {
    if (!this.#places.has(name)) {
      this.#places.set(name, this.bytes.length);
      this.bytes.put(bytesOf(`${name}\0`));
    }
    return this.#places.get(name);
  }
}

/** Puts parts one after the other, each at a multiple of 4, and notes the heads of sections. */
class Writer {
  bytes = new Bytes();
  names = new Names();
  heads = [new Uint8Array(SECTION)];

  constructor(start) {
    this.bytes.put(new Uint8Array(start));
  }

  /** Puts a part, and answers where it stands. */
  put(content) {
    this.bytes.put(new Uint8Array((STEP - (this.bytes.length % STEP)) % STEP));
    const place = this.bytes.length;
    this.bytes.put(content);
    return place;
  }

  /** Adds a section, and answers where its content stands. An address that is no multiple of 4 has no alignment. */
  add({ name, flags, address, size, content }, kind, link = 0, info = 0, step = 0) {
    const place = this.put(content);
    const align = kind === STRTAB || address % STEP ? 1 : STEP;
    this.heads.push(longs(this.names.place(name), kind, flags, address, place, size, link, info, align, step));
    return place;
  }
}

/** A section that is not loaded. */
const table = (name, content, flags = 0) => ({ name, flags, address: 0, size: content.length, content });

/** The table of symbols: an empty one, one for each section, and those with names. */
function symbolRows(sections, ordered, strings) {
  const bytes = new Bytes();
  const put = (name, value, size, info, section) => {
    bytes.put(longs(name, value, size));
    bytes.put([info, 0, ...shorts(section)]);
  };
  bytes.put(new Uint8Array(SYMBOL));
  sections.forEach(({ address }, i) => put(0, address, 0, OF_SECTION, i + 1));
  for (const { name, value, size, binding, section } of ordered) {
    put(strings.place(name), value, size, binding << 4, section >= ABSOLUTE ? section : section + 1);
  }
  return bytes.all();
}

/** The relocations of a section. A symbol of theirs stands at its place in the table; a section's own is before them. */
function relocationRows(relocations, places) {
  const bytes = new Bytes();
  for (const { offset, kind, addend, symbol, section } of relocations) {
    const which = section === undefined ? places[symbol] : section + 1;
    bytes.put(longs(offset, (which << 8) | kind, addend));
  }
  return bytes.all();
}

/** Puts the sections that are memory. Answers a segment for each that has bytes. */
function putSections(writer, sections) {
  const segments = [];
  for (const it of sections) {
    const place = writer.add(it, it.content.length > 0 ? PROGBITS : NOBITS);
    const access = it.flags & FLAGS.CODE ? READ_RUN : READ_WRITE;
    if (it.size > 0) segments.push(longs(LOADED, place, it.address, it.address, it.content.length, it.size, access, 1));
  }
  return segments;
}

/** Puts the symbols, those that only this file knows before the others, and the relocations of each section. */
function putTables(writer, sections, symbols) {
  const order = symbols.map((_, i) => i).sort((one, other) => symbols[one].binding - symbols[other].binding || one - other);
  const first = 1 + sections.length;
  const strings = new Names();
  const places = [];
  order.forEach((i, n) => (places[i] = first + n));
  const rows = symbolRows(sections, order.map((i) => symbols[i]), strings);
  const local = first + symbols.filter(({ binding }) => binding === LOCAL).length;
  writer.add(table(".symtab", rows), SYMTAB, first + 1, local, SYMBOL);
  writer.add(table(".strtab", strings.bytes.all()), STRTAB);
  sections.forEach(({ name, relocations }, i) => {
    if (relocations.length === 0) return;
    writer.add(table(`.rela${name}`, relocationRows(relocations, places), INFO_LINK), RELA, first, i + 1, RELOCATION);
  });
}

/** The bytes in front of a file: its header, and its segments. */
function frontOf(kind, entry, segments, heads, sections) {
  const [program, step] = segments.length > 0 ? [HEADER, SEGMENT] : [0, 0];
  const front = new Bytes();
  front.put(MAGIC);
  front.put(shorts(kind, M68K));
  front.put(longs(1, entry, program, heads, 0));
  front.put(shorts(HEADER, step, segments.length, SECTION, sections, sections - 1));
  for (const segment of segments) front.put(segment);
  return front.all();
}

/** The bytes of a file. Where it is executable, each section is loaded to its address. */
export function write(kind, sections, symbols, entry = 0) {
  const count = kind === EXECUTABLE ? sections.filter(({ size }) => size > 0).length : 0;
  const writer = new Writer(HEADER + SEGMENT * count);
  const segments = putSections(writer, sections).slice(0, count);
  putTables(writer, sections, symbols);
  writer.names.place(".shstrtab");
  writer.add(table(".shstrtab", writer.names.bytes.all()), STRTAB);
  const heads = new Bytes();
  for (const head of writer.heads) heads.put(head);
  const place = writer.put(heads.all());
  writer.bytes.all().set(frontOf(kind, entry, segments, place, writer.heads.length));
  return writer.bytes.all().slice();
}
