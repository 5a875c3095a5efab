// What the library says of a file.

import { HunkError } from "../../bindings/javascript/hunk.js";
import { Contents } from "./contents.js";
import { Defined } from "./defined.js";
import { Front } from "./front.js";
import { Labels } from "./labels.js";
import { Parts } from "./parts.js";
import { filePlace, memoryPlace, memoryRange, textPlace } from "./places.js";
import { refusalOf } from "./reasons.js";
import { Spelled } from "./spelled.js";
import { Warned } from "./warned.js";

/** The most bytes of memory, blocks and other items that are shown of a file. */
const MOST_MEMORY = 1 << 28;
const MOST_BLOCKS = 1 << 20;
const MOST_ITEMS = 1 << 21;

const OBJECT = 0x3e7;
const LOAD = 0x3f3;
const BUDGET = 27;

/** Where the first size word of a header stands, and the kind of memory that has attributes. */
const SIZES = 20;
const ATTRIBUTES = 3;

/** What a load file may be refused for that is good in its plain spelling: ShortReloc, SecondContent and Truncated. */
const OF_SPELLING = [13, 17, 26];

/** What the call answers, or the HunkError that it throws. */
function tried(call) {
  try {
    return [call(), null];
  } catch (error) {
    if (!(error instanceof HunkError)) throw error;
    return [null, error];
  }
}

function firstLong(bytes) {
  return bytes.length < 4 ? null : new DataView(bytes.buffer, bytes.byteOffset).getUint32(0);
}

/** What is known of a file.
 * @typedef {{ kind: string, refusal?: any, strict?: any, spelling?: any, length?: number, hunks?: number,
 *   declared?: number, warnings?: number, units?: number, findings?: number }} About */

/** What a file is, in a few numbers: its kind, and the two of the conformance suite, or its refusal.
 * @returns {About} */
export function summary(hunk, bytes) {
  const first = firstLong(bytes);
  const kind = first === OBJECT ? "object file" : first === LOAD ? "load file" : "other file";
  const [checked, error] = tried(() => hunk.check(bytes, 0));
  if (error) return { kind, refusal: refusalOf(error, bytes) };
  const { hunks, bytes: length } = checked;
  if (hunks > 0) {
    return { kind, hunks, length, declared: declared(hunk, bytes), warnings: hunk.warnings(bytes, 0).count };
  }
  return { kind, hunks, length, units: hunk.units(bytes, 0).count, findings: checked.count };
}

/** The plain spelling of bytes that are refused, what that is, and the byte of the input where it is refused.
 * @param {About} about */
function plainReading(hunk, input, about) {
  const { refusal } = about;
  if (!OF_SPELLING.includes(refusal?.number)) return null;
  const spelling = hunk.spelling(input);
  if (spelling.shortBlocks + spelling.ends === 0) return null;
  const bytes = hunk.plain(input);
  const plain = { ...summary(hunk, bytes), spelling, strict: refusal };
  return { bytes, about: plain, fault: plain.refusal && hunk.inputPlace(input, plain.refusal.place) };
}

/** The same, where it is accepted. */
export function inPlain(hunk, bytes, about) {
  const reading = plainReading(hunk, bytes, about);
  return reading?.about.refusal ? null : reading;
}

/** The bytes that a load file declares; there are 65,536 hunks at most. */
function declared(hunk, bytes) {
  return hunk.table(bytes, Number.MAX_SAFE_INTEGER).size;
}

/** A file that is looked at. Its lists are read when they are first asked for. Where it is refused they have what
 * stands before the fault, if that is anything: its `front`. */
export class Examined {
  /** Which of its readings is shown: 0 is the input as it is, 1 its plain spelling, as where only that is accepted. */
  constructor(hunk, input, name, which) {
    const about = summary(hunk, input);
    const plain = plainReading(hunk, input, about);
    this.readings = [{ bytes: input, about, fault: about.refusal?.place }, ...(plain ? [plain] : [])];
    this.which = which ?? (plain && !plain.about.refusal ? 1 : 0);
    this.reading = this.readings[this.which];
    this.hunk = hunk;
    this.input = input;
    this.bytes = this.reading.bytes;
    this.name = name;
    /** @type {About} */
    this.about = this.reading.about;
    /** The address that it is loaded to. */
    this.base = 0;
    /** What is made when it is first asked for. */
    this.made = {};
    /** Where it is refused. */
    this.fault = this.about.refusal ? filePlace(this.reading.fault) : undefined;
    /** How its bytes stand to those that are read, where that is not as they are.
     * @type {Spelled | null} */
    this.spelled = null;
    /** @type {Record<string, any>} */
    this.lists = {};
    this.table = null;
    this.front = null;
    this.hasBlocks = false;
    if (this.about.refusal && !this.#readFront()) return;
    if (this.about.hunks > 0) this.#readTable();
    const { rows, count } = this.list("blocks");
    this.blocks = rows;
    const units = this.table ? null : this.list("units");
    this.hasBlocks = rows.length === count && units?.rows.length === units?.count;
    this.blockPlaces = Float64Array.from({ length: rows.length }, (_, i) => rows.get(i, "place"));
    if (this.about.spelling) this.spelled = new Spelled(input, rows);
  }

  /** Whether it can be loaded: all of it, and not only what stands before a fault. */
  get isLoadable() {
    return this.table !== null && this.front === null;
  }

  /** The byte of the file at which a byte of what is read stands.
   * @param {import("./places.js").TextPlace} place */
  inFile(place) {
    return this.spelled ? this.spelled.inFile(place) : filePlace(place);
  }

  /** The byte of what is read that stands at one of the file.
   * @param {import("./places.js").FilePlace} place */
  inText(place) {
    return this.spelled ? this.spelled.inText(place) : textPlace(place);
  }

  /** Where what is read ends in the file, and what is after it or after a fault begins. */
  get end() {
    return this.inFile(textPlace(this.about.length));
  }

  /** The type of a block as the file has it; nothing for one that is put in. */
  typeOf({ place, kind }) {
    return this.spelled ? this.spelled.typeOf(textPlace(place), kind) : kind;
  }

  /** The bytes of the file at which so many bytes of what is read stand.
   * @param {import("./places.js").TextPlace} place
   * @param {number} bytes
   * @returns {import("./places.js").FileRange} */
  range(place, bytes) {
    return { from: this.inFile(place), to: this.inFile(textPlace(place + bytes)) };
  }

  /** So many bytes of the memory from an offset of a hunk on, as far as they are in it; nothing where none is.
   * @returns {import("./places.js").MemoryRange | undefined} */
  inMemory(hunk, offset, bytes) {
    const rest = this.isLoadable ? this.table.rows.get(hunk, "bytes") - offset : 0;
    return rest > 0 ? memoryRange(memoryPlace(this.starts[hunk] + offset), Math.min(bytes, rest)) : undefined;
  }

  /** Reads what stands before the fault; whether that is anything. */
  #readFront() {
    const found = this.hunk.front(this.bytes);
    if (found.bytes > 0) this.front = new Front(found);
    this.about = { ...this.about, hunks: found.hunks, length: found.bytes };
    return this.front !== null;
  }

  #readTable() {
    const [table, refusal] = tried(() => this.hunk.table(this.bytes, MOST_MEMORY));
    if (refusal && refusal.number !== BUDGET) throw refusal;
    this.table = table ?? this.hunk.table(this.bytes, Number.MAX_SAFE_INTEGER);
    this.isTooLarge = table === null;
    this.starts = new Float64Array(this.table.rows.length);
    let at = 0;
    for (let i = 0; i < this.starts.length; i++) {
      this.starts[i] = at;
      at += this.table.rows.get(i, "bytes");
    }
  }

  /** The rows of a table of the library, where they are not too many.
   * @template {keyof import("./rowtypes.js").RowTypes} Name
   * @param {Name} name
   * @returns {{ count: number, rows: import("./rowtypes.js").RowsOf<import("./rowtypes.js").RowTypes[Name]> }} */
  list(name) {
    this.lists[name] ??= this.#listed(name);
    return this.lists[name];
  }

  #listed(name) {
    const listed = this.hunk[name](this.front?.text ?? this.bytes, name === "blocks" ? MOST_BLOCKS : MOST_ITEMS);
    return this.front ? this.front.only(name, listed) : listed;
  }

  /** The memory of a load file from this address on, or why there is none. */
  load(base) {
    return tried(() => this.hunk.loadPacked(this.bytes, base, MOST_MEMORY).memory);
  }

  /** Where the relocated longs of a load file stand in its memory, rising, and the target of each. */
  relocated() {
    if (this.relocatedLongs) return this.relocatedLongs;
    const { rows } = this.list("relocations");
    // A place and a target in one number, below 2^53, so that they are sorted together.
    const both = new Float64Array(rows.length);
    for (let i = 0; i < rows.length; i++) {
      both[i] = (this.starts[rows.get(i, "hunk")] + rows.get(i, "offset")) * 65536 + rows.get(i, "target");
    }
    both.sort();
    const places = both.map((it) => Math.floor(it / 65536));
    const targets = Uint16Array.from(both, (it) => it % 65536);
    this.relocatedLongs = { places, targets };
    return this.relocatedLongs;
  }

  /** Where the contents of its hunks stand. */
  contents() {
    this.made.contents ??= new Contents(this);
    return this.made.contents;
  }

  /** The symbols of a load file by where they stand in its memory. */
  labels() {
    this.made.labels ??= new Labels(this);
    return this.made.labels;
  }

  /** The symbols of any file by their places in its hunks. */
  symbols() {
    if (this.table) return this.labels();
    this.made.symbols ??= new Defined(this);
    return this.made.symbols;
  }

  /** Its warnings by their places; only a load file that is accepted has any. */
  warned() {
    this.made.warned ??= new Warned(this);
    return this.made.warned;
  }

  /** Where the size word of each hunk of a load file stands: behind one whose memory has attributes these follow. */
  sizePlaces() {
    if (this.sizes) return this.sizes;
    const { rows } = this.table;
    this.sizes = new Float64Array(rows.length);
    for (let i = 0, at = SIZES; i < rows.length; i++) {
      this.sizes[i] = at;
      at += rows.get(i, "memory") === ATTRIBUTES ? 8 : 4;
    }
    return this.sizes;
  }

  /** The parts of a block; those of the last one are kept. */
  partsOf(block) {
    if (this.parts?.place !== block.place) this.parts = new Parts(this.bytes, block);
    return this.parts;
  }

  /** How many relocations each hunk of a load file has. */
  relocationCounts() {
    const counts = new Float64Array(this.starts.length);
    const { rows } = this.list("relocations");
    for (let i = 0; i < rows.length; i++) counts[rows.get(i, "hunk")] += 1;
    return counts;
  }

  /** The kinds of blocks that it has. */
  kinds() {
    const found = new Set();
    for (let i = 0; i < this.blocks.length; i++) found.add(this.blocks.get(i, "kind"));
    return [...found].sort((one, other) => one - other);
  }

  /** The bytes of findings in the file, rising. */
  findingPlaces() {
    const { rows } = this.list("check");
    return Float64Array.from({ length: rows.length }, (_, i) => rows.get(i, "place")).sort();
  }
}
