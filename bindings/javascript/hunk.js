// Hunk files of AmigaDOS in JavaScript: the calls of hunk.h over a WebAssembly module of the caller's choice.
//
//     import { Hunk } from "hunk-files/hunk.js";
//     const hunk = await Hunk.open(fetch("hunk.wasm"));
//     const { memory } = hunk.loadPacked(bytes, 0x21000);
//
// `open` of the package does the same with a module of its own. A file is a Uint8Array or an Input, and is never changed. What a
// call refuses it throws as a HunkError; an argument that is none is a TypeError or RangeError, before anything is done.
// hunk.d.ts has each call with its types; hunk.h says what is answered when.

import { bytesOf, callable, longs, MOST_BYTES, MOST_LONG, refuseKind, whole } from "./arguments.js";
import { Loader } from "./loader.js";
import { Input, Memory, words } from "./memory.js";
import { packed, Part, partOfRow } from "./parts.js";
import { copyOf, Rows } from "./rows.js";
import { LAYOUTS } from "./structs.js";

export * from "./kinds.js";
export { Input, LAYOUTS, Loader, Part, Rows };

/** The number of the C interface for which this file was written. */
export const ABI = 1;

/** The most bytes that the hunks of a file may have in memory together, where a caller does not say. */
export const BUDGET = 1 << 24;

const OK = 0;
const NO_ROOM = 32;
const STRANGE = 33;
const LONGWORD = 4;

/** A module that has nothing but a 64-bit memory. */
const MEMORY64 = new Uint8Array([0, 97, 115, 109, 1, 0, 0, 0, 5, 3, 1, 4, 1]);

/** Whether the engine takes hunk.wasm, which has a 64-bit memory; hunk32.wasm is for the others. */
export const takesMemory64 = () => WebAssembly.validate(MEMORY64);

/** Says that a call refused its bytes: why, by `reason`, `number` and `text`, and at which byte, `place`. */
export class HunkError extends Error {
  constructor(answer, reason, text) {
    super(`refused at byte ${answer.place}: ${reason} (${answer.number})`);
    this.name = "HunkError";
    this.number = answer.number;
    this.reason = reason;
    this.text = text;
    this.place = answer.place;
    this.hunk = answer.hunk;
    this.count = answer.count;
  }
}

/** Says that parts spell no file that is accepted: `row` is the number of the part at fault, or of all where they end too soon. */
export class BuildError extends HunkError {
  constructor(answer, reason, text) {
    super(answer, reason, answer.number === STRANGE ? "no file has such a part there" : text);
    this.name = "BuildError";
    this.message = `part ${answer.count} ${this.message}`;
    this.row = answer.count;
  }
}

/** A row of `parts` with its bytes, as `build` takes it. */
export function partOf(bytes, row) {
  const file = bytes instanceof Input ? bytes.bytes : bytesOf("bytes", bytes, "a Uint8Array or an Input");
  if (row === null || typeof row !== "object") refuseKind("row", "a row of parts", row);
  return partOfRow(file, row);
}

/** The bytes of a name, as a text in which each character is a byte. */
export function nameOf(bytes, row) {
  const file = bytes instanceof Input ? bytes.bytes : bytesOf("bytes", bytes, "a Uint8Array or an Input");
  if (row === null || typeof row !== "object") refuseKind("row", "a row with a name", row);
  const { name, nameBytes } = row;
  const end = whole("row.name", name, MOST_BYTES) + whole("row.nameBytes", nameBytes, MOST_BYTES);
  if (end > file.length) throw new RangeError(`row: its name is not in these ${file.length} bytes, but in those of another file`);
  let text = "";
  for (let i = name; i < end; i++) text += String.fromCharCode(file[i]);
  return text;
}

const SOURCE = "a module, its bytes or what fetch answers";

/** A module of these bytes. */
async function compiledOf(bytes) {
  try {
    return await WebAssembly.compile(bytes);
  } catch (error) {
    if (error instanceof TypeError) refuseKind("source", SOURCE, bytes);
    throw error;
  }
}

/** The module of a source, compiled while it comes where an answer of fetch says what it is. */
async function compiled(source) {
  if (source === undefined || source === null) throw new TypeError("Hunk.open takes a module: `open` of the package has its own");
  if (typeof source.arrayBuffer !== "function") {
    return source instanceof WebAssembly.Module ? source : compiledOf(source);
  }
  if (source.ok === false) throw new Error(`${source.url} has status ${source.status}`);
  const isNamed = source.headers?.get("content-type")?.startsWith("application/wasm");
  if (isNamed && WebAssembly.compileStreaming) return WebAssembly.compileStreaming(source);
  return compiledOf(await source.arrayBuffer());
}

function putBases(lease, bases) {
  const at = lease.take(4 * bases.length);
  const { view } = lease.memory;
  for (let i = 0; i < bases.length; i++) view.setUint32(at + 4 * i, bases[i], true);
  return words({ at, length: bases.length });
}

/** The room that warnings of a file need at most: a longword for each of its own. */
function roomFor(lease, file) {
  const length = Math.floor(file.length / LONGWORD);
  return words({ at: lease.take(LONGWORD * length), length });
}

const overlap = (one, other) => one.at < other.at + other.length && other.at < one.at + one.length;

/** The library. */
export class Hunk {
  #module;
  #memory;

  constructor(module, instance) {
    if (typeof instance.exports.hunk_abi !== "function") throw new TypeError("source: this module has no calls of hunk.h");
    this.#module = module;
    this.#memory = new Memory(instance);
    if (this.abi() !== ABI) throw new TypeError(`this module has interface ${this.abi()}, and hunk.js ${ABI}`);
  }

  /** Opens a module: its bytes, a WebAssembly.Module, what fetch answers, or a promise of one of them. */
  static async open(source) {
    const module = await compiled(await source);
    return new Hunk(module, await WebAssembly.instantiate(module, {}));
  }

  /** The number of the C interface of the module. */
  abi() {
    return this.#memory.exports.hunk_abi();
  }

  /** So many bytes in the module's memory, which the caller fills; calls take them without a copy. */
  alloc(length) {
    return new Input(this.#memory, length);
  }

  /** A copy of the bytes in the module's memory, for more than one call. */
  put(bytes) {
    const found = this.#memory.find("bytes", bytes);
    const input = this.alloc(found.length);
    input.bytes.set(found.view ?? this.#memory.bytes(found.at, found.length));
    return input;
  }

  #text(name, number) {
    whole("number", number, MOST_LONG);
    const memory = this.#memory;
    return memory.within((lease) => {
      const { count } = memory.call(name, number, 0n, 0n);
      const at = lease.take(count);
      memory.call(name, number, ...words({ at, length: count }));
      return new TextDecoder().decode(memory.bytes(at, count).slice());
    });
  }

  /** The name of an answer's number, as "Budget"; nothing for 0. */
  reason(number) {
    return this.#text("hunk_reason", number);
  }

  /** A sentence that says what an answer's number means. */
  reasonText(number) {
    return this.#text("hunk_reason_text", number);
  }

  /** The error that an answer is thrown as. */
  error(answer) {
    return new HunkError(answer, this.reason(answer.number), this.reasonText(answer.number));
  }

  #answer(answer) {
    if (answer.number !== OK) throw this.error(answer);
    return answer;
  }

  /** What `use` answers, given the memory of a lease and the file as calls take it. */
  #with(bytes, use) {
    const found = this.#memory.find("bytes", bytes);
    return this.#memory.within((lease) => {
      const file = lease.place(found);
      return use(lease, words(file), file);
    });
  }

  /** A call that writes rows: it is asked how many there are, and then for these, unless they are more than `most`. Those of an
   * Input stand where they were written. What else the call takes after the file, `more` gives, of a lease and the file: anew for
   * each of the two, and after the rows, so that these do not stand behind what is given back. */
  #rows(name, layout, bytes, most, more = () => []) {
    const memory = this.#memory;
    return this.#with(bytes, (lease, file, place) => {
      const asked = memory.within((asking) => memory.call(name, ...file, ...more(asking, place), 0n, 0n));
      const count = name === "hunk_table" ? asked.hunk : asked.count;
      if (asked.number !== NO_ROOM) this.#answer(asked);
      if (asked.number !== NO_ROOM || count > most) return { answer: asked, rows: new Rows(layout, copyOf(new Uint8Array())) };
      const length = count * layout.size;
      const at = lease.take(length);
      const rest = more(lease, place);
      const answer = this.#answer(memory.call(name, ...file, ...rest, BigInt(at), BigInt(count)));
      const home = bytes instanceof Input ? bytes.home(lease, at, length) : copyOf(memory.bytes(at, length));
      return { answer, rows: new Rows(layout, home) };
    });
  }

  /** The table of a load file: a row for each hunk. */
  table(bytes, budget = BUDGET) {
    whole("budget", budget, MOST_BYTES);
    const { answer, rows } = this.#rows("hunk_table", LAYOUTS.row, bytes, Infinity, () => [BigInt(budget)]);
    return { header: answer.place, size: answer.count, rows };
  }

  /** The bytes of the hunks together, as the header says. */
  #size(file, budget) {
    const answer = this.#memory.call("hunk_table", ...file, BigInt(budget), 0n, 0n);
    return answer.number === NO_ROOM ? answer.count : this.#answer(answer).count;
  }

  #load(name, bytes, budget, of) {
    whole("budget", budget, MOST_BYTES);
    const memory = this.#memory;
    return this.#with(bytes, (lease, file) => {
      const length = this.#size(file, budget);
      const bases = of(lease);
      const at = lease.take(length);
      const answer = this.#answer(memory.call(name, ...file, ...bases, ...words({ at, length })));
      return { hunks: answer.hunk, bytes: answer.place, memory: memory.bytes(at, length).slice() };
    });
  }

  /** Loads a load file, each hunk for an address of its own. */
  load(bytes, bases, budget = BUDGET) {
    const list = longs("bases", bases);
    return this.#load("hunk_load", bytes, budget, (lease) => putBases(lease, list));
  }

  /** Loads each hunk of a load file for its own address, and to there: `memory` begins at the address `start`. Where that is an
   * Input, nothing is copied. */
  loadAt(bytes, bases, start, memory) {
    const list = longs("bases", bases);
    const first = whole("start", start, MOST_LONG) | 0;
    const [given, to] = [this.#memory.find("bytes", bytes), this.#memory.find("memory", memory)];
    return this.#memory.within((lease) => {
      const [file, room] = [lease.place(given), lease.place(to)];
      if (overlap(file, room)) throw new TypeError("memory: it overlaps the file");
      const listed = putBases(lease, list);
      const answer = this.#answer(this.#memory.call("hunk_load_at", ...words(file), ...listed, first, ...words(room)));
      to.view?.set(this.#memory.bytes(room.at, room.length));
      return { hunks: answer.hunk, bytes: answer.place, size: answer.count };
    });
  }

  /** Loads a load file for the addresses from `base` on. */
  loadPacked(bytes, base, budget = BUDGET) {
    const first = whole("base", base, MOST_LONG) | 0;
    return this.#load("hunk_load_packed", bytes, budget, () => [first]);
  }

  /** A loader for the file that has this table, each hunk for the address that is its base. */
  begin(table, bases) {
    return new Loader(this, this.#module, table, bases);
  }

  #list(name, layout, bytes, most = Infinity, more) {
    if (most !== Infinity) whole("most", most, MOST_BYTES);
    const { answer, rows } = this.#rows(name, layout, bytes, most, more);
    return { hunks: answer.hunk, bytes: answer.place, count: answer.count, rows };
  }

  /** Checks a file: what is wrong with the offsets of an object file. */
  check(bytes, most) {
    return this.#list("hunk_check", LAYOUTS.finding, bytes, most);
  }

  /** What is suspicious in a load file that is accepted. An object file has no warnings. */
  warnings(bytes, most) {
    return this.#list("hunk_warnings", LAYOUTS.warning, bytes, most, roomFor);
  }

  /** All that a file says, as one flat list of parts. */
  parts(bytes, most) {
    return this.#list("hunk_parts", LAYOUTS.part, bytes, most);
  }

  /** The file that parts spell, in the order of `parts`. */
  build(parts) {
    const memory = this.#memory;
    if (typeof memory.exports.hunk_build !== "function") throw new TypeError("build: this module has no hunk_build, it is older than hunk.js");
    const { rows, bytes } = packed(parts);
    return memory.within((lease) => {
      const [{ at: first }, data] = [rows, bytes].map((view) => lease.place({ view, length: view.length }));
      const count = rows.length / LAYOUTS.part.size;
      // This is always enough.
      const length = 20 + 16 * count + bytes.length;
      const at = lease.take(length);
      const answer = memory.call("hunk_build", BigInt(first), BigInt(count), ...words(data), ...words({ at, length }));
      if (answer.number !== OK) throw new BuildError(answer, this.reason(answer.number), this.reasonText(answer.number));
      return memory.bytes(at, answer.count).slice();
    });
  }

  units(bytes, most) {
    return this.#list("hunk_units", LAYOUTS.unit, bytes, most);
  }

  blocks(bytes, most) {
    return this.#list("hunk_blocks", LAYOUTS.block, bytes, most);
  }

  symbols(bytes, most) {
    return this.#list("hunk_symbols", LAYOUTS.symbol, bytes, most);
  }

  relocations(bytes, most) {
    return this.#list("hunk_relocations", LAYOUTS.relocation, bytes, most);
  }

  entries(bytes, most) {
    return this.#list("hunk_entries", LAYOUTS.entry, bytes, most);
  }

  references(bytes, most) {
    return this.#list("hunk_references", LAYOUTS.reference, bytes, most);
  }

  #spelling(lease, file) {
    const { size } = LAYOUTS.spelling;
    const at = lease.take(size);
    this.#memory.exports.hunk_spelling_of(BigInt(at), ...file);
    return new Rows(LAYOUTS.spelling, copyOf(this.#memory.bytes(at, size))).at(0);
  }

  /** How the bytes spell their file: none are refused. */
  spelling(bytes) {
    return this.#with(bytes, (lease, file) => this.#spelling(lease, file));
  }

  /** The bytes that a call writes, of which there are `length`, or as many as it counts. */
  #written(name, lease, file, length) {
    const at = lease.take(length);
    const answer = this.#answer(this.#memory.call(name, ...file, ...words({ at, length })));
    return { hunks: answer.hunk, bytes: answer.place, text: this.#memory.bytes(at, answer.count).slice() };
  }

  /** The plain spelling of a load file that has short relocations, or leaves END out. Other bytes are as they are. */
  plain(bytes) {
    return this.#with(bytes, (lease, file) => this.#plain(lease, file));
  }

  #plain(lease, file) {
    const length = this.#spelling(lease, file).bytes;
    return this.#written("hunk_plain", lease, file, length).text;
  }

  /** The byte of the input at which a byte of its plain spelling stands. One that is put in, as of an END that was left out, has
    * the place of the next that is not; from the end of the plain spelling on it is the end of the input. */
  inputPlace(bytes, place) {
    whole("place", place, MOST_BYTES);
    return this.#with(bytes, (_, file) => this.#inputPlace(file, place));
  }

  #inputPlace(file, place) {
    return Number(this.#memory.exports.hunk_input_place(...file, BigInt(place)));
  }

  /** What a call makes of the plain spelling of the bytes: wide(bytes, (plain) => hunk.check(plain)). A HunkError that it throws
   * has its place in the bytes themselves. */
  wide(bytes, call) {
    callable("call", call);
    const found = this.#memory.find("bytes", bytes);
    return this.#memory.within((lease) => {
      const file = words(lease.place(found));
      const plain = this.#plain(lease, file);
      try {
        return call(plain);
      } catch (error) {
        if (!(error instanceof HunkError)) throw error;
        this.#memory.check("bytes", found);
        throw this.error({ ...error, place: this.#inputPlace(file, error.place) });
      }
    });
  }

  /** A file that is accepted: what stands before the fault of the bytes, which the text begins with, and what closes that. It is
   * empty where their header is refused. */
  front(bytes) {
    return this.#with(bytes, (lease, file) => {
      const { count } = this.#memory.call("hunk_front", ...file, 0n, 0n);
      return this.#written("hunk_front", lease, file, count);
    });
  }

  /** The file without its names, symbols and debug data. */
  strip(bytes) {
    return this.#with(bytes, (lease, file, { length }) => this.#written("hunk_strip", lease, file, length));
  }
}
