// A load file that comes piece by piece.

import { bytesOf, longs, MOST_BYTES, refuseKind, whole } from "./arguments.js";
import { Lease, Memory, words } from "./memory.js";
import { Rows } from "./rows.js";
import { LAYOUTS } from "./structs.js";

const OK = 0;
const PIECE = 65536;

/** The words and extras of a table's rows, with a base each, as hunk_begin takes them. */
function putPlaces(lease, rows, bases) {
  const { size, fields } = LAYOUTS.place;
  const at = lease.take(size * rows.length);
  const { view } = lease.memory;
  for (let i = 0; i < rows.length; i++) {
    view.setUint32(at + i * size + fields.word.at, rows.get(i, "word"), true);
    view.setUint32(at + i * size + fields.extra.at, rows.get(i, "extra"), true);
    view.setUint32(at + i * size + fields.base.at, bases[i], true);
  }
  return at;
}

/** What Hunk.table answers. */
function wantTable(table) {
  if (!(table?.rows instanceof Rows) || !table.rows.isOf(LAYOUTS.row)) refuseKind("table", "what Hunk.table answers", table);
  whole("table.header", table.header, MOST_BYTES);
  whole("table.size", table.size, MOST_BYTES);
}

/** A loader, in an instance of its own, which has all its memory from the start. Hunk.begin makes one. */
export class Loader {
  #hunk;
  #room;
  #words; // of the loader, the places and the memory, as hunk_feed takes them
  #memory;
  #piece;

  constructor(hunk, module, table, bases) {
    wantTable(table);
    const list = longs("bases", bases);
    if (list.length < table.rows.length) throw new RangeError(`bases: ${table.rows.length} are needed`);
    const room = new Memory(new WebAssembly.Instance(module, {}));
    this.#hunk = hunk;
    this.#room = room;
    const lease = new Lease(room);
    const places = { at: putPlaces(lease, table.rows, list), length: table.rows.length };
    const loader = lease.take(LAYOUTS.loader.size);
    this.#piece = lease.take(PIECE);
    this.#memory = { at: lease.take(table.size), length: table.size };
    const front = [BigInt(loader), ...words(places)];
    this.#words = [...front, ...words(this.#memory)];
    this.#answer(room.call("hunk_begin", ...front, BigInt(table.header), ...words(this.#memory)));
  }

  #answer(answer) {
    if (answer.number !== OK) throw this.#hunk.error(answer);
    return answer;
  }

  /** 65,536 bytes for the next piece: what the caller puts there is fed without a copy. */
  get buffer() {
    return this.#room.bytes(this.#piece, PIECE);
  }

  /** Takes the next bytes, and answers how many it took: all of them unless the file is whole. */
  feed(bytes) {
    const given = this.#apart(bytesOf("bytes", bytes, "a Uint8Array"));
    const { buffer } = this;
    const isThere = given.buffer === buffer.buffer;
    let taken = 0;
    while (taken < given.length) {
      const piece = given.subarray(taken, taken + PIECE);
      if (!isThere) buffer.set(piece);
      const at = isThere ? piece.byteOffset : this.#piece;
      const answer = this.#room.call("hunk_feed", ...this.#words, ...words({ at, length: piece.length }));
      taken += this.#answer(answer).count;
      if (answer.count < piece.length) break;
    }
    return taken;
  }

  /** Bytes that `feed` does not change while it reads them: a copy of those of the loader's memory outside of its `buffer`. */
  #apart(bytes) {
    const { buffer, byteOffset } = this.buffer;
    const isOfBuffer = bytes.byteOffset >= byteOffset && bytes.byteOffset + bytes.length <= byteOffset + PIECE;
    return bytes.buffer !== buffer || isOfBuffer ? bytes : new Uint8Array(bytes);
  }

  /** How many bytes may be asked of a pipe without reading past the file: 0 once it is whole. */
  want() {
    const answer = this.#answer(this.#room.call("hunk_want", this.#words[0]));
    return { bytes: answer.count, place: answer.place, hunks: answer.hunk };
  }

  /** Throws Truncated where more of the file is to come. */
  end() {
    const answer = this.#answer(this.#room.call("hunk_end", this.#words[0]));
    return { hunks: answer.hunk, bytes: answer.place, size: answer.count };
  }

  /** The memory: the hunks one right after the other. It is the loader's own: `feed` changes it, and nobody else may before
   * the file is whole. */
  memory() {
    return this.#room.bytes(this.#memory.at, this.#memory.length);
  }
}
