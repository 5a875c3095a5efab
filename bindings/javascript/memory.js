// The memory of an instance, after the module's own data, in regions: what a call is given, and what it writes.

import { bytesOf, MOST_BYTES, whole } from "./arguments.js";
import { LAYOUTS, number } from "./structs.js";

const PAGE = 65536;
/** Regions begin at multiples of this, which is enough for each struct. */
const STEP = 16;

export class Memory {
  #memory;
  #view;
  #answer;
  #free; // the regions that nobody has, [at, end], rising; the last may end where the memory does
  #inputs = new Map(); // where each Input stands, and how many bytes it has

  /** It counts what makes views invalid: that the memory has grown, or an Input was freed. */
  epoch = { count: 0 };

  constructor(instance) {
    this.exports = instance.exports;
    this.#memory = this.exports.memory;
    const end = this.#memory.buffer.byteLength;
    this.#free = [[upTo(Number(this.exports.__heap_base?.value ?? end)), end]];
    this.#answer = this.take(LAYOUTS.answer.size);
  }

  /** The first place that has room; where there is none the memory grows. */
  take(length) {
    const bytes = Math.max(STEP, upTo(length));
    let i = this.#free.findIndex(([at, end]) => end - at >= bytes);
    if (i < 0) i = this.#grow(bytes);
    const [at, end] = this.#free[i];
    if (end - at === bytes) this.#free.splice(i, 1);
    else this.#free[i][0] = at + bytes;
    return at;
  }

  /** A region that was taken, by the same length; it is joined with those that are free beside it. */
  give(at, length) {
    const end = at + Math.max(STEP, upTo(length));
    let i = this.#free.findIndex(([other]) => other > at);
    if (i < 0) i = this.#free.length;
    const before = this.#free[i - 1]?.[1] === at;
    const after = this.#free[i]?.[0] === end;
    const from = before ? i - 1 : i;
    const first = before ? this.#free[i - 1][0] : at;
    const last = after ? this.#free[i][1] : end;
    this.#free.splice(from, Number(before) + Number(after), [first, last]);
  }

  /** Makes the last region as long, and answers which it is. Where the memory can't grow all stays as it was. */
  #grow(bytes) {
    const size = this.#memory.buffer.byteLength;
    const last = this.#free.at(-1);
    const has = last?.[1] === size ? last[1] - last[0] : 0;
    try {
      this.#addPages(Math.ceil((bytes - has) / PAGE));
    } catch (cause) {
      throw new RangeError(`the module's memory can't grow from ${size} bytes by ${bytes - has}`, { cause });
    }
    this.epoch.count += 1;
    if (has > 0) last[1] = this.#memory.buffer.byteLength;
    else this.#free.push([size, this.#memory.buffer.byteLength]);
    return this.#free.length - 1;
  }

  /** A 64-bit memory is grown by a BigInt, one of 32 bits by a number; early engines took a number for both. */
  #addPages(pages) {
    try {
      this.#memory.grow(pages);
    } catch (error) {
      if (!(error instanceof TypeError)) throw error;
      this.#memory.grow(BigInt(pages));
    }
  }

  bytes(at, length) {
    return new Uint8Array(this.#memory.buffer, at, length);
  }

  get view() {
    if (this.#view?.buffer !== this.#memory.buffer) this.#view = new DataView(this.#memory.buffer);
    return this.#view;
  }

  /** Where the bytes of an argument are to be found: at a place, if they are those of this memory, or in a view outside of it. So
   * those of this memory are found once it has grown, too, which makes each view of them invalid. */
  find(name, bytes) {
    if (bytes instanceof Input) return { at: bytes.place(name, this), length: bytes.length };
    const view = bytesOf(name, bytes, "a Uint8Array or an Input");
    const { byteOffset, length } = view;
    const found = view.buffer === this.#memory.buffer ? { at: byteOffset, length } : { view, length };
    this.check(name, found);
    return found;
  }

  /** Throws where what was found in this memory is of no Input: elsewhere, as where one was freed, calls write. */
  check(name, found) {
    const { at, length } = found;
    if (at === undefined || length <= this.#inputs.get(at)) return;
    for (const [first, bytes] of this.#inputs) if (first <= at && at + length <= first + bytes) return;
    throw new TypeError(`${name}: this view of the module's memory is of no Input, or of one that was freed`);
  }

  /** Counts an Input in, and out once it is freed. */
  hold(at, length) {
    this.#inputs.set(at, length);
  }

  drop(at) {
    this.#inputs.delete(at);
    this.epoch.count += 1;
  }

  /** What `use` answers. What it takes by the lease that it gets is given back then. */
  within(use) {
    const lease = new Lease(this);
    try {
      return use(lease);
    } finally {
      lease.end();
    }
  }

  /** A call. Places and lengths have 64 bits, and are BigInts; numbers of 32 bits are numbers. */
  call(name, ...words) {
    this.exports[name](BigInt(this.#answer), ...words);
    const { view } = this;
    const answer = {};
    for (const [field, { at, bytes }] of Object.entries(LAYOUTS.answer.fields)) {
      answer[field] = number(view, this.#answer + at, bytes);
    }
    return answer;
  }
}

const upTo = (bytes) => Math.ceil(bytes / STEP) * STEP;

/** A place and a length as a call takes them. */
export const words = ({ at, length }) => [BigInt(at), BigInt(length)];

/** Regions that are given back together. */
export class Lease {
  #regions = [];
  #isEnded = false;

  constructor(memory) {
    this.memory = memory;
  }

  take(length) {
    const at = this.memory.take(length);
    this.#regions.push([at, length]);
    return at;
  }

  /** Where what was found stands in the memory: what is there stays, and a view of something else is copied. */
  place({ at, view, length }) {
    return { at: at ?? this.#put(view), length };
  }

  #put(view) {
    const at = this.take(view.length);
    this.memory.bytes(at, view.length).set(view);
    return at;
  }

  /** Leaves a region to another lease, which gives it back. */
  leave(at, lease) {
    const i = this.#regions.findIndex(([it]) => it === at);
    lease.#regions.push(...this.#regions.splice(i, 1));
  }

  bytes(at, length) {
    this.check("rows");
    return this.memory.bytes(at, length);
  }

  /** `name`: of what is asked for. */
  check(name) {
    if (this.#isEnded) throw new TypeError(`${name}: the Input was freed, and its rows with it`);
  }

  /** Gives all back, and answers whether that was still to be done. */
  end() {
    const isFirst = !this.#isEnded;
    for (const [at, length] of this.#regions.splice(0)) this.memory.give(at, length);
    this.#isEnded = true;
    return isFirst;
  }
}

/** Bytes in the module's memory, which the caller fills: Hunk.alloc and Hunk.put make one. */
export class Input {
  #lease;
  #at;
  #length;

  constructor(memory, length) {
    whole("length", length, MOST_BYTES);
    this.#lease = new Lease(memory);
    this.#at = this.#lease.take(length);
    this.#length = length;
    memory.hold(this.#at, length);
  }

  get length() {
    return this.#length;
  }

  /** A view of them, made anew by each look: one that was kept is invalid, and empty, once the memory has grown. */
  get bytes() {
    this.#lease.check("bytes");
    return this.#lease.memory.bytes(this.#at, this.#length);
  }

  /** For the calls: where it stands, as their argument of this name. */
  place(name, memory) {
    if (memory !== this.#lease.memory) throw new TypeError(`${name}: the Input is of another Hunk`);
    this.#lease.check(name);
    return this.#at;
  }

  /** For the calls: takes over rows that a lease has taken, which end with it. */
  home(lease, at, length) {
    const own = this.#lease;
    lease.leave(at, own);
    return { epoch: own.memory.epoch, bytes: () => own.bytes(at, length) };
  }

  /** Gives the memory back. Its rows end with it: to read them throws. */
  free() {
    if (this.#lease.end()) this.#lease.memory.drop(this.#at);
  }
}
