// The rows of a table.

import { isWhole, refuse, refuseKind } from "./arguments.js";
import { maker, number } from "./structs.js";

/** Bytes of their own, as a home of rows: they stay as they are. */
const NEVER = { count: 0 };
export const copyOf = (bytes) => {
  const copy = bytes.slice();
  return { epoch: NEVER, bytes: () => copy };
};

/** The fields of a layout that have a meaning, by their names. */
const named = ({ fields }) => new Map(Object.entries(fields).filter(([name]) => name !== "reserved"));

/** The rows of a table. A row is an object that is made when it is asked for: a file may have millions. Where they stand, their
 * home says: its `bytes()` throw once they are gone, and are asked again when its `epoch` has another count. */
export class Rows {
  #layout;
  #fields;
  #made;
  #home;
  #epoch;
  #count;
  #view;

  constructor(layout, home) {
    this.#layout = layout;
    this.#fields = named(layout);
    this.#made = maker(layout);
    this.#home = home;
    this.#epoch = home.epoch;
    this.#renew();
    this.length = this.#view.byteLength / layout.size;
  }

  #renew() {
    const { buffer, byteOffset, byteLength } = this.#home.bytes();
    this.#view = new DataView(buffer, byteOffset, byteLength);
    this.#count = this.#epoch.count;
  }

  /** Whether they are rows of this layout. */
  isOf(layout) {
    return layout === this.#layout;
  }

  /** Where row i begins in the view. */
  #row(i) {
    if (!isWhole(i, this.length - 1)) refuse("i", `the number of one of ${this.length} rows`, i);
    if (this.#count !== this.#epoch.count) this.#renew();
    return i * this.#layout.size;
  }

  #field(name) {
    const field = this.#fields.get(name);
    if (field === undefined) refuseKind("name", `one of ${[...this.#fields.keys()].join(", ")}`, name);
    return field;
  }

  /** Row i, counted from 0. */
  at(i) {
    const from = this.#row(i);
    return this.#made(this.#view, from);
  }

  /** One field of row i, without the others. */
  get(i, name) {
    const from = this.#row(i);
    const field = this.#field(name);
    return number(this.#view, from + field.at, field.bytes);
  }

  /** One field of all rows, in a typed array of its own: of a field of 4 bytes a Uint32Array, of 8 bytes a Float64Array. */
  column(name) {
    const { at, bytes } = this.#field(name);
    if (this.#count !== this.#epoch.count) this.#renew();
    const [view, { size }] = [this.#view, this.#layout];
    const column = bytes === 8 ? new Float64Array(this.length) : new Uint32Array(this.length);
    for (let i = 0, from = at; i < column.length; i++, from += size) column[i] = number(view, from, bytes);
    return column;
  }

  /** The same rows in memory of their own, which stay when an Input is freed. */
  copy() {
    return new Rows(this.#layout, copyOf(this.#home.bytes()));
  }

  /** An object of its own: a generator takes twice as long. */
  [Symbol.iterator]() {
    let i = 0;
    return {
      next: () => (i < this.length ? { done: false, value: this.at(i++) } : { done: true, value: undefined }),
      [Symbol.iterator]() {
        return this;
      },
    };
  }
}
