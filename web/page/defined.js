// The symbols of an object file, and the names that it defines, by their places in its hunks.

import { ENTRY_KINDS } from "../../bindings/javascript/kinds.js";
import { isDefinition, lastOf, nameText } from "./names.js";

/** A hunk and an offset as one number: both have 32 bits at most, and there are fewer hunks. */
const HUNK = 2 ** 32;

export class Defined {
  /** @param {import("./file.js").Examined} file */
  constructor(file) {
    this.file = file;
    const found = [];
    const symbols = file.list("symbols").rows;
    const entries = file.list("entries").rows;
    for (let i = 0; i < symbols.length; i++) this.#add(found, symbols.at(i));
    for (let i = 0; i < entries.length; i++) {
      const kind = entries.get(i, "kind");
      if (isDefinition(kind) && kind !== ENTRY_KINDS.ABS) this.#add(found, entries.at(i));
    }
    this.found = found.sort((one, other) => one.key - other.key);
  }

  #add(found, row) {
    const contents = this.file.contents();
    const number = contents.number(row.unit, row.hunk);
    if (number !== undefined && row.value < contents.bytes(number)) found.push({ key: number * HUNK + row.value, row });
  }

  get count() {
    return this.found.length;
  }

  /** As of Labels. */
  nearest(number, offset) {
    const key = number * HUNK + offset;
    const isInside = offset < this.file.contents().bytes(number);
    const last = isInside ? lastOf(this.found.length, (i) => this.found[i].key, key) : -1;
    if (last < 0 || this.found[last].key < number * HUNK) return null;
    const first = lastOf(last, (i) => this.found[i].key, this.found[last].key - 1) + 1;
    return { name: nameText(this.file.bytes, this.found[first].row), past: key - this.found[last].key };
  }
}
