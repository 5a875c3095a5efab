// Which hunks are relocated at which: from each hunk to those whose base is added in it, and back.

import { lastOf } from "./names.js";

/** Two numbers of hunks as one: a file has fewer. */
const HUNKS = 2 ** 24;

/** Calls for each relocated longword of a load file, as they rise, with the numbers of its hunk and of its target. */
function eachLong(file, call) {
  const { starts } = file;
  const { places, targets } = file.relocated();
  let hunk = 0;
  for (let i = 0; i < places.length; i++) {
    while (starts[hunk + 1] <= places[i]) hunk += 1;
    call(hunk, targets[i]);
  }
}

/** The same for the relocations of an object file whose target is a hunk of their unit. */
function eachRelocation(file, call) {
  const contents = file.contents();
  const { rows } = file.list("relocations");
  for (let i = 0; i < rows.length; i++) {
    const unit = rows.get(i, "unit");
    const target = contents.number(unit, rows.get(i, "target"));
    if (target !== undefined) call(contents.number(unit, rows.get(i, "hunk")), target);
  }
}

/** Calls for each relocation with the numbers of its hunk and of its target. */
export const eachWay = (file, call) => (file.table ? eachLong : eachRelocation)(file, call);

/** The ways from each hunk and to each: made when they are first asked for. */
export class Ways {
  constructor(file) {
    this.file = file;
  }

  #pairs() {
    const pairs = [];
    eachWay(this.file, (hunk, target) => pairs.push(hunk * HUNKS + target));
    this.out = Float64Array.from(pairs).sort();
    this.back = this.out.map((it) => (it % HUNKS) * HUNKS + Math.floor(it / HUNKS)).sort();
  }

  /** How many lead from a hunk to each other one, or with `back` from each to it, most first: [[other, many]]. */
  of(hunk, back = false) {
    if (!this.out) this.#pairs();
    const list = back ? this.back : this.out;
    const found = new Map();
    const first = lastOf(list.length, (at) => list[at], hunk * HUNKS - 1) + 1;
    for (let i = first; i < list.length && list[i] < (hunk + 1) * HUNKS; i++) {
      const other = list[i] % HUNKS;
      found.set(other, (found.get(other) ?? 0) + 1);
    }
    return [...found].sort((one, other) => other[1] - one[1]);
  }
}
