// The rows of a list in which something is found: a text in a name, or a number.

import { nameOf } from "../../bindings/javascript/hunk.js";
import { textOf } from "./copying.js";
import { numberOf, shown } from "./names.js";

/** How long rows are looked through before the page is let do something else. */
const SLICE = 30;
/** How many rows are looked at before the clock is. */
const STEP = 1024;

const nameAt = (file, rows, i) =>
  shown(nameOf(file.bytes, { name: rows.get(i, "name"), nameBytes: rows.get(i, "nameBytes") }));

/** Whether a name has the text that is sought, in capitals or not. */
const isNamed = (file, rows, i, { text }) => nameAt(file, rows, i).toLowerCase().includes(text);

/** Whether an offset in a hunk is the number that is sought, or its address in memory is. */
function isAt(file, hunk, offset, { number }) {
  const isAddress = () => file.table && number === (file.base + file.starts[hunk] + offset) >>> 0;
  return number !== null && (number === offset || isAddress());
}

const hasText = (cell, text) => textOf(cell).toLowerCase().includes(text);

/** Whether a row has what is sought in a column: a number as it is, of other texts a part. */
function isInColumn({ cells, columns }, i, column, { text }) {
  const cell = cells(i)[column];
  return columns[column].isNumber ? textOf(cell).replaceAll(",", "") === text : hasText(cell, text);
}

/** By the name of a list: whether row i is what is sought, in any column. */
const FINDS = {
  symbols(file, i, sought) {
    const { rows } = file.list("symbols");
    return isAt(file, rows.get(i, "hunk"), rows.get(i, "value"), sought) || isNamed(file, rows, i, sought);
  },
  // The names of their kinds have digits, too.
  relocations(file, i, sought, listed) {
    const { rows } = file.list("relocations");
    if (sought.number !== null) return isAt(file, rows.get(i, "hunk"), rows.get(i, "offset"), sought);
    return listed.cells(i).some((cell) => hasText(cell, sought.text));
  },
  entries(file, i, sought) {
    const { rows } = file.list("entries");
    return rows.get(i, "value") === sought.number || isNamed(file, rows, i, sought);
  },
  references(file, i, sought) {
    const { rows } = file.list("references");
    const entries = file.list("entries").rows;
    const entry = rows.get(i, "entry");
    return rows.get(i, "offset") === sought.number || (entry < entries.length && isNamed(file, entries, entry, sought));
  },
};

/** A box above a list, which leaves the rows in which something is found. */
export class Filter {
  /** `listed` are the rows of the list. `show(found, isSame)` is called with the numbers of those in which it is found,
   * rising; with null where all are left. `isSame` says that the same is sought again. */
  constructor(list, file, listed, show) {
    this.list = list;
    this.file = file;
    this.listed = listed;
    this.show = show;
    this.run = 0;
    this.field = document.createElement("input");
    this.field.type = "search";
    this.field.placeholder = "name, or offset as 1a4";
    this.field.autocomplete = "off";
    this.field.setAttribute("aria-label", `Filter ${list}`);
    this.field.addEventListener("input", () => this.look(this.field.value));
    this.column = document.createElement("select");
    this.column.setAttribute("aria-label", "Column that is filtered");
    const choices = listed.columns.map(({ name }, i) => new Option(`in ${name}`, String(i)));
    this.column.append(new Option("anywhere", ""), ...choices);
    this.column.addEventListener("change", () => this.look(this.field.value));
    this.told = document.createElement("span");
    this.told.setAttribute("role", "status");
    this.box = document.createElement("p");
    this.box.className = "filter";
    this.box.append(this.field, this.column, this.told);
  }

  static isFor(list) {
    return list in FINDS;
  }

  /** Leaves the rows in which this is found. */
  async look(said, isSame = false) {
    const run = ++this.run;
    const text = said.trim().toLowerCase();
    this.field.value = said;
    const found = text === "" ? null : await this.#find({ text, number: numberOf(text) }, run);
    if (run !== this.run) return;
    const { length } = this.file.list(this.list).rows;
    this.told.textContent = found ? `${found.length.toLocaleString("en")} of ${length.toLocaleString("en")}` : "";
    this.show(found, isSame);
  }

  /** The rows that are sought, unless something else is sought by then. */
  async #find(sought, run) {
    const column = this.column.value;
    const finds = column === "" ? FINDS[this.list] : (_, i) => isInColumn(this.listed, i, Number(column), sought);
    const { length } = this.file.list(this.list).rows;
    const found = [];
    let began = performance.now();
    for (let i = 0; i < length && run === this.run; i++) {
      if (finds(this.file, i, sought, this.listed)) found.push(i);
      if (i % STEP > 0 || performance.now() - began < SLICE) continue;
      await new Promise((done) => setTimeout(done));
      began = performance.now();
    }
    return found;
  }
}
