// Many files: a line for each, sorted by any column, filtered by class and name, and saved as CSV.

import { Grid } from "./grid.js";
import { CLASSES, csvOfLines, lineOf, noteSame, sortLines, unreadLine } from "./lines.js";
import { missingOf } from "./linking.js";
import { Missing } from "./missing.js";
import { counted } from "./names.js";
import { sortedBy } from "./ordered.js";
import { bytesOf, unreadText } from "./reading.js";
import { toneOf } from "./reasons.js";
import { meaningOfClass } from "./words.js";

const COLUMNS = [
  { field: "file", name: "file", isRest: true, least: 10, wanted: 22 },
  { field: "bytes", name: "bytes", isNumber: true },
  { field: "class", name: "class" },
  { field: "hunks", name: "hunks", isNumber: true, isOptional: true, leaves: 5 },
  { field: "memory", name: "in memory", isNumber: true, isOptional: true, leaves: 2 },
  { field: "units", name: "units", isNumber: true, isOptional: true, leaves: 3 },
  { field: "findings", name: "findings", isNumber: true, isOptional: true, leaves: 8 },
  { field: "warnings", name: "warnings", isNumber: true, isOptional: true, leaves: 10 },
  { field: "place", name: "refused at", isNumber: true, isOptional: true, leaves: 4 },
  { field: "reason", name: "reason", isOptional: true, leaves: 11 },
  { field: "told", name: "what it is", isRest: true, isOptional: true, least: 10, leaves: 6 },
  { field: "undefined", name: "undefined", isNumber: true, isOptional: true, leaves: 9 },
  { field: "copy", name: "same as", isRest: true, isOptional: true, least: 9, leaves: 7 },
  { field: "sum", name: "sum", leaves: 1 },
];

/** How long lines are gathered before they are shown. */
const BETWEEN = 200;

const number = (it) => it.toLocaleString("en");
const shownCell = (it) => (typeof it === "number" ? number(it) : (it ?? ""));

/** The line of a file that was found, and why it says nothing of it. */
async function lookAt(hunk, found) {
  const { bytes, why } = await bytesOf(found);
  if (why) return { line: unreadLine(found.name), why };
  try {
    return { line: lineOf(hunk, found.name, bytes) };
  } catch (error) {
    // As where the browser has no memory for it: the others are to be looked at.
    return { line: unreadLine(found.name), why: error.message };
  }
}

export class Many {
  /** `open(file)` is called for the line that is picked: {file, name} as it was found. */
  constructor(section, open) {
    const part = (name) => section.querySelector(`#many-${name}`);
    this.open = open;
    this.summary = part("summary");
    this.note = part("note");
    this.partial = part("partial");
    this.filter = part("filter");
    this.grid = new Grid(part("list"), "Files", COLUMNS, (column) => this.sort(column));
    this.choices = ["", ...CLASSES].map((name) => this.#choice(name));
    part("classes").append(...this.choices);
    this.filter.addEventListener("input", () => this.#arrange());
    this.missing = new Missing(part("missing"), (line) => this.#pick(line));
    this.lines = [];
    this.unread = [];
    this.total = 0;
    this.run = 0;
    /** What it is the table of. */
    this.visit = null;
  }

  /** The button that leaves one class, or with "" all. */
  #choice(name) {
    const button = document.createElement("button");
    button.name = name;
    button.title = meaningOfClass(name);
    button.innerHTML = (name ? `<i class="${toneOf(name)}"></i>` : "") + `<span>${name || "all"}</span>`;
    button.addEventListener("click", () => {
      this.wanted = name;
      this.#arrange();
    });
    return button;
  }

  /** Looks at files, {file, name}, one after the other; the page stays usable meanwhile. `partial` tells what may be
   * missing. */
  async show(hunk, files, partial) {
    const run = ++this.run;
    Object.assign(this, { lines: [], unread: [], total: files.length, wanted: "", sorted: null });
    this.filter.value = "";
    this.partial.textContent = partial;
    this.grid.markSorted(this.sorted);
    this.#arrange();
    let told = performance.now();
    const firsts = new Map();
    for (const found of files) {
      const { line, why } = await lookAt(hunk, found);
      if (run !== this.run) return;
      if (why) this.unread.push({ name: found.name, why });
      noteSame(line, firsts);
      this.lines.push({ ...line, found });
      if (performance.now() - told > BETWEEN) {
        this.#arrange(true);
        await new Promise((done) => setTimeout(done));
        told = performance.now();
      }
    }
    this.#arrange(true);
  }

  /** Shows the lines that are wanted, in their order. */
  #arrange(isSamePlace = false) {
    const text = this.filter.value.trim().toLowerCase();
    const isWanted = (line) => (!this.wanted || line.class === this.wanted) && line.file.toLowerCase().includes(text);
    this.shown = this.lines.filter(isWanted);
    this.missing.show(missingOf(this.lines));
    if (this.sorted) sortLines(this.shown, COLUMNS[this.sorted.column].field, this.sorted.direction);
    this.#tell();
    const rows = {
      count: this.shown.length,
      cells: (i) => this.#cells(this.shown[i]),
      pick: (i) => this.#pick(this.shown[i]),
    };
    this.grid.show(rows, isSamePlace);
  }

  /** A file that is shown takes of the table's height. */
  async #pick(line) {
    await this.open(line.found);
    this.grid.reveal();
  }

  #cells(line) {
    const warnings = line.warnings > 0 ? { text: number(line.warnings), tone: "warn" } : line.warnings;
    const told = { ...line, warnings, class: { text: line.class, tone: toneOf(line.class) } };
    return COLUMNS.map(({ field }) => shownCell(told[field]));
  }

  #tell() {
    const rest = this.total - this.lines.length;
    const left = this.shown.length < this.lines.length ? `${number(this.shown.length)} of ` : "";
    this.summary.textContent = left + counted(this.total, "file") + (rest > 0 ? `, ${number(rest)} to come` : "");
    this.note.textContent = unreadText(this.unread);
    const counts = new Map([["", this.lines.length]]);
    for (const line of this.lines) counts.set(line.class, (counts.get(line.class) ?? 0) + 1);
    for (const button of this.choices) {
      const count = counts.get(button.name) ?? 0;
      button.hidden = count === 0;
      button.lastChild.textContent = `${number(count)} ${button.name || "all"}`;
      button.setAttribute("aria-pressed", String(button.name === this.wanted));
    }
  }

  /** Sorts by a column; by the same one again in the other direction. */
  sort(column) {
    this.sorted = sortedBy(column, this.sorted);
    this.grid.markSorted(this.sorted);
    this.#arrange();
  }

  /** The two files that are chosen, or those of a table of two; nothing where it is not two. */
  pair() {
    const [from, to] = this.shown.length === 2 ? [0, 2] : this.grid.chosen;
    return to - from === 2 ? this.shown.slice(from, to).map(({ found }) => found) : null;
  }

  /** Says how two are chosen. */
  tellPair() {
    this.summary.textContent =
      "Choose two rows: one by a click, the next with Shift and an arrow key, or Shift and a click.";
  }

  /** What is shown, as it is saved. */
  csv() {
    return csvOfLines(this.shown);
  }
}
