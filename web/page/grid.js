// A table of any length, by Scroller: its rows are picked by a click, or by the arrow keys and Enter, and copied with
// tabs between their cells.

import { copiesFrom, textOf, textOfRows } from "./copying.js";
import { csvOf } from "./csv.js";
import { Scroller, escaped, rowOfKey } from "./scroller.js";
import { Widths } from "./widths.js";
import { meaningOf } from "./words.js";

/** A finger takes more room than a pointer. */
const HEIGHT = matchMedia("(pointer: coarse)").matches ? 36 : 22;
/** Between two columns; and at the sides, with a scrollbar and the border. */
const GAP = 10;
const AROUND = 36;
let grids = 0;

/** @typedef {{ text: any, chip?: string, tone?: string, title?: string } | string | number} Cell */
/** @typedef {{ count: number, cells: (i: number) => Cell[], pick: (i: number) => void }} GridRows */

export class Grid {
  /** `columns`, as Widths takes them. `rows.cells(i)` gives the texts of a row; `rows.pick(i)` is called for it.
   * `onSort(column)` is called for a head that is pressed, where it is given. */
  constructor(box, label, columns, onSort = null) {
    this.id = `grid${grids++}`;
    this.columns = columns;
    /** The column by which screen readers name a row. */
    this.named = Math.max(0, columns.findIndex(({ isName }) => isName));
    /** @type {GridRows} */
    this.rows = { count: 0, cells: () => [], pick: () => {} };
    this.active = 0;
    /** The rows from here to the active one are those that are copied. */
    this.anchor = 0;
    box.classList.add("grid");
    box.setAttribute("role", "grid");
    box.setAttribute("aria-label", label);
    box.setAttribute("aria-multiselectable", "true");
    box.setAttribute("aria-colcount", columns.length);
    box.tabIndex = 0;
    box.style.setProperty("--row", `${HEIGHT}px`);
    this.box = box;
    this.widths = new Widths(box, columns);
    this.#addHeads(onSort);
    this.body = document.createElement("div");
    this.body.className = "body";
    this.body.setAttribute("role", "rowgroup");
    // Browsers would stop at what is scrolled, too. A press of a mouse leaves the focus there, so that text can be
    // selected.
    this.body.tabIndex = -1;
    box.append(this.body);
    const draw = (first, count) => this.#draw(first, count);
    this.scroller = new Scroller(this.body, HEIGHT, draw, () => this.#nameActive());
    this.#listen();
    for (const it of [box, this.body]) copiesFrom(it, () => this.text(...this.chosen));
    // A scrollbar of the body comes and goes; the head has the width of the rows.
    const fit = () => {
      box.style.setProperty("--bar", `${this.body.offsetWidth - this.body.clientWidth}px`);
      this.#fit();
    };
    for (const it of [this.scroller.tall, box]) new ResizeObserver(fit).observe(it);
  }

  #listen() {
    this.box.addEventListener("keydown", (event) => this.#key(event));
    this.body.addEventListener("click", (event) => this.#click(event));
    this.body.addEventListener("pointerdown", (event) => this.#pressed(event));
    this.body.addEventListener("pointermove", (event) => this.#pointed(event));
    this.body.addEventListener("pointerover", (event) => this.#tellCut(event.target));
  }

  #addHeads(onSort) {
    this.head = document.createElement("div");
    this.head.className = "head";
    this.head.setAttribute("role", "row");
    this.columns.forEach(({ name, isNumber }, i) => {
      const cell = document.createElement(onSort ? "button" : "span");
      cell.setAttribute("role", "columnheader");
      cell.setAttribute("aria-colindex", String(i + 1));
      cell.textContent = name;
      cell.title = meaningOf(name);
      if (isNumber) cell.className = "number";
      if (onSort) cell.addEventListener("click", () => onSort(i));
      this.head.append(cell);
    });
    this.box.append(this.head);
  }

  /** Shows rows, where it was scrolled to when they are the same with some more.
   * @param {GridRows} rows */
  show(rows, isSamePlace = false) {
    this.rows = rows;
    if (!isSamePlace) {
      this.active = 0;
      this.anchor = 0;
      this.widths.clear();
    }
    this.widths.sample(rows.cells, rows.count);
    this.#fit();
    this.box.setAttribute("aria-rowcount", rows.count + 1);
    this.scroller.setCount(rows.count, isSamePlace ? this.scroller.top : 0);
  }

  /** Leaves the columns for which there is room, and tells which others there are. */
  #fit() {
    this.widths.fit();
    this.head.title = this.widths.leftText ?? "";
  }

  /** Tells by which column the rows are sorted, {column, direction}, or that they are not. */
  markSorted(sorted) {
    [...this.head.children].forEach((head, i) => {
      if (i !== sorted?.column) head.removeAttribute("aria-sort");
      else head.setAttribute("aria-sort", sorted.direction > 0 ? "ascending" : "descending");
    });
  }

  /** The width in which nothing is cut. */
  get wanted() {
    return this.widths.sum + GAP * (this.columns.length - 1) + AROUND;
  }

  /** Scrolls to the row that is picked. */
  reveal() {
    this.scroller.reveal(this.active);
  }

  /** The first row that is chosen, and the one behind the last. */
  get chosen() {
    return [Math.min(this.active, this.anchor), Math.min(Math.max(this.active, this.anchor) + 1, this.rows.count)];
  }

  /** Rows as text, with the heads where it is all of them. */
  text(from = 0, to = this.rows.count, hasHeads = false) {
    const rows = Array.from({ length: Math.max(0, to - from) }, (_, i) => this.rows.cells(from + i));
    return textOfRows(hasHeads ? [this.columns.map(({ name }) => name), ...rows] : rows);
  }

  /** All rows as CSV, with the heads. Numbers are without commas in them. */
  csv() {
    const plain = (cell, i) => (this.columns[i].isNumber ? textOf(cell).replaceAll(",", "") : textOf(cell));
    const rows = Array.from({ length: this.rows.count }, (_, i) => this.rows.cells(i).map(plain));
    return csvOf([this.columns.map(({ name }) => name), ...rows]);
  }

  #draw(first, count) {
    const rows = Array.from({ length: count }, (_, i) => this.rows.cells(first + i));
    this.widths.include(rows);
    return rows.map((cells, i) => this.#row(first + i, cells)).join("");
  }

  #row(i, cells) {
    const drawn = cells.map((cell, column) => {
      const { text, chip = "", tone = "", title = "" } = typeof cell === "object" ? cell : { text: cell };
      const kind = [this.columns[column].isNumber && "number", tone].filter(Boolean).join(" ");
      const mark = chip ? `<i style="background:${chip}"></i>` : "";
      const told = title && ` title="${escaped(title)}"`;
      const role = column === this.named ? "rowheader" : "gridcell";
      return `<span role="${role}" aria-colindex="${column + 1}" class="${kind}"${told}>${mark}${escaped(text)}</span>`;
    });
    const states = `aria-rowindex="${i + 2}" aria-selected="${this.#isChosen(i)}"`;
    return `<div role="row" id="${this.id}-${i}" ${states} data-row="${i}">${drawn.join("")}</div>`;
  }

  #isChosen(i) {
    const [from, to] = this.chosen;
    return i >= from && i < to;
  }

  /** Marks the rows that are chosen, in the elements that are there: what is selected in them stays so. */
  #mark() {
    const first = this.scroller.top;
    for (const [i, row] of [...this.scroller.layer.children].entries()) {
      row.setAttribute("aria-selected", String(this.#isChosen(first + i)));
    }
    this.#nameActive();
  }

  /** Names the active row, where it is drawn. */
  #nameActive() {
    const name = `${this.id}-${this.active}`;
    if (document.getElementById(name)) this.box.setAttribute("aria-activedescendant", name);
    else this.box.removeAttribute("aria-activedescendant");
  }

  #key(event) {
    if (event.target !== this.box && event.target !== this.body) return;
    if (event.key === "Enter") {
      if (this.rows.count > 0) this.rows.pick(this.active);
      return;
    }
    const isAll = event.key === "a" && (event.ctrlKey || event.metaKey);
    const row = isAll ? this.rows.count - 1 : rowOfKey(event.key, this.active, this.scroller.seen, this.rows.count);
    if (row === undefined) return;
    event.preventDefault();
    if (isAll) {
      [this.active, this.anchor] = [0, row];
      this.#mark();
      return;
    }
    this.active = row;
    if (!event.shiftKey) this.anchor = row;
    this.scroller.reveal(row);
  }

  #rowAt(event) {
    const row = event.target?.closest?.("[data-row]");
    return row ? Number(row.dataset.row) : undefined;
  }

  #pressed(event) {
    this.drawn = false;
    this.pressed = event.button === 0 && event.pointerType === "mouse" ? this.#rowAt(event) : undefined;
  }

  /** A pointer that is drawn over rows chooses them; within one the browser selects text. */
  #pointed(event) {
    if (this.pressed === undefined || !(event.buttons & 1)) return;
    // Firefox sends the event to where text began to be selected.
    const row = this.#rowAt({ target: document.elementFromPoint(event.clientX, event.clientY) });
    if (row === undefined) return;
    if (row === this.pressed && !this.drawn) return;
    this.drawn = true;
    getSelection().removeAllRanges();
    [this.anchor, this.active] = [this.pressed, row];
    this.#mark();
  }

  #click(event) {
    // Firefox selects text while rows are chosen, to the end of that.
    if (this.drawn) getSelection().removeAllRanges();
    const row = this.#rowAt(event);
    if (row === undefined || this.drawn) return;
    const { isCollapsed, anchorNode } = getSelection();
    if (!isCollapsed && this.body.contains(anchorNode) && !event.shiftKey) return;
    this.active = row;
    if (event.shiftKey) getSelection().removeAllRanges();
    else this.anchor = row;
    this.#mark();
    if (!event.shiftKey) this.rows.pick(row);
  }

  /** A text that is cut is told whole under the pointer. */
  #tellCut(cell) {
    if (cell.scrollWidth > cell.clientWidth && cell.matches("[data-row] > span")) cell.title = cell.textContent;
  }
}
