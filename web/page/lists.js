// The tabs of the lists, and the list that is open.

import { copyText } from "./copying.js";
import { Filter } from "./filter.js";
import { Grid } from "./grid.js";
import { LISTS } from "./listed.js";
import { counted } from "./names.js";
import { ordered, sortedBy } from "./ordered.js";
import { meaningOf } from "./words.js";

export class Lists {
  /** `pick(target)` is called for the target of a row that is picked. */
  constructor(box, pick) {
    this.pick = pick;
    this.tabs = box.querySelector("[role=tablist]");
    this.panel = box.querySelector("[role=tabpanel]");
    this.tabs.addEventListener("keydown", (event) => this.#key(event));
    const told = box.querySelector("#copied-list");
    box.querySelector("#copy-list").addEventListener("click", () => {
      if (!this.grid) return;
      const { count } = this.grid.rows;
      copyText(this.grid.text(0, count, true), `${counted(count, "row")} copied.`, told);
    });
    this.columns = box.parentElement;
  }

  /** Shows the lists of a file, of which that is opened that was open before, if there is one of that name. */
  show(file) {
    this.file = file;
    this.tabs.replaceChildren();
    for (const list of LISTS) {
      const count = list.count(file);
      if (count > 0) this.tabs.append(this.#tab(list, count));
    }
    const tabs = [...this.tabs.children];
    const tab = tabs.find((it) => it.id === this.wanted) ?? tabs[0];
    if (tab) this.#open(tab);
    else this.panel.replaceChildren();
  }

  #tab(list, count) {
    /** @type {any} */
    const tab = document.createElement("button");
    tab.setAttribute("role", "tab");
    tab.id = `tab-${list.id}`;
    tab.setAttribute("aria-controls", this.panel.id);
    tab.textContent = `${list.label} ${count.toLocaleString("en")}`;
    tab.title = meaningOf(list.label);
    tab.addEventListener("click", () => this.open(tab));
    tab.list = list;
    tab.count = count;
    return tab;
  }

  /** Opens a list, which other files that have it are then opened with, too. */
  open(tab) {
    this.wanted = tab.id;
    this.#open(tab);
  }

  #open(tab) {
    for (const it of this.tabs.children) {
      it.setAttribute("aria-selected", String(it === tab));
      it.tabIndex = it === tab ? 0 : -1;
    }
    this.tab = tab;
    this.filter = null;
    this.grid = null;
    this.found = null;
    this.sorted = null;
    this.panel.setAttribute("aria-labelledby", tab.id);
    const box = document.createElement("div");
    this.panel.replaceChildren(box);
    this.#make(box, tab);
  }

  #make(box, { list, count }) {
    const rows = list.rows(this.file);
    if (rows.count < count) {
      box.textContent = `These are ${count.toLocaleString("en")}: more than this page lists.`;
      return;
    }
    this.grid = new Grid(box, this.tab.textContent, rows.columns, rows.keys && ((column) => this.#sort(column)));
    this.#fill(null, false);
    this.columns.style.setProperty("--wanted", `${this.grid.wanted}px`);
    if (!Filter.isFor(list.id)) return;
    this.filter = new Filter(list.id, this.file, rows, (found, isSame) => this.#fill(found, isSame));
    this.panel.prepend(this.filter.box);
  }

  /** Shows the rows of the open list that were found, or all of them, in their order; at the same place where they are
   * the same. */
  #fill(found, isSamePlace) {
    this.found = found;
    const rows = this.tab.list.rows(this.file);
    const numbers = this.#inOrder(found, rows);
    const at = (i) => (numbers ? numbers[i] : i);
    const pick = (i) => this.pick(rows.target(at(i)));
    this.grid.show({ count: numbers?.length ?? rows.count, cells: (i) => rows.cells(at(i)), pick }, isSamePlace);
  }

  #inOrder(found, { count, keys }) {
    if (!this.sorted) return found;
    return ordered(found ?? Array(count).keys(), keys[this.sorted.column], this.sorted.direction);
  }

  #sort(column) {
    this.sorted = sortedBy(column, this.sorted);
    this.grid.markSorted(this.sorted);
    this.#fill(this.found, false);
  }

  /** Shows the open list again, as after a change of the base, at its place. */
  refresh() {
    if (!this.tab?.isConnected || !this.grid) return;
    if (this.filter?.field.value) this.filter.look(this.filter.field.value, true);
    else this.#fill(null, true);
  }

  /** The list that is open, in a word, and its rows as they are shown: sorted, and those that were found. */
  get name() {
    return this.tab.list.id;
  }

  csv() {
    return this.grid.csv();
  }

  #key(event) {
    const tabs = [...this.tabs.children];
    const step = { ArrowLeft: -1, ArrowRight: 1 }[event.key];
    if (step === undefined) return;
    const next = tabs[(tabs.indexOf(this.tab) + step + tabs.length) % tabs.length];
    this.open(next);
    next.focus();
  }
}
