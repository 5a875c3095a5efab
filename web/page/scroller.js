// A long list of which only the rows are made that are seen.

import "./paper.js";

// Browsers lay out no element that is taller than some 17 million pixels. A list that would be is scrolled by its
// share.
const TALLEST = 8000000;

/** The most rows that are printed of a list. */
const PRINTED = 1000;

/** By their boxes: for printing. */
const scrollers = new WeakMap();

function print(is) {
  for (const box of document.querySelectorAll("[data-scrolls]")) scrollers.get(box)?.print(is);
}
addEventListener("beforeprint", () => print(true));
addEventListener("afterprint", () => print(false));

export class Scroller {
  /** `draw(first, count)` gives the HTML of rows; each is `height` pixels high. `drawn()` is called once they are
   * there. */
  constructor(box, height, draw, drawn = () => {}) {
    this.drawn = drawn;
    this.box = box;
    this.height = height;
    this.draw = draw;
    this.count = 0;
    this.top = 0;
    this.isPrinted = false;
    scrollers.set(box, this);
    box.dataset.scrolls = "";
    this.tall = document.createElement("div");
    this.layer = document.createElement("div");
    this.layer.className = "layer";
    this.tall.className = "tall";
    this.tall.setAttribute("role", "presentation");
    this.layer.setAttribute("role", "presentation");
    this.tall.append(this.layer);
    box.append(this.tall);
    box.addEventListener("scroll", () => this.#scrolled());
    box.addEventListener("wheel", (event) => this.#wheel(event), { passive: false });
    new ResizeObserver(() => this.refresh()).observe(box);
  }

  /** How many rows are seen whole. */
  get seen() {
    return Math.max(1, Math.floor(this.box.clientHeight / this.height));
  }

  get #isScaled() {
    return this.count * this.height > TALLEST;
  }

  /** Makes this the number of rows, and shows them from row `top` on. */
  setCount(count, top = 0) {
    this.count = count;
    this.tall.style.height = `${Math.min(count * this.height, TALLEST)}px`;
    this.go(top);
  }

  /** Makes this row the first that is seen. */
  go(row) {
    const last = Math.max(0, this.count - this.seen);
    this.top = Math.min(Math.max(0, Math.round(row)), last);
    const most = this.tall.offsetHeight - this.box.clientHeight;
    this.box.scrollTop = this.#isScaled ? (this.top / last) * most : this.top * this.height;
    this.set = this.box.scrollTop;
    this.refresh();
  }

  /** Scrolls as little as needed for this row to be seen. */
  reveal(row) {
    if (row < this.top) this.go(row);
    else if (row >= this.top + this.seen) this.go(row - this.seen + 1);
    else this.refresh();
  }

  #scrolled() {
    if (this.box.scrollTop !== this.set) {
      const most = Math.max(1, this.tall.offsetHeight - this.box.clientHeight);
      const share = this.box.scrollTop / most;
      this.top = this.#isScaled
        ? Math.round(share * (this.count - this.seen))
        : Math.floor(this.box.scrollTop / this.height);
      this.set = undefined;
    }
    this.refresh();
  }

  #wheel(event) {
    if (!this.#isScaled || event.deltaY === 0) return;
    event.preventDefault();
    this.go(this.top + Math.sign(event.deltaY) * 3);
  }

  /** Draws all rows that are printed, from the first that is seen where they are too many; or again those that are
   * seen. */
  print(is) {
    this.isPrinted = is;
    this.refresh();
  }

  #drawPrinted() {
    const first = this.count > PRINTED ? this.top : 0;
    const count = Math.min(this.count - first, PRINTED);
    const all = this.count.toLocaleString("en");
    if (count < this.count) this.box.dataset.printed = `${count.toLocaleString("en")} lines of ${all} are printed.`;
    this.layer.innerHTML = this.draw(first, count);
  }

  refresh() {
    delete this.box.dataset.printed;
    if (this.isPrinted) {
      this.#drawPrinted();
      return;
    }
    const shift = this.#isScaled || this.set !== undefined ? this.box.scrollTop : this.top * this.height;
    this.layer.style.transform = `translateY(${shift}px)`;
    const count = Math.min(this.count - this.top, this.seen + 2);
    this.layer.innerHTML = this.draw(this.top, Math.max(0, count));
    this.drawn();
  }
}

/** What keys do in a list: the row to go to, or nothing. */
export function rowOfKey(key, row, seen, count) {
  const near = { ArrowUp: row - 1, ArrowDown: row + 1, PageUp: row - seen, PageDown: row + seen };
  const to = { ...near, Home: 0, End: count - 1 }[key];
  return to === undefined ? undefined : Math.min(Math.max(0, to), Math.max(0, count - 1));
}

const ENTITIES = { "&": "&amp;", "<": "&lt;", ">": "&gt;", '"': "&quot;" };

/** A text as it stands in HTML. */
export const escaped = (text) => String(text).replace(/[&<>"]/g, (c) => ENTITIES[c]);
