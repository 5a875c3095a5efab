// How wide the columns of a table are: each as what is in it, and some have the rest of the room. Where they have none,
// some leave.

/** How many rows are measured before a table is shown. Those that are drawn later are measured then. */
const SAMPLED = 200;
/** A coloured mark before a text, with its gap. */
const CHIP = 15;
/** What a rounded width may lack. */
const SLACK = 2;

const drawing = new OffscreenCanvas(1, 1).getContext("2d");

/** Columns that have left are not drawn: a class of the table has the number of each. */
const MOST_COLUMNS = 16;
const left = (i) => `.left-${i} :is(.head, [data-row]) > :nth-child(${i + 1}) { display: none }`;
document.head.append(Object.assign(document.createElement("style"), {
  textContent: Array.from({ length: MOST_COLUMNS }, (_, i) => left(i)).join("\n"),
}));

/** Digits have one width, that of 0. */
const measured = (text) => Math.ceil(drawing.measureText(String(text).replace(/\d/g, "0")).width) + SLACK;

export class Widths {
  /** `columns`: {name, isNumber, isRest, least, wanted, isOptional, leaves}, of which those with `isRest` share the rest
   * of the room by what is in them. Texts are whole, or where a column says so have `least` ems at least, and `wanted`
   * while others can leave. One that is optional leaves while nothing is in it; others leave a table that is too narrow
   * for all, those of the lowest `leaves` first. */
  constructor(box, columns) {
    const { fontFamily } = getComputedStyle(box);
    drawing.font = `600 12px ${fontFamily}`;
    this.box = box;
    this.columns = columns;
    this.heads = columns.map(({ name }) => measured(name));
    this.widths = [];
    /** Those for which others leave. */
    this.wanted = [];
    /** Those in which no text is cut. */
    this.whole = [];
  }

  /** Begins anew, for other rows. */
  clear() {
    this.widths = this.heads.map((head, i) => (this.columns[i].isOptional ? 0 : head));
    this.wanted = [...this.widths];
    this.whole = [...this.widths];
  }

  /** Has room for rows of a table of so many. */
  sample(cells, count) {
    const rows = Math.min(count, SAMPLED);
    this.include(Array.from({ length: rows }, (_, i) => cells(Math.floor((i * (count - 1)) / Math.max(1, rows - 1)))));
  }

  /** Has room for these rows. */
  include(rows) {
    const { fontFamily, fontSize } = getComputedStyle(this.box);
    drawing.font = `${fontSize} ${fontFamily}`;
    const em = parseFloat(fontSize);
    for (const row of rows) {
      row.forEach((cell, i) => {
        const { least, wanted = least } = this.columns[i];
        if ((cell.text ?? cell) === "") return;
        const width = measured(cell.text ?? cell) + (cell.chip ? CHIP : 0);
        const grow = (widths, ems = Infinity) => {
          widths[i] = Math.max(widths[i], this.heads[i], Math.min(width, ems * em));
        };
        grow(this.widths, least);
        grow(this.wanted, wanted);
        grow(this.whole);
      });
    }
    this.#apply();
  }

  /** The width of all columns in which no text is cut. */
  get sum() {
    return this.whole.reduce((sum, width) => sum + width, 0);
  }

  /** How wide these columns are, with what is between them and at their sides. */
  #wide(columns) {
    const { gap, sides } = this.#around();
    return columns.reduce((sum, i) => sum + this.wanted[i], 0) + gap * (columns.length - 1) + sides;
  }

  #around() {
    const style = getComputedStyle(this.box);
    const of = (name) => parseFloat(style.getPropertyValue(name)) || 0;
    return { gap: of("--gap"), sides: 2 * of("--side") + of("--bar") };
  }

  /** The numbers of the columns for which there is room. */
  #fitting() {
    const found = this.columns.map((_, i) => i).filter((i) => this.widths[i] > 0);
    const leaves = (i) => this.columns[i].leaves;
    const going = found.filter(leaves).sort((one, other) => leaves(other) - leaves(one));
    const { clientWidth } = this.box;
    while (clientWidth > 0 && going.length > 0 && this.#wide(found) > clientWidth) {
      found.splice(found.indexOf(going.pop()), 1);
    }
    return found;
  }

  /** Lets columns leave or come back, as after a change of the table's width. */
  fit() {
    if (this.widths.length > 0) this.#apply();
  }

  #apply() {
    const { box } = this;
    const there = this.#fitting();
    this.columns.forEach((_, i) => box.classList.toggle(`left-${i}`, !there.includes(i)));
    const { columns, whole } = this;
    const widths = this.#wide(there) <= box.clientWidth ? this.wanted : this.widths;
    const one = (i) => (columns[i].isRest ? `minmax(${widths[i]}px, ${whole[i]}fr)` : `${widths[i]}px`);
    box.style.setProperty("--columns", there.map(one).join(" "));
    box.style.setProperty("--shares", there.map((i) => `minmax(0, ${widths[i]}fr)`).join(" "));
    box.style.setProperty("--least", `${there.reduce((sum, i) => sum + widths[i], 0)}px`);
    box.style.setProperty("--gaps", String(there.length - 1));
    const gone = this.columns.filter((column, i) => this.widths[i] > 0 && !there.includes(i));
    const names = gone.map(({ name }) => name).join(", ");
    this.leftText = names && `No room for ${names}: copied and saved with the rest`;
  }
}
