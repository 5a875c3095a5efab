// Two files beside each other: in what they are the same, what differs, and where that stands in each.

import { differences } from "./differences.js";
import { Grid } from "./grid.js";
import { HexView } from "./hexview.js";
import { ItemLine } from "./itemline.js";
import { counted } from "./names.js";
import { save } from "./saving.js";
import { sourceOfFile } from "./sources.js";
import { SUMS, sumsOf } from "./sums.js";
import { verdictText } from "./verdict.js";

/** @typedef {import("./file.js").Examined} Examined */
/** @typedef {import("./differences.js").Difference} Difference */

const COLUMNS = [
  { name: "hunk", isNumber: true },
  { name: "what differs", isRest: true, least: 8 },
  { name: "in A", isRest: true, least: 6 },
  { name: "in B", isRest: true, least: 6 },
];
const LONG = 4;

/** Why two files have no memory to compare, as `hunk same` says it. */
function whyNone(files) {
  const object = files.findIndex((it) => !it.table);
  return object < 0 ? "relocated longwords overlap" : `${"AB"[object]} is an object file`;
}

/** The lines of `hunk same`: for each of the sums whether both have the same.
 * @param {Examined[]} files */
export function sameLines(files) {
  const [a, b] = files.map(({ hunk, input, bytes, table }) => sumsOf(hunk, input, bytes, Boolean(table)));
  return SUMS.map((name) => {
    if (!a[name] || !b[name]) return `${name}: not compared, as ${whyNone(files)}`;
    return `${name}: ${a[name] === b[name] ? "same" : "different"}`;
  });
}

/** A file of two, with its name, what it is, and its bytes. */
class Part {
  constructor(box) {
    this.name = box.querySelector("strong");
    this.verdict = box.querySelector("span");
    const [hex, item] = box.querySelectorAll("div");
    const line = new ItemLine(item, (it) => this.pick(it));
    this.view = new HexView(hex, `${box.id.slice(-1).toUpperCase()}, as hexadecimal digits`, line);
  }

  show(file) {
    this.name.textContent = file.name;
    this.verdict.textContent = verdictText(file);
    const length = file.fault === undefined ? file.input.length : Math.max(file.input.length, file.fault + LONG);
    const source = sourceOfFile(file);
    // No memory is shown.
    const item = (at) => {
      const found = source.item(at);
      return { ...found, targets: found.targets?.filter((it) => it?.file) };
    };
    this.view.show(file.input, 0, length, { ...source, item });
  }

  /** Marks where a target stands. */
  pick(target) {
    this.view.unpick();
    if (target?.file) this.view.pick(target.file.from, target.file.to);
  }
}

export class Compared {
  constructor(section) {
    const part = (name) => section.querySelector(`#compare-${name}`);
    this.section = section;
    this.parts = [new Part(part("a")), new Part(part("b"))];
    this.same = part("same");
    this.told = part("told");
    this.list = part("list");
    this.grid = new Grid(this.list, "What differs", COLUMNS);
    this.button = part("save");
    this.button.addEventListener("click", () => save(this.text(), "differences.txt", "text/plain"));
    /** @type {Difference[]} */
    this.found = [];
  }

  /** Shows two files.
   * @param {Examined[]} files */
  show(files) {
    this.#place(true);
    const refused = files.findIndex((it) => it.about.refusal || !it.hasBlocks);
    this.same.textContent = refused < 0 ? sameLines(files).join(", ") : "";
    this.found = refused < 0 ? [...differences(files[0], files[1])] : [];
    const why = `Nothing is compared: ${"AB"[refused]} is refused, or is more than this page lists.`;
    this.told.textContent = refused < 0 ? this.#summary() : why;
    for (const it of [this.list, this.button]) it.hidden = this.found.length === 0;
    files.forEach((file, i) => this.parts[i].show(file));
    const { found } = this;
    this.grid.show({ count: found.length, cells: (i) => this.#cells(found[i]), pick: (i) => this.#pick(found[i]) });
    if (this.found.length > 0) this.#pick(this.found[0]);
  }

  #summary() {
    if (this.found.length === 0) return "Nothing differs: A and B are the same, byte for byte.";
    return `What differs, in ${counted(this.found.length, "row")}; what only one of both has stands on its side.`;
  }

  #cells({ where, what, a, b }) {
    return [where, what, a, b];
  }

  /** @param {Difference} difference */
  #pick({ inA, inB }) {
    [inA, inB].forEach((target, i) => this.parts[i].pick(target));
  }

  /** What differs, in the lines of `hunk diff --items`. */
  text() {
    return this.found.map(({ text }) => `${text}\n`).join("");
  }

  close() {
    this.#place(false);
  }

  /** The table of many files leaves room for what stands below it. */
  #place(is) {
    this.section.hidden = !is;
    document.body.classList.toggle("compares", is);
  }
}
