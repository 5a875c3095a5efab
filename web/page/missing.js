// The names that object files need, and that no file of the table defines.

import { Grid } from "./grid.js";
import { counted } from "./names.js";
import { save } from "./saving.js";

const COLUMNS = [
  { name: "name", isRest: true, least: 12 },
  { name: "files that need it", isNumber: true },
  { name: "the first", least: 16 },
];

export class Missing {
  /** `open(line)` is called for the line of a file. */
  constructor(box, open) {
    this.box = box;
    this.open = open;
    this.head = box.querySelector("summary");
    this.grid = new Grid(box.querySelector("div"), "Names that no file here defines", COLUMNS);
    box.querySelector("button").addEventListener("click", () => save(this.grid.csv(), "undefined.csv", "text/csv"));
  }

  /** Shows names, each with the lines of the files that need it. A table begins with none of them. */
  show(missing) {
    this.box.hidden = missing.length === 0;
    this.head.textContent = `${counted(missing.length, "name")} that no file here defines`;
    const cells = ({ name, needing }) => [name, needing.length.toLocaleString("en"), needing[0].file];
    const pick = (i) => this.open(missing[i].needing[0]);
    this.grid.show({ count: missing.length, cells: (i) => cells(missing[i]), pick }, missing.length > 0);
  }
}
