// Where the rows of lists lead to: to their bytes in the file and in the memory. What is wanted was read off the files
// by hand.

import { PROGRAM } from "./program.mjs";
import { SUM } from "./texts.mjs";

/** The first and the last byte that are picked in each view, as far as they are drawn. */
export const PICKED = `
  const picked = (id) => {
    const found = [...document.querySelectorAll("#" + id + "-hex .picked")].map((it) => {
      const line = it.closest(".line");
      const cells = [...line.querySelectorAll(":scope > span, :scope > b")];
      return parseInt(line.querySelector(".at").textContent, 16) + cells.indexOf(it) - 1;
    });
    return found.length === 0 ? "none" : [found[0], found.at(-1)].map((it) => it.toString(16)).join("-");
  };`;

/** Where each row of a list leads to: the bytes of the file, and those of the memory. */
const ROWS = `${PICKED}
  document.getElementById("tab-" + values[0]).click();
  return [...Array(document.querySelectorAll("#list-panel [data-row]").length).keys()].map((i) => {
    document.querySelectorAll("#list-panel [data-row]")[i].click();
    return picked("file") + " " + picked("memory");
  }).join()`;

/** Blocks of the example: CODE of 48 bytes at 1c, RELOC32 at 54, END, and BSS of 12 at 78, END. */
export const BLOCKS = ["1c-53 21000-2102f", "54-73 none", "74-77 none", "78-7f 21030-2103b", "80-83 none"];
const HUNKS = ["1c-53 21000-2102f", "78-7f 21030-2103b"];
const RELOCATIONS = ["60-63 21002-21005", "6c-6f 21008-2100b"];

export async function compareTargets(page, hold) {
  await page.hex(SUM);
  hold("where blocks lead to", BLOCKS.join(), await page.in(ROWS, "blocks"));
  hold("where hunks lead to", HUNKS.join(), await page.in(ROWS, "hunks"));
  hold("where relocations lead to", RELOCATIONS.join(), await page.in(ROWS, "relocations"));
  await page.drop([["program", PROGRAM]]);
  const first = await page.in(`${PICKED} document.getElementById("tab-blocks").click();
    [...document.querySelectorAll("#list-panel [data-row]")].find((it) => /DATA/.test(it.textContent)).click();
    return picked("memory").split("-")[0]`);
  // 96, 148 and 72 longwords of code stand before the first DATA.
  hold("where the first DATA of a program leads to", (0x21000 + 4 * (96 + 148 + 72)).toString(16), first);
}
