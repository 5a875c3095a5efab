// The columns of tables: as wide as what is in them, so that common lists fit a phone and a window of 980 pixels.

import { DAMAGED, PROGRAM } from "./program.mjs";
import { digits } from "./texts.mjs";
import { BOTH } from "./warned.mjs";

const WINDOWS = [390, 800, 980, 981, 1000, 1110, 1120, 1280, 1800, 1920, 2560];
const LISTS = ["hunks", "blocks", "symbols", "relocations"];

/** How much wider the open list is than its box, and which of its texts are cut; of what is in a block some may be. */
const OPEN = `
  document.getElementById("tab-" + values[0]).click();
  const grid = document.querySelector("#list-panel .grid");
  const cells = [...grid.querySelectorAll("[role=columnheader], [role=rowheader], [role=gridcell]")];
  const isRest = (cell) => [...cell.parentNode.children].indexOf(cell) === values[1];
  const cut = cells.filter((it) => it.scrollWidth > it.clientWidth && !isRest(it));
  return [grid.scrollWidth - grid.clientWidth, ...cut.map((it) => it.textContent)].join()`;

/** The column of a list that has the rest of the room. It may be cut on a phone, and at 1,800 pixels, where the list
 * and both views only just fit beside each other. */
const REST = { blocks: 4, warnings: 2 };
const restOf = (list, width) => (width < 800 || width === 1800 ? REST[list] : undefined);

/** Where each column begins, from the left of the table. */
const COLUMNS = `
  const { left } = document.querySelector("#list-panel .grid").getBoundingClientRect();
  const columns = (line) => [...line.children].map((it) => Math.round(it.getBoundingClientRect().left - left)).join();
  return [".head", "[data-row]"].map((it) => columns(document.querySelector("#list-panel " + it)))`;

/** The texts beside the bytes that the first row leads to which are cut. */
const LINES = `
  document.querySelector("#list-panel [data-row]").click();
  const isCut = (it) => it.scrollWidth > it.clientWidth || it.scrollHeight > it.clientHeight + 1;
  return [...document.querySelectorAll(".item-line p:first-child, .item-line p:first-child span")]
    .filter((it) => it.checkVisibility() && isCut(it)).map((it) => it.textContent).join()`;

/** How many lines of the views have letters, or names beside them, for which there is no room: 50 pixels for names. */
const NARROW = `
  return [...document.querySelectorAll(".hex .line")].filter((line) => {
    const room = line.getBoundingClientRect().right - 10;
    const names = line.querySelector(".names");
    const isCut = line.querySelector(".text").getBoundingClientRect().right > room + 1;
    return isCut || (names?.checkVisibility() && names.getBoundingClientRect().left + 50 > room);
  }).length`;

/** Files of which each column of the table of many has something: the third has a finding, and a name that none
 * defines. */
const FILES = [
  ["a program with a name of some length", PROGRAM],
  ["the same program", PROGRAM],
  ["object", digits(`
    000003e7 00000000 000003e9 00000001 00000000 000003ec 00000001 00000007 00000000 00000000
    000003ef 81000001 5f660000 00000001 00000000 00000000 000003f2`)],
  ["damaged", DAMAGED],
  ["text", "54657874"],
];

/** How much wider the table of many files is than its box, and the columns that are seen, whether the others are told,
 * whether names are whole where other columns can leave, and all texts where there is room. */
const MANY = `
  const grid = document.getElementById("many-list");
  const heads = [...grid.querySelectorAll("[role=columnheader]")];
  const seen = heads.filter((it) => it.checkVisibility());
  const isTold = seen.length === heads.length || /^No room for .*sum/.test(grid.querySelector(".head").title);
  const areThere = ["file", "bytes", "class"].every((it) => seen.some((head) => head.textContent === it));
  const cut = [...grid.querySelectorAll("[data-row] > *")].filter((it) => it.scrollWidth > it.clientWidth);
  const areNamed = innerWidth < 800 || cut.every((it) => it.previousElementSibling);
  const isWhole = innerWidth < 1800 || cut.length === 0;
  return [grid.scrollWidth - grid.clientWidth, areThere, isTold, areNamed, isWhole].join()`;

async function compareMany(page, hold) {
  for (const width of WINDOWS) {
    await page.browser.size(width, 800);
    await page.browser.touch(width === 390);
    await page.open();
    await page.drop(FILES);
    hold(`the table of many files at ${width} pixels`, "0,true,true,true,true", await page.in(MANY));
  }
  await page.browser.touch(false);
  await page.browser.size(1280, 900);
  const there = `return [...document.querySelectorAll("#many-list [role=columnheader]")]
    .filter((it) => it.checkVisibility()).length`;
  const wide = await page.in(there);
  await page.browser.size(800, 900);
  await page.in("await new Promise((done) => setTimeout(done, 200))");
  hold("columns that leave a narrow window", true, (await page.in(there)) < wide);
  await page.browser.size(1280, 900);
  await page.in("await new Promise((done) => setTimeout(done, 200))");
  hold("columns that come back", wide, await page.in(there));
}

export async function compareWidths(page, hold) {
  await compareMany(page, hold);
  for (const width of WINDOWS) {
    await page.browser.size(width, 800);
    await page.browser.touch(width === 390);
    await page.open();
    for (const list of ["hunks", "blocks", "relocations"]) {
      hold(`sum, ${list} at ${width} pixels`, "0", await page.in(OPEN, list, restOf(list, width)));
    }
    await page.drop([["program", PROGRAM]]);
    for (const list of LISTS) {
      hold(`a program, ${list} at ${width} pixels`, "0", await page.in(OPEN, list, restOf(list, width)));
      const [head, row] = await page.in(COLUMNS);
      hold(`a program, heads of ${list} at ${width} pixels`, head, row);
      hold(`a program, what is told of ${list} at ${width} pixels`, "", await page.in(LINES));
    }
    hold(`lines of bytes without room at ${width} pixels`, 0, await page.in(NARROW));
    await page.open(`#hex=${BOTH}`);
    hold(`warnings at ${width} pixels`, "0", await page.in(OPEN, "warnings", restOf("warnings", width)));
    hold(`what is told of warnings at ${width} pixels`, "", await page.in(LINES));
    await page.open("#example=two-findings");
    hold(`findings at ${width} pixels`, "0", await page.in(OPEN, "check"));
    const wide = await page.in("return document.documentElement.scrollWidth > innerWidth");
    hold(`a page of ${width} pixels that scrolls sideways`, false, wide);
  }
  await page.browser.touch(false);
  await page.browser.size(1280, 900);
  await compareGrown(page, hold);
}

/** A file of so many hunks of one longword; one of them is large. */
function manyHunks(count, large) {
  const long = (number) => number.toString(16).padStart(8, "0");
  const sizes = Array.from({ length: count }, (_, i) => (i === large ? 0x100000 : 1));
  const hunks = sizes.flatMap((size) => [0x3eb, size, 0x3f2]);
  return [0x3f3, 0, count, 0, count - 1, ...sizes, ...hunks].map(long).join("");
}

/** A column grows for a row that is drawn later, and nothing is cut then. */
async function compareGrown(page, hold) {
  await page.drop([["hunks", manyHunks(1000, 701)]]);
  const cut = `document.getElementById("tab-hunks").click();
    const grid = document.querySelector("#list-panel .grid");
    const key = (name) => grid.dispatchEvent(new KeyboardEvent("keydown", { key: name, bubbles: true }));
    key("End");
    for (let i = 0; i < 298; i++) key("ArrowUp");
    const row = grid.querySelector("[aria-selected=true]");
    const cells = [...row.children].map((it) => (it.scrollWidth > it.clientWidth ? "cut " : "") + it.textContent);
    return [...cells, grid.scrollWidth - grid.clientWidth].join(" | ")`;
  const wanted = "701 | 4,194,304 | any | 00021af4 | 0 | 0";
  hold("a row that is wider than those before", wanted, await page.in(cut));
}
