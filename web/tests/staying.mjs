// What stays: the file that was picked last, the list, the place and the reading when colours or the base change, and
// files of one's own in the history of the browser.

import { PROGRAM } from "./program.mjs";
import { SUM, digits } from "./texts.mjs";

/** CODE of 8 bytes, a short block of offset 0, and no END. */
export const WIDE = digits(`
  000003f3 00000000 00000001 00000000 00000000 00000002
  000003e9 00000002 00000000 00000000 000003fc 00010000 00000000`);

const TITLE = `return document.title.replace(" - hunk files", "")`;
const PAUSE = `await new Promise((done) => setTimeout(done, values.at(-1)));`;

/** A file that takes long to be read, and then a quick one: both are picked in a table, at once. */
async function tryOvertaken(page, hold) {
  await page.open();
  await page.drop([["slow", SUM], ["quick", PROGRAM]]);
  const said = await page.in(
    `const read = File.prototype.arrayBuffer;
     File.prototype.arrayBuffer = async function () {
       if (this.name === "slow") await new Promise((done) => setTimeout(done, 300));
       return read.call(this);
     };
     const rows = [...document.querySelectorAll("#many-list [data-row]")];
     const row = (name) => rows.find((it) => it.firstChild.textContent === name);
     row("slow").click();
     row("quick").click();
     ${PAUSE}
     File.prototype.arrayBuffer = read;
     const marked = document.querySelector("#many-list [aria-selected=true]").firstChild.textContent;
     return marked + ", " + document.getElementById("file-name").textContent.split(",")[0]`,
    700,
  );
  hold("the file that is marked, and the one that is shown", "quick, quick", said);
}

/** The open list, its first row that is seen and the one that is marked, what is picked, and how far the views are
 * scrolled. */
export const PLACE = `
  const seen = document.querySelector("#list-panel [data-row]").dataset.row;
  const body = document.querySelector("#list-panel .body");
  const lines = (id) => document.querySelector("#" + id + "-hex").scrollTop;
  const picked = (id) => document.querySelectorAll("#" + id + "-hex .picked").length;
  return JSON.stringify({
    tab: document.querySelector("[role=tab][aria-selected=true]").id, seen, top: body.scrollTop > 0,
    marked: document.querySelector("#list-panel [aria-selected=true]")?.firstChild.textContent,
    memory: [picked("memory"), lines("memory") > 0], file: [picked("file"), lines("file") > 0] });`;

async function tryPlaces(page, hold) {
  await page.open();
  await page.drop([["program", PROGRAM]]);
  await page.in(`document.getElementById("tab-relocations").click();
    const grid = document.querySelector("#list-panel .grid");
    for (const key of ["End", "ArrowUp", "Enter"]) {
      grid.dispatchEvent(new KeyboardEvent("keydown", { key, bubbles: true }));
    }`);
  const before = await page.in(PLACE);
  hold("a place far down", true, /"top":true.*"memory":\[4,true\],"file":\[4,true\]/.test(before));
  for (const is of [true, false]) {
    await page.shows(() => page.browser.dark(is));
    hold(`the place in the ${is ? "dark" : "light"}`, before, await page.in(PLACE));
  }
  await page.shows(() => page.in(`const base = document.getElementById("base"); base.value = "40000";
    base.dispatchEvent(new Event("change"))`));
  hold("the place at another base", before, await page.in(PLACE));
  await page.open(`#hex=${WIDE}`);
  await page.shows(() => page.in(`document.querySelectorAll("#readings button")[0].click()`));
  const reading = `return [...document.querySelectorAll("#readings button")]
    .map((it) => it.getAttribute("aria-pressed")).join()`;
  await page.shows(() => page.browser.dark(true));
  hold("the reading in the dark", "true,false", await page.in(reading));
  await page.shows(() => page.browser.dark(false));
}

async function tryHistory(page, hold) {
  const go = async (way) => {
    await page.shows(() => page.in(`history.${way}()`));
    return page.in(TITLE);
  };
  await page.open();
  await page.drop([["one", SUM]]);
  await page.drop([["two", PROGRAM]]);
  await page.drop([["a", SUM], ["b", PROGRAM], ["c", "00"]]);
  await page.shows(() => page.in(`document.querySelectorAll("#many-list [data-row]")[1].click()`));
  hold("a file of a table", "b", await page.in(TITLE));
  const table = `return document.getElementById("many").hidden + " " + document.title.replace(" - hunk files", "")`;
  await go("back");
  hold("the table behind it", "false 3 files", await page.in(table));
  hold("the file before the table", "two", await go("back"));
  hold("the table there", true, await page.in(`return document.getElementById("many").hidden`));
  hold("the one before", "one", await go("back"));
  hold("the example before", "sum", await go("back"));
  hold("its card", "#example=sum", await page.in(`return document.querySelector("#examples [aria-current]").hash`));
  hold("forward again", "one", await go("forward"));
  const bytes = `return document.getElementById("file-name").textContent.split(", ")[1]`;
  hold("its bytes", "132 bytes", await page.in(bytes));
  await go("forward");
  await go("forward");
  hold("the table again", "false 3 files", await page.in(table));
  hold("its file again", "b", await go("forward"));
}

/** The list of examples has a first line that is none. */
async function tryNoExample(page, hold) {
  await page.open();
  await page.in(`const list = document.getElementById("example"); list.value = "";
    list.dispatchEvent(new Event("change")); ${PAUSE}`, 50);
  const verdict = `return document.getElementById("verdict").textContent`;
  hold("the first line of the list of examples", "A load file: 2 hunks, 60 bytes in memory.", await page.in(verdict));
  await page.open("#example=");
  hold("a link without a name", "A load file: 2 hunks, 60 bytes in memory.", await page.in(verdict));
}

/** Names in the order of people, and the same list of each file. */
async function tryOrder(page, hold) {
  await page.open();
  await page.drop(["z10", "B", "z2", "a", "z1"].map((name) => [name, SUM]));
  await page.in(`document.querySelector("#many-list [role=columnheader]").click()`);
  const names = `return [...document.querySelectorAll("#many-list [data-row] > :first-child")]
    .map((it) => it.textContent).join()`;
  hold("files by their names", "a,B,z1,z2,z10", await page.in(names));
  await page.drop([["one", PROGRAM]]);
  await page.in(`document.getElementById("tab-blocks").click()`);
  await page.drop([["two", SUM]]);
  const tab = `return document.querySelector("[role=tab][aria-selected=true]").id`;
  hold("the list of the next file", "tab-blocks", await page.in(tab));
}

export async function compareStaying(page, hold) {
  for (const it of [tryOvertaken, tryPlaces, tryHistory, tryNoExample, tryOrder]) await it(page, hold);
}

export { tryOvertaken, tryPlaces, tryHistory, tryNoExample, tryOrder };
