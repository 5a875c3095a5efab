// What the page once did wrong, tried again by its steps: by keys that are pressed in the browser, at five widths, in
// the light and in the dark. What is wanted was worked out by hand.

import { HEIGHTS, SHARE, toSeven } from "./drawn.mjs";
import { VERDICT } from "./many.mjs";
import { press, reach } from "./keyboard.mjs";
import { PROGRAM } from "./program.mjs";
import { POWERPC } from "./refused.mjs";
import { PLACE, WIDE } from "./staying.mjs";
import { BLOCKS, PICKED } from "./targets.mjs";
import { SUM } from "./texts.mjs";
import { BOTH } from "./warned.mjs";

const WINDOWS = [[390, 844], [800, 900], [1280, 900], [1920, 1080], [2560, 1440]];
/** One in the light and one in the dark, where there is little time. */
const FEW = [[390, true], [1280, false]];

const OPEN = `return document.querySelector("[role=tab][aria-selected=true]").id`;

/** From the open tab to the rows of another list. */
async function turnTo(page, id) {
  for (let i = 0; i < 9 && (await page.in(OPEN)) !== `tab-${id}`; i++) await press(page, "ArrowRight");
  await reach(page, "grid of list-panel");
}

/** To the rows of a list, from where the focus is. */
async function openList(page, id) {
  await reach(page, await page.in(OPEN));
  await turnTo(page, id);
}

/** The bytes that are picked in the file and in the memory. */
const pickedBoth = (page) => page.in(`${PICKED} return picked("file") + " " + picked("memory")`);

/** Rows of Blocks lead to their bytes in both views. */
async function tryBlocks(page, hold) {
  await page.open();
  await openList(page, "blocks");
  const found = [];
  for (const key of ["Home", ...Array(BLOCKS.length - 1).fill("ArrowDown")]) {
    await press(page, key, "Enter");
    found.push(await pickedBoth(page));
  }
  hold("where blocks lead to", BLOCKS.join(), found.join());
}

/** A file that takes long is opened, and then a quick one. */
async function tryOvertaken(page, hold) {
  await page.open();
  await page.drop([["slow", SUM], ["quick", PROGRAM]]);
  await page.in(`const read = File.prototype.arrayBuffer;
    File.prototype.arrayBuffer = async function () {
      if (this.name === "slow") await new Promise((done) => setTimeout(done, 500));
      return read.call(this);
    };`);
  await reach(page, "many-list");
  await press(page, "Home", "Enter", "ArrowDown", "Enter");
  await page.in("await new Promise((done) => setTimeout(done, 1000))");
  const shown = `return document.querySelector("#many-list [aria-selected=true]").firstChild.textContent + ", " +
    document.getElementById("file-name").textContent.split(",")[0]`;
  hold("the file that is marked, and the one that is shown", "quick, quick", await page.in(shown));
}

/** A file in another spelling: places are its own. Its relocation stands at byte 48, in two bytes. */
async function trySpelling(page, hold) {
  await page.open(`#hex=${WIDE}`);
  await openList(page, "relocations");
  await press(page, "Home", "Enter");
  hold("the bytes of a short relocation", "30-31 21000-21003", await pickedBoth(page));
}

/** Warnings are told, and lead to amber bytes. */
async function tryWarned(page, hold) {
  await page.open(`#hex=${BOTH}`);
  await openList(page, "warnings");
  await press(page, "Home", "Enter");
  const amber = `const amber = (id) => document.querySelectorAll("#" + id + "-hex .picked.warned").length;
    return [document.getElementById("verdict").className, amber("file"), amber("memory")].join()`;
  hold("a warning, and the amber bytes to which it leads", "warn,4,4", await page.in(amber));
}

/** Of each view, whether the first byte that is picked is seen in it, and in the window. */
const SEEN = `return ["memory", "file"].map((id) => {
    const { top, bottom } = document.querySelector("#" + id + "-hex .picked").getBoundingClientRect();
    const box = document.getElementById(id + "-hex").getBoundingClientRect();
    return top >= 0 && bottom <= innerHeight && top >= box.top - 1 && bottom <= box.bottom + 1;
  }).join()`;

const ACTIVE = `const grid = document.querySelector("#list-panel .grid");
  return document.getElementById(grid.getAttribute("aria-activedescendant"))?.getAttribute("aria-selected")`;

/** Names are whole; the last row leads to what is seen, and is named; and all stays through a change of colours and of
 * the address. */
async function tryRows(page, hold) {
  await page.open();
  await page.drop([["program", PROGRAM]]);
  await openList(page, "symbols");
  const cut = `return [...document.querySelectorAll("#list-panel [data-row] > *, #list-panel [role=columnheader]")]
    .filter((it) => it.scrollWidth > it.clientWidth).map((it) => it.textContent).join()`;
  hold("names of symbols that are cut", "", await page.in(cut));
  await reach(page, "tab-symbols", "Shift+Tab");
  await turnTo(page, "relocations");
  await press(page, "End", "Enter");
  hold("where the last relocation leads to is seen", "true,true", await page.in(SEEN));
  hold("the active row is there", "true", await page.in(ACTIVE));
  const before = await page.in(PLACE);
  const isDark = await page.in(`return matchMedia("(prefers-color-scheme: dark)").matches`);
  for (const is of [!isDark, isDark]) await page.shows(() => page.browser.dark(is));
  await reach(page, "base");
  await page.shows(() => press(page, "Control+a", ..."40000", "Enter"));
  hold("the address that was typed", "40000", await page.in(`return document.getElementById("base").value`));
  hold("the place behind that", before, await page.in(PLACE));
}

/** What Ctrl and C copy. */
async function tryCopied(page, hold) {
  await page.open();
  await page.in(`window.copied = "nothing";
    addEventListener("copy", (event) => (window.copied = event.clipboardData.getData("text/plain")));`);
  await openList(page, "blocks");
  await press(page, "Home", "Shift+ArrowDown", "Control+c");
  const rows = "0000001c\t0\tCODE\t56\t48 bytes of content\n00000054\t0\tRELOC32\t32\t2 items\n";
  hold("two rows, copied", rows, await page.in("return copied"));
  await reach(page, "file-hex");
  await press(page, "Home", ...Array(3).fill("Shift+ArrowRight"), "Control+c");
  hold("four bytes, copied", "00 00 03 f3\n", await page.in("return copied"));
}

/** Files of one's own behind the button Back of the browser, which is no part of the page. */
async function tryBack(page, hold) {
  await page.open();
  await page.drop([["one", SUM]]);
  await page.drop([["two", PROGRAM]]);
  await page.shows(() => page.in("history.back()"));
  hold("the file before", "one - hunk files", await page.in("return document.title"));
  await page.shows(() => page.in("history.forward()"));
  hold("and the one after it", "two - hunk files", await page.in("return document.title"));
}

/** A link without the name of an example, and a program with PowerPC code. */
async function tryTold(page, hold) {
  await page.open("#example=");
  hold("a link without a name", "A load file: 2 hunks, 60 bytes in memory.", await page.in(VERDICT));
  await page.open(`#hex=${POWERPC}`);
  const why = `return document.getElementById("why").textContent.split("\\n")[0]`;
  const wanted = "Not supported: a program with PowerPC code, in a CODE block of its own type.";
  hold("PowerPC code, why", wanted, await page.in(why));
}

/** Files in the order of people, and the list that was open. */
async function tryOrder(page, hold) {
  await page.open();
  await openList(page, "blocks");
  await page.drop(["z10", "B", "z2", "a", "z1"].map((name) => [name, SUM]));
  // The list that had the focus is gone, and from its place Firefox goes on to its own buttons.
  await page.in(`document.getElementById("pick").focus()`);
  await reach(page, "columnheader of many-list");
  await press(page, "Enter");
  const names = `return [...document.querySelectorAll("#many-list [data-row] > :first-child")]
    .map((it) => it.textContent).join()`;
  hold("files by their names", "a,B,z1,z2,z10", await page.in(names));
  await reach(page, "many-list", "Shift+Tab");
  await page.shows(() => press(page, "End", "Enter"));
  const open = `return document.title + ", " + document.querySelector("[role=tab][aria-selected=true]").id`;
  hold("the last of them, and its list", "z10 - hunk files, tab-blocks", await page.in(open));
}

/** The map of 300 hunks: the arcs of the chosen one alone. */
async function tryMap(page, hold) {
  await page.open();
  await page.drop([["seven", toSeven()]]);
  await reach(page, "map-picture");
  await press(page, "End");
  const tip = `return document.querySelector("#hunks .picture-tip").textContent`;
  // From 299 to 0 and to 7.
  const told = "hunk 299, CODE, 8 bytes, any memory, 2 relocations: 1 to hunk 0, 1 to hunk 7";
  hold("the last of 300 hunks", told, await page.in(tip));
  const share = await page.in(`${HEIGHTS} ${SHARE}`, 200);
  hold("its arcs, alone", true, share > 0.001 && share < 0.15);
}

/** What the words mean. */
async function tryWords(page, hold) {
  await page.open();
  await reach(page, "summary of words");
  await press(page, "Enter");
  const seen = `return [...document.querySelectorAll("#words dd")].every((it) => it.checkVisibility())`;
  hold("what the words mean", true, await page.in(seen));
}

const STEPS = [
  tryBlocks, tryOvertaken, trySpelling, tryWarned, tryRows, tryCopied, tryBack, tryTold, tryOrder, tryMap, tryWords,
];

async function tryWindow(page, hold, [width, height], isDark) {
  const where = `at ${width} pixels, ${isDark ? "dark" : "light"}`;
  const holdHere = (what, wanted, said) => hold(`${what}, ${where}`, wanted, said);
  await page.browser.size(width, height);
  await page.browser.touch(width === 390);
  await page.browser.dark(isDark);
  for (const step of STEPS) {
    await step(page, holdHere);
    const isWide = await page.in("return document.documentElement.scrollWidth > innerWidth");
    holdHere(`${step.name}: a page that scrolls sideways`, false, isWide);
  }
}

/** `isFew`: in two windows alone. */
export async function compareSteps(page, hold, { isFew }) {
  for (const size of WINDOWS) {
    for (const isDark of [false, true]) {
      const isTaken = !isFew || FEW.some(([width, is]) => width === size[0] && is === isDark);
      if (isTaken) await tryWindow(page, hold, size, isDark);
    }
  }
  await page.browser.touch(false);
  await page.browser.dark(false);
  await page.browser.size(1280, 900);
}
