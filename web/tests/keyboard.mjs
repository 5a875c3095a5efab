// The page by the keyboard alone: keys are pressed in the browser, and no event is made by a script.

import { PROGRAM } from "./program.mjs";
import { SUM } from "./texts.mjs";

/** What has the focus: its id, or what it is and stands in. */
const FOCUSED = `
  const it = document.activeElement;
  if (!it || it === document.body) return "";
  const role = it.getAttribute("role") ?? it.localName;
  return it.id || it.getAttribute("href") || role + " of " + it.closest("[id]").id;`;

/** Whether what has the focus is seen, and has an outline of 2 pixels. */
const SEEN = `
  const it = document.activeElement;
  const drawn = it.closest(".button") ?? it;
  const { outlineStyle, outlineWidth } = getComputedStyle(drawn);
  const { top, bottom } = drawn.getBoundingClientRect();
  return outlineStyle !== "none" && parseFloat(outlineWidth) >= 2 && bottom > 0 && top < innerHeight;`;

const CARETS = `
  const caret = (id) => {
    const cell = document.querySelector("#" + id + "-hex .caret");
    const line = cell.parentNode;
    return (parseInt(line.firstChild.textContent, 16) + [...line.children].indexOf(cell) - 1).toString(16);
  };
  return [caret("memory"), caret("file")].join()`;

const focused = (page) => page.in(FOCUSED);

export async function press(page, ...names) {
  for (const name of names) await page.browser.press(name);
}

/** Goes by Tab, or another key, to what has this name. */
export async function reach(page, name, key = "Tab") {
  for (let i = 0; i < 60; i++) {
    await press(page, key);
    if ((await focused(page)) === name) return;
  }
  throw new Error(`${key} does not reach ${name}, but ends at ${await focused(page)}`);
}

/** Where a key leads to, up to a name, and what of that is not seen or has no outline. */
async function way(page, key, last) {
  const found = [];
  const unseen = [];
  for (let i = 0; i < 60 && found.at(-1) !== last; i++) {
    await press(page, key);
    found.push(await focused(page));
    if (!(await page.in(SEEN))) unseen.push(found.at(-1));
  }
  return [found.join(" "), unseen.join(" ")];
}

const OPENING = `pick pick-folder example #example=sum #example=code-and-ext #example=offset-outside
  pick-other copy-link tab-hunks
  grid of list-panel copy-list save-list save-stripped save-linkable map-picture save-map
  base save-memory save-records save-program
  find-memory copy-memory memory-picture memory-hex
  button of memory-item find-file copy-file file-picture file-hex`.replace(/\s+/g, " ");

async function compareWay(page, hold) {
  await page.open();
  const [there, unseen] = await way(page, "Tab", "file-hex");
  hold("what Tab leads to, from the start", OPENING, there);
  hold("what of that has no outline, or is not seen", "", unseen);
  const [back] = await way(page, "Shift+Tab", "pick");
  const wanted = OPENING.replaceAll(" of ", "~").split(" ").reverse().slice(1).join(" ").replaceAll("~", " of ");
  hold("what Shift+Tab leads to, from the end", wanted, back);
}

/** What is picked in the two views, as addresses. */
const PICKED = `
  const picked = (id) => [...document.querySelectorAll("#" + id + "-hex .picked")].map((it) => {
    const line = it.parentNode;
    return (parseInt(line.firstChild.textContent, 16) + [...line.children].indexOf(it) - 1).toString(16);
  }).join(" ");
  return [picked("memory"), picked("file")].join()`;

async function compareLists(page, hold) {
  await page.open();
  await reach(page, "tab-hunks");
  await press(page, "ArrowRight", "ArrowRight");
  hold("the arrow keys among tabs", "tab-relocations", await focused(page));
  const open = `return document.querySelector("[role=tab][aria-selected=true]").id`;
  hold("the list that they open", "tab-relocations", await page.in(open));
  await press(page, "Tab");
  hold("behind a tab", "input of list-panel", await focused(page));
  await press(page, "Tab");
  hold("behind that", "select of list-panel", await focused(page));
  await press(page, "Tab", "ArrowDown", "Enter");
  // By hand: the second relocation stands at byte 6c, and is of offset 8.
  hold("what Enter shows of the second relocation", "21008 21009 2100a 2100b,6c 6d 6e 6f", await page.in(PICKED));
  hold("the focus behind that", "grid of list-panel", await focused(page));
}

async function comparePictures(page, hold) {
  await page.open();
  await reach(page, "map-picture");
  const tip = `return document.activeElement.parentNode.querySelector(".picture-tip").textContent`;
  const first = "hunk 0, CODE, 48 bytes, any memory, 2 relocations: 1 to hunk 0, 1 to hunk 1";
  hold("the label of the map", first, await page.in(tip));
  await press(page, "ArrowRight", "Enter");
  hold("Enter at the second hunk", "21030,78", await page.in(CARETS));
  await reach(page, "memory-picture");
  await press(page, "Enter");
  hold("Enter at the first hunk in memory", "21000,78", await page.in(CARETS));
  await reach(page, "file-picture");
  await press(page, "ArrowRight", "Enter");
  hold("Enter at the first block of the file", "21000,1c", await page.in(CARETS));
  await press(page, "Tab", "ArrowDown", "ArrowRight");
  hold("the arrow keys in the file", "21000,2d", await page.in(CARETS));
  await press(page, "Home", "Tab");
  hold("Tab behind the views", true, (await focused(page)) !== "file-hex");
}

/** A button whose place is taken by others once it is pressed leaves the focus beside it. */
async function compareLeads(page, hold) {
  await page.open();
  await reach(page, "memory-hex");
  await press(page, "ArrowRight", "ArrowRight", "Tab");
  hold("the button behind the memory", "button of memory-item", await focused(page));
  await press(page, "Enter");
  // By hand: the longword at 21002 is relocated at hunk 0, and its value there is 20.
  hold("what it leads to", "21020 21021 21022 21023,44 45 46 47", await page.in(PICKED));
  hold("the focus behind that", "memory-hex", await focused(page));
  await page.open("#example=short-even");
  await reach(page, "button of readings");
  await page.shows(() => press(page, "Enter"));
  const pressed = `const it = document.activeElement;
    return it.getAttribute("aria-pressed") + " " + it.firstChild.textContent`;
  hold("the reading that was picked", "true As it is", await page.in(pressed));
}

async function compareExamples(page, hold) {
  await page.open();
  await reach(page, "#example=code-and-ext");
  await page.shows(() => press(page, "Enter"));
  hold("an example by Enter", "code-and-ext - hunk files", await page.in("return document.title"));
  hold("the focus behind it", "#example=code-and-ext", await focused(page));
  await reach(page, "example", "Shift+Tab");
  await page.shows(() => press(page, "ArrowDown"));
  const title = await page.in("return document.title");
  hold("the next of the list by an arrow key", true, title !== "code-and-ext - hunk files");
  hold("the focus in the list", "example", await focused(page));
}

/** Lists that are scrolled, and a table of files. */
async function compareLong(page, hold) {
  await page.open();
  const texts = Array.from({ length: 40 }, (_, i) => [`text ${i}`, "54657874"]);
  await page.drop([["sum", SUM], ["program", PROGRAM], ...texts]);
  await page.in("document.activeElement.blur()");
  const heads = Array(11).fill("columnheader of many-list").join(" ");
  const classes = "button of many-classes button of many-classes button of many-classes";
  const [there] = await way(page, "Tab", "many-list");
  const table = `pick pick-folder example ${classes} many-filter save-csv compare-two many-list`;
  hold("what Tab leads to in a table", table, there);
  await press(page, "ArrowDown");
  await page.shows(() => press(page, "Enter"));
  hold("the file that Enter opens", "program - hunk files", await page.in("return document.title"));
  hold("the focus behind it", "many-list", await focused(page));
  const [on, unseen] = await way(page, "Tab", "tab-hunks");
  hold("what follows the table", `${heads} pick-other copy-link tab-hunks`, on);
  hold("what of that has no outline, or is not seen", "", unseen);
  await press(page, "ArrowLeft");
  const [list] = await way(page, "Tab", "map-picture");
  const five = Array(5).fill("columnheader of list-panel").join(" ");
  const ofList = `input of list-panel select of list-panel grid of list-panel ${five}`;
  const behind = `${ofList} copy-list save-list save-stripped save-linkable map-picture`;
  hold("what follows a list that scrolls", behind, list);
  await reach(page, "grid of list-panel", "Shift+Tab");
  await press(page, "End", "Enter");
  hold("the last relocation", true, (await page.in(PICKED)).split(",").every((it) => it.split(" ").length === 4));
}

export async function compareKeyboard(page, hold) {
  await compareWay(page, hold);
  await compareLists(page, hold);
  await comparePictures(page, hold);
  await compareLeads(page, hold);
  await compareExamples(page, hold);
  await compareLong(page, hold);
  await page.open();
}
