// The page on paper, and where the system has all colours.

import { PROGRAM } from "./program.mjs";
import { BOTH } from "./warned.mjs";

/** What of the page is on paper: tabs, whether a list has its heads, over their columns, fields and buttons, whether
 * there are rows, cells that are cut, and whether it is wider than the paper. */
const ON_PAPER = `
  const seen = (selector) => [...document.querySelectorAll(selector)].filter((it) => it.checkVisibility());
  const cells = seen("#list-panel [data-row] > *");
  const { right } = document.getElementById("lists").getBoundingClientRect();
  const cut = cells.filter((it) => it.scrollWidth > it.clientWidth + 1 || it.getBoundingClientRect().right > right + 1);
  const lefts = (line) => seen("#list-panel " + line).map((it) => Math.round(it.getBoundingClientRect().left)).join();
  const isOver = lefts(".head > *") === lefts("[data-row='0'] > *");
  return [seen("[role=tab]").length, isOver, seen("#list-panel [role=columnheader]").length > 3,
    seen("[type=search], .button, button:not([role])").map((it) => it.id).join("+"),
    cells.length > 0, cut.length, document.documentElement.scrollWidth > innerWidth].join()`;

/** The colour behind the first byte of a block, and of the page. */
const COLOURS = `
  const at = (it) => getComputedStyle(it).backgroundColor;
  return at(document.querySelector("#file-hex b")) + at(document.body)`;

const BEFORE = `dispatchEvent(new Event("beforeprint"));`;
const AFTER = `dispatchEvent(new Event("afterprint"));`;

async function tryPaper(page, hold) {
  await page.browser.size(700, 900);
  await page.drop([["program", PROGRAM]]);
  await page.in(`document.getElementById("tab-relocations").click(); ${BEFORE}`);
  await page.browser.paper(true);
  hold("on paper", "1,true,true,,true,0,false", await page.in(ON_PAPER));
  const light = await page.in(COLOURS);
  await page.in(AFTER);
  await page.browser.paper(false);
  await page.shows(() => page.browser.dark(true));
  const dark = await page.in(COLOURS);
  hold("the colours in the dark", false, dark === light);
  await page.in(BEFORE);
  await page.browser.paper(true);
  hold("their colours on paper", light, await page.in(COLOURS));
  await page.browser.paper(false);
  await page.in(AFTER);
  hold("and in the dark again", dark, await page.in(COLOURS));
  await page.shows(() => page.browser.dark(false));
  await page.browser.size(1280, 900);
}

/** The colours that the system has for what is chosen: what is behind it, and its texts. */
const SYSTEM = `
  const probe = document.body.appendChild(document.createElement("p"));
  probe.style.cssText = "forced-color-adjust: none; background: Highlight; color: HighlightText";
  const { backgroundColor, color } = getComputedStyle(probe);
  const [highlight, highlightText] = [backgroundColor, color];
  probe.remove();`;

/** Whether all texts of a row that is chosen have the colour of the system, and whether one has a tone. How far that is
 * from what is behind it is for the system to say: Firefox has 2.9 of its own. */
const CHOSEN = `${SYSTEM}
  const cells = [...document.querySelectorAll("#list-panel [aria-selected=true] > *")].filter((it) => it.textContent);
  const isOfSystem = cells.every((it) => getComputedStyle(it).color === highlightText);
  return [isOfSystem, cells.some((it) => it.className === "warn")].join()`;

/** How parts differ from their neighbours where no colour of the page is left. */
const FORCED = `
  document.getElementById("tab-hunks").click();
  document.querySelectorAll("#list-panel [data-row]")[0].click();
  ${SYSTEM}
  const style = (selector) => getComputedStyle(document.querySelector(selector));
  return [
    style("#memory-hex .picked").backgroundColor === highlight,
    style("#list-panel [aria-selected=true]").backgroundColor === highlight,
    style("#memory-hex .relocated").borderBottomStyle, style("#memory-hex .symbol").borderLeftStyle,
    style("#list-panel i").forcedColorAdjust, style("[role=tab][aria-selected=true]").outlineStyle,
  ].join()`;

async function tryForced(page, hold) {
  await page.browser.forced(true);
  await page.open();
  hold("that the system has all colours", true, await page.in(`return matchMedia("(forced-colors: active)").matches`));
  await page.drop([["program", PROGRAM]]);
  const wanted = "true,true,solid,solid,none,solid";
  hold("what is picked, chosen, relocated, named, and marked", wanted, await page.in(FORCED));
  await page.open("#example=offset-outside");
  const refused = `return getComputedStyle([...document.querySelectorAll("#file-hex .refused")].at(-1)).outlineStyle`;
  hold("the fault", "solid", await page.in(refused));
  await page.open(`#hex=${BOTH}`);
  hold("the texts of a row that is chosen, one with a tone", "true,true", await page.in(CHOSEN));
  await page.browser.forced(false);
}

export async function comparePaper(page, hold) {
  await tryPaper(page, hold);
  await tryForced(page, hold);
}
