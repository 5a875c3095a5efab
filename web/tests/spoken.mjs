// What screen readers are told: names of parts, the active row, what is spoken and what is not. And what the words
// mean.

import { PROGRAM } from "./program.mjs";
import { SUM } from "./texts.mjs";

/** Sections that have no name. */
const NAMELESS = `
  return [...document.querySelectorAll("section, nav")].filter((it) => {
    const by = document.getElementById(it.getAttribute("aria-labelledby"));
    return !it.getAttribute("aria-label") && !by?.textContent.trim();
  }).map((it) => it.id).join()`;

/** Whether the active row that a list names is there, after it was scrolled. */
const ACTIVE = `
  document.getElementById("tab-relocations").click();
  const grid = document.querySelector("#list-panel .grid");
  const named = () => {
    const name = grid.getAttribute("aria-activedescendant");
    return name === null ? "no row" : document.getElementById(name) ? "a row" : "a row that is not there";
  };
  const found = [named()];
  const body = grid.querySelector(".body");
  for (const to of [1e6, 0]) {
    body.scrollTop = to;
    await new Promise((done) => setTimeout(done, 100));
    found.push(named());
  }
  return found.join()`;

/** What is spoken: the texts of all parts that tell of a change. */
const SPOKEN = `const spoken = () => [...document.querySelectorAll("[role=status], [role=alert], [aria-live]")]
  .map((it) => it.textContent).join("|");`;

async function trySpeech(page, hold) {
  await page.hex(SUM);
  const hovered = `${SPOKEN} const before = spoken();
    const cell = document.querySelectorAll("#file-hex .line")[2].children[5];
    cell.dispatchEvent(new PointerEvent("pointermove", { bubbles: true }));
    return [document.getElementById("file-item").textContent.includes("00000024"), before === spoken()].join()`;
  hold("a byte under the pointer is told, and not spoken", "true,true", await page.in(hovered));
  const keyed = `${SPOKEN} const view = document.getElementById("file-hex");
    view.dispatchEvent(new KeyboardEvent("keydown", { key: "ArrowDown", bubbles: true }));
    return spoken().includes("00000010 HEADER: last hunk")`;
  hold("a byte that keys lead to is spoken", true, await page.in(keyed));
}

const WORDS = [
  "hunk", "load file", "object file", "unit", "longword", "block", "base", "offset", "relocation", "symbol",
  "external name",
  "reference", "finding", "warning", "another spelling", "plain spelling", "stripped", "chip memory", "sum",
  "undefined",
  "HEADER", "CODE", "RELOC32SHORT",
];

/** Heads that are plain English. */
const PLAIN = [
  "bytes", "name", "files that need it", "the first", "what differs", "in A", "in B", "what is wrong",
  "what is suspicious",
];

/** Heads, tabs, parts of legends, kinds of blocks and classes that no title explains, with each list open. */
const UNEXPLAINED = `
  const found = [...document.querySelectorAll("[role=tab], .legend span:has(> i), #many-classes button")];
  for (const tab of document.querySelectorAll("[role=tab]")) {
    tab.click();
    const third = "#list-panel [data-row] > :nth-child(3)";
    const kinds = tab.id === "tab-blocks" ? [...document.querySelectorAll(third)] : [];
    found.push(...document.querySelectorAll("[role=columnheader]"), ...kinds);
  }
  const untitled = new Set(found.filter((it) => !it.title).map((it) => it.textContent));
  return [...untitled].filter((it) => !values[0].includes(it)).join()`;

/** By each list: the head of the column that names a row, where each row has one name. */
const NAMED = `
  return [...document.querySelectorAll("[role=tab]")].map((tab) => {
    tab.click();
    const heads = [...document.querySelectorAll("#list-panel [role=columnheader]")];
    const rows = [...document.querySelectorAll("#list-panel [data-row]")];
    const names = rows.map((row) => row.querySelectorAll("[role=rowheader]"));
    if (!names.every((it) => it.length === 1 && it[0].textContent)) return "none";
    const indexes = new Set(names.map((it) => it[0].getAttribute("aria-colindex")));
    return tab.id.slice(4) + ": " + [...indexes].map((it) => heads[it - 1].textContent).join();
  }).join("; ")`;

async function tryNamed(page, hold) {
  await page.drop([["program", PROGRAM]]);
  hold("the names of rows", "hunks: hunk; blocks: block; symbols: name; relocations: source", await page.in(NAMED));
  await page.open("#example=code-and-ext");
  hold("the names of rows of an object file", true, /entries: name; references: name$/.test(await page.in(NAMED)));
}

async function tryWords(page, hold) {
  const said = await page.in(`return [...document.querySelectorAll("#words dt")].map((it) => it.textContent)`);
  hold("words that are not explained", "", WORDS.filter((it) => !said.includes(it)).join());
  for (const example of ["sum", "code-and-ext", "two-findings", "short-even"]) {
    await page.open(`#example=${example}`);
    hold(`what is not explained where it stands, of ${example}`, "", await page.in(UNEXPLAINED, PLAIN));
  }
  await page.drop([["program", PROGRAM], ["sum", SUM], ["text", "54657874"]]);
  hold("what is not explained of a table", "", await page.in(UNEXPLAINED, PLAIN));
  await page.drop([["program", PROGRAM]]);
  hold("what is not explained of a program", "", await page.in(UNEXPLAINED, PLAIN));
  const verdict = `return [...document.querySelectorAll("#verdict abbr")]
    .map((it) => it.textContent + (it.title ? "" : "?")).join()`;
  hold("the words of a verdict", "load file,hunks", await page.in(verdict));
}

export async function compareSpoken(page, hold) {
  await page.open();
  hold("parts without a name", "", await page.in(NAMELESS));
  await page.drop([["program", PROGRAM]]);
  hold("the active row of a list", "a row,no row,a row", await page.in(ACTIVE));
  await trySpeech(page, hold);
  await tryNamed(page, hold);
  await tryWords(page, hold);
}
