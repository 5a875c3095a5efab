// Warnings of load files, held to vectors/warnings.tsv: in the verdict, in their list, in the map, among the bytes, and
// in the table of many files.

import { readFileSync } from "node:fs";
import { root } from "./texts.mjs";

const cellsOf = (name) =>
  readFileSync(root + name, "utf8").split("\n").filter((it) => it && it[0] !== "#").map((it) => it.split("\t"));

/** The names of the kinds, by number, and what a developer does. */
const KINDS = new Map(
  cellsOf("docs/warnings.tsv").map(([number, name, , , , developer]) => [Number(number), { name, developer }]),
);
const [SYMBOL_OUTSIDE, OF_RELOCATION] = [6, 5];

/** The warnings of a row of the table, as numbers. */
const warningsOf = (text) =>
  (text ? text.split("; ") : []).map((it) => {
    const [place, hunk, kind, offset, target, value, other] = it.split(" ").map(Number);
    return { place, hunk, kind, offset, target, value, other };
  });

const hex = (number) => number.toString(16).padStart(8, "0");
const offsetText = ({ kind, offset, value }) => {
  if (kind <= OF_RELOCATION) return hex(offset);
  return kind === SYMBOL_OUTSIDE ? hex(value) : "";
};
const counted = (count) => `${count} warning${count === 1 ? "" : "s"}`;

/** The rows of the list: hunk, offset and the name of the kind; and where the first leads to. */
const LIST = `
  const tab = document.querySelector("[role=tab]");
  if (tab.id !== "tab-warnings") return "no warnings";
  tab.click();
  const rows = [...document.querySelectorAll("#list-panel [data-row]")];
  const cells = (row) => [...row.children].map((it) => it.textContent.split(":")[0]).join(" ");
  return [tab.textContent, ...rows.map(cells)].join("\\n")`;

/** The bytes of a view that are amber, as places. */
const AMBER = `
  return [...document.querySelectorAll("#" + values[0] + "-hex .warned")].map((it) => {
    const line = it.closest(".line");
    return parseInt(line.querySelector(".at").textContent, 16) + [...line.children].indexOf(it) - 1;
  }).join()`;

const TEXT = `return document.getElementById(values[0]).textContent`;

/** The bytes of the longwords at these places, rising and each once. */
const bytesAt = (places) =>
  [...new Set(places.flatMap((it) => [0, 1, 2, 3].map((i) => it + i)))].sort((one, other) => one - other);

async function compareFile(page, hold, name, digits, warnings) {
  await page.hex(digits);
  const verdict = await page.in(TEXT, "verdict");
  const said = (verdict.match(/, (\d+ warnings?)\./) ?? ["", "none"])[1];
  hold(`${name}, the verdict`, warnings.length > 0 ? counted(warnings.length) : "none", said);
  const rows = warnings.map((it) => `${it.hunk} ${offsetText(it)} ${KINDS.get(it.kind).name}`);
  const wanted = warnings.length > 0 ? [`Warnings ${warnings.length}`, ...rows].join("\n") : "no warnings";
  hold(`${name}, its list`, wanted, await page.in(LIST));
  if (warnings.length === 0 || digits.length > 600) return;
  hold(`${name}, its amber bytes`, bytesAt(warnings.map((it) => it.place)).join(), await page.in(AMBER, "file"));
  const why = await page.in(TEXT, "why");
  const advised = [...new Set(warnings.map((it) => it.kind))].every((it) => why.includes(KINDS.get(it).developer));
  hold(`${name}, what a developer does`, true, advised);
  const tone = await page.in(`return document.getElementById("verdict").className`);
  hold(`${name}, its tone`, "warn", tone);
}

/** CODE of 8 bytes, relocated at 2 and at the odd 3, which overlap; hunk 1 is a BSS of 4, to whose byte 8 the first
 * leads. */
export const BOTH = `000003f3 00000000 00000002 00000000 00000001 00000002 00000001 000003e9 00000002 41f90000 00084e75
  000003ec 00000001 00000001 00000002 00000001 00000000 00000003 00000000 000003f2
  000003eb 00000001 000003f2`.replace(/\s/g, "");

async function compareBoth(page, hold) {
  await page.hex(BOTH);
  const memory = [2, 3, 4, 5, 6].map((it) => 0x21000 + it);
  hold("the amber bytes of the memory", memory.join(), await page.in(AMBER, "memory"));
  const text = `const canvas = document.getElementById("map-picture");
    canvas.dispatchEvent(new KeyboardEvent("keydown", { key: "Home", bubbles: true }));
    return canvas.getAttribute("aria-valuetext").split(", ").at(-1)`;
  const told = await page.in(TEXT, "verdict");
  hold("the warnings of a hunk in the map", told.match(/\d+ warnings/)[0], await page.in(text));
  hold("the legend of the map", true, (await page.in(TEXT, "map-legend")).endsWith("warnings"));
  const amber = `const canvas = document.getElementById("map-picture");
    const { data } = canvas.getContext("2d").getImageData(4, canvas.height - 40 - 2, 1, 6);
    return [...data].some((it, i) => i % 4 === 0 && it > 190 && data[i + 1] > 110 && data[i + 2] < 60)`;
  hold("the edge of its bar", true, await page.in(amber));
  // The offset 3 stands at byte 52, and its longword at 21003.
  const picked = `const rows = [...document.querySelectorAll("#list-panel [data-row]")];
    const row = rows.find((it) => it.textContent.includes("OddOffset"));
    row.click();
    const first = (id) => {
      const it = document.querySelector("#" + id + "-hex .picked");
      const line = it.closest(".line");
      return (parseInt(line.querySelector(".at").textContent, 16) + [...line.children].indexOf(it) - 1).toString(16);
    };
    return [first("file"), first("memory")].join()`;
  hold("where a warning leads to", "44,21003", await page.in(picked));
}

async function compareTable(page, hold, rows) {
  await page.open();
  await page.drop(rows.map(({ name, digits }) => [name, digits]));
  const text = Buffer.from(await page.saved("save-csv"), "hex").toString();
  const csv = text.split("\r\n").slice(1, -1).map((it) => it.split(","));
  const said = csv.map((cells) => `${cells[0]} ${cells[9]}`).join("\n");
  hold("the warnings of many files", rows.map(({ name, warnings }) => `${name} ${warnings.length}`).join("\n"), said);
  const heads = `return [...document.querySelectorAll("#many-list [role=columnheader]")]
    .map((it) => it.textContent).slice(6, 8).join()`;
  hold("the column behind findings", "findings,warnings", await page.in(heads));
}

export async function compareWarned(page, hold) {
  const cells = cellsOf("vectors/warnings.tsv");
  const rows = cells.map(([name, digits, text]) => ({ name, digits, warnings: warningsOf(text) }));
  hold("files with warnings, more than 10", true, rows.filter(({ warnings }) => warnings.length > 0).length > 10);
  for (const { name, digits, warnings } of rows) {
    if (digits.startsWith("000003f3") && digits.length < 8000) await compareFile(page, hold, name, digits, warnings);
  }
  await compareBoth(page, hold);
  const load = rows.filter(({ digits, warnings }) => digits.startsWith("000003f3") && warnings.length > 0);
  await compareTable(page, hold, load.slice(0, 12));
}
