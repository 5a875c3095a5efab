// What the page saves: lists as CSV, the map as SVG, and files in other formats, which have to be those of the command
// `hunk`.

import { readFileSync, writeFileSync } from "node:fs";
import { called, hasCommand } from "./command.mjs";
import { LOAD, type } from "./many.mjs";
import { BASE } from "./page.mjs";
import { SUM, digits, root } from "./texts.mjs";

/** In CSV as the list shows it, but for commas in numbers. */
const HUNKS = `hunk,bytes,memory,base,relocated
0,4000,any,00021000,0
`.replaceAll("\n", "\r\n");
/** One hunk of 4,000 bytes. */
const LARGE = digits("000003f3 00000000 00000001 00000000 00000000 000003e8 000003eb 000003e8 000003f2");

const SYMBOLS = `at,hunk,value,address,name
00000064,0,00000008,00021008,add_one.
`.replaceAll("\n", "\r\n");

/** Code of 4 bytes at 21000, by the rules of S-records: a count, the address, the bytes, and the complement of their
 * sum. */
const ONE = digits("000003f3 00000000 00000001 00000000 00000000 00000001 000003e9 00000001 4e754e71 000003f2");
const RECORDS = "S007000048554E4BC2\nS309000210004E754E7162\nS70500021000E8\n";

/** A byte of code and a relocation by a base register, which has no form in ELF. */
const DREL = digits(`
  000003e7 00000000 000003e9 00000001 00000000 000003f7 00000001 00000000 00000000 00000000 000003f2`);

const text = async (page, id) => Buffer.from(await page.saved(id), "hex").toString();
const told = (page, id) => page.in(`return document.getElementById(values[0]).textContent`, id);
const open = (page, id) => page.in(`document.getElementById(values[0]).click()`, `tab-${id}`);

async function compareCsv(page, hold) {
  await page.hex(LARGE);
  await open(page, "hunks");
  hold("the hunks as CSV", HUNKS, await text(page, "save-list"));
  await page.hex(LOAD);
  await open(page, "symbols");
  await type(page, "#list-panel .filter input", "add");
  hold("the symbols that were found, as CSV", SYMBOLS, await text(page, "save-list"));
}

async function compareMapSaved(page, hold) {
  await page.hex(SUM);
  const svg = await text(page, "save-map");
  const shape = `const { documentElement: svg } = new DOMParser().parseFromString(values[0], "image/svg+xml");
    const texts = [...svg.querySelectorAll("text, title")].map((it) => it.textContent);
    return [svg.localName, texts.join("|"), svg.querySelectorAll("path[stroke]").length].join()`;
  const wanted = "svg,from the link: its hunks|hunk 0 · 48 bytes|hunk 1 · 12 bytes|CODE|BSS|any memory,2";
  hold("the map as SVG", wanted, await page.in(shape, svg));
  hold("its colours", true, /fill="#[0-9a-f]{6}"/.test(svg) && !/oklch|var\(/.test(svg));
}

/** The words of the command for each button. */
const FORMS = {
  "save-records": ["--to", "srec", "--base", BASE],
  "save-program": ["--to", "elf", "--base", BASE],
  "save-linkable": ["--to", "elf"],
};

/** Where the page tells what came of it. */
const TOLD = { "save-records": "copied-memory", "save-program": "copied-memory", "save-linkable": "saved" };

/** What a button saves, as the command writes it, or why both do not. */
async function compareForm(page, hold, what, id, path) {
  const { out, said, status } = called("convert", ...FORMS[id], path, "-");
  if (status > 0) {
    await page.in(`document.getElementById(values[0]).click()`, id);
    const why = `Not saved, as it has no such form: ${said.split(`${path}: `)[1]}.`;
    hold(`${what}, ${id}`, why, await told(page, TOLD[id]));
  } else hold(`${what}, ${id}`, out.toString("hex"), await page.saved(id));
}

/** The texts of the suite that are accepted, and need no 64 MiB. */
function texts() {
  const rows = ["load", "objects"].flatMap((table) =>
    readFileSync(`${root}vectors/${table}.tsv`, "utf8").split("\n").filter((line) => line && !line.startsWith("#"))
      .map((line) => line.split("\t")).filter((row) => row[3] === "accepted").map((row) => [row[1], row[2]]));
  return [["sum", SUM], ["many names", LOAD], ["a base register", DREL], ...rows];
}

async function compareForms(page, hold, { work }) {
  for (const [name, hex] of texts()) {
    const path = `${work}/converted`;
    writeFileSync(path, Buffer.from(hex, "hex"));
    await page.hex(hex);
    const shown = await page.in(
      `return values[0].filter((id) => document.getElementById(id).checkVisibility())`, Object.keys(FORMS));
    for (const id of shown) await compareForm(page, hold, name, id, path);
  }
}

async function compareHidden(page, hold) {
  const shown = `return [...document.querySelectorAll("#lists button, #memory button, #hunks button")]
    .filter((it) => it.checkVisibility() && /^save/.test(it.id)).map((it) => it.id).join()`;
  await page.hex(ONE);
  const all = "save-list,save-stripped,save-linkable,save-map,save-memory,save-records,save-program";
  hold("what can be saved of a load file", all, await page.in(shown));
  await page.hex(DREL);
  hold("of an object file", "save-list,save-stripped,save-linkable,save-map", await page.in(shown));
  // Without its END.
  await page.hex(ONE.slice(0, -8));
  hold("of one in another spelling", all.replace("stripped", "stripped,save-plain"), await page.in(shown));
  await page.hex(`${ONE.slice(0, -8)}000003f5`);
  hold("of one with an overlay", "save-list", await page.in(shown));
}

export async function compareSaving(page, hold, paths) {
  await compareCsv(page, hold);
  await compareMapSaved(page, hold);
  await page.hex(ONE);
  hold("S-records", RECORDS, await text(page, "save-records"));
  await page.hex(DREL);
  await page.in(`document.getElementById("save-linkable").click()`);
  const why = "byte 32: DREL32 has no form in ELF: it counts from a base register";
  const wanted = `Not saved, as it has no such form: ${why}.`;
  hold("what has no form", wanted, await told(page, "saved"));
  await compareHidden(page, hold);
  if (hasCommand) await compareForms(page, hold, paths);
}
