// Two files beside each other: what differs, and in what they are the same, held to texts by hand and to `hunk diff`
// and `hunk same`.

import { readFileSync, writeFileSync } from "node:fs";
import { called, hasCommand } from "./command.mjs";
import { LOAD, VERDICT, longs } from "./many.mjs";
import { root } from "./texts.mjs";

/** LOAD with another byte of code at 8, a relocation of the other hunk less, a symbol renamed, and a byte behind it. */
const OTHER = `${longs("3f3 0 2 0 1 4 2 3e9 4 4e714e71 4 4f714e71 0 3ec 1 0 c 0 3f0 1 'main 0 2 'sub_ 'one. 8 0 3f2 " +
  "3ea 2 1 2 3f0 1 'Tabl 4 0 3f2")}00`;
const LINES = `hunk 0: content: 1 byte differs, at 0x00000008
hunk 0: relocations: 1 only in A, 0 only in B
  < RELOC32 1 0x00000004
hunk 0: symbols: 1 only in A, 1 only in B
  < 0x00000008 add_one.
  > 0x00000008 sub_one.
rest: 1 byte more in B
`.split("\n").sort().join("\n");

const text = async (page) => Buffer.from(await page.saved("compare-save"), "hex").toString();
const shown = (page, id) =>
  page.in(
    `const it = document.getElementById(values[0]);
     return it.checkVisibility() ? it.textContent : "hidden"`,
    id,
  );

/** Shows a table of two files, and these beside each other. */
async function compare(page, files) {
  await page.drop(files);
  await page.shows(() => page.in(`document.getElementById("compare-two").click()`));
}

async function compareByHand(page, hold) {
  await compare(page, [["one", LOAD], ["other", OTHER]]);
  hold("what differs", LINES, (await text(page)).split("\n").sort().join("\n"));
  const same = "file: different, program: different, memory: different";
  hold("in what they are the same", same, await shown(page, "compare-same"));
  const rows = `return [...document.querySelectorAll("#compare-list [data-row]")]
    .map((it) => [...it.children].map((cell) => cell.textContent).join("|"))`;
  const found = await page.in(rows);
  const beside = "0|content: 1 byte differs, at 0x00000008|4e 71 4e 71 00 00 00 00|4f 71 4e 71 00 00 00 00";
  hold("the content beside each other", beside, found[0]);
  hold("a name of B alone", true, found.includes("0|symbols||0x00000008 sub_one."));
  const picked = `const cells = (it) => [...document.querySelectorAll("#compare-" + it + " .picked")];
    return ["a", "b"].map((it) => cells(it).map((cell) => cell.textContent).join("")).join()`;
  hold("its bytes in both", "4e714e7100000000,4f714e7100000000", await page.in(picked));
  const row = `[...document.querySelectorAll("#compare-list [data-row]")]
    .find((it) => /sub_one/.test(it.textContent)).click();`;
  hold("the bytes of a name of B alone", true, /^,.*7375625f6f6e652e/.test(await page.in(row + picked)));
  hold("the file that was shown is not shown now", "hidden", await shown(page, "verdict"));
}

async function compareOthers(page, hold) {
  await compare(page, [["one", LOAD], ["same", LOAD]]);
  hold("the same bytes", "Nothing differs: A and B are the same, byte for byte.", await shown(page, "compare-told"));
  await compare(page, [["one", LOAD], ["refused", LOAD.slice(0, 64)]]);
  const refused = "Nothing is compared: B is refused, or is more than this page lists.";
  hold("one that is refused", refused, await shown(page, "compare-told"));
  await page.drop([["one", LOAD], ["two", LOAD], ["three", OTHER]]);
  await page.in(`document.getElementById("compare-two").click()`);
  hold("none of three is chosen", true, (await shown(page, "many-summary")).startsWith("Choose two rows"));
  const keys = `const grid = document.getElementById("many-list");
    for (const shiftKey of [false, true]) {
      grid.dispatchEvent(new KeyboardEvent("keydown", { key: "ArrowDown", shiftKey, bubbles: true }));
    }
    document.getElementById("compare-two").click();`;
  await page.shows(() => page.in(keys));
  const names = `return [...document.querySelectorAll("#compare strong")].map((it) => it.textContent).join()`;
  hold("two that are chosen by keys", "two,three", await page.in(names));
  await page.shows(() => page.in(`document.querySelector("#many-list [data-row]").click()`));
  hold("a file after that", "hidden", await shown(page, "compare-list"));
  hold("its verdict", true, (await page.in(VERDICT)).startsWith("A load file"));
  await page.shows(() => page.in("history.back()"));
  hold("and back", "two,three", await page.in(names));
}

/** Nothing lies over something else, and nothing is wider than the window. */
async function compareLayout(page, hold) {
  const tops = `const box = (id) => document.getElementById(id).getBoundingClientRect();
    const [table, compared] = [box("many"), box("compare")];
    const last = document.getElementById("compare-b").getBoundingClientRect();
    const words = document.getElementById("words").getBoundingClientRect();
    const isWithin = document.documentElement.scrollWidth <= innerWidth;
    return [compared.top >= table.bottom, words.top >= last.bottom, isWithin].join()`;
  const cut = `return [...document.querySelectorAll("#compare-list [data-row] > *, .sides .item-line p:first-child")]
    .filter((it) => it.scrollWidth > it.clientWidth).map((it) => it.textContent).join()`;
  await page.browser.size(800, 900);
  await compare(page, [["one", LOAD], ["other", OTHER]]);
  hold("what differs and is cut, at 800 pixels", "", await page.in(cut));
  for (const width of [1280, 390]) {
    await page.browser.size(width, 900);
    await compare(page, [["one", LOAD], ["other", OTHER]]);
    hold(`the parts below each other, at ${width}`, "true,true,true", await page.in(tops));
  }
  await page.browser.size(1280, 900);
}

async function comparePicked(page, hold, work) {
  writeFileSync(`${work}/other`, Buffer.from(OTHER, "hex"));
  await page.hex(LOAD);
  await page.shows(() => page.browser.upload("#pick-other", [`${work}/other`]));
  hold("a file that is picked beside the one shown", LINES, (await text(page)).split("\n").sort().join("\n"));
}

/** The accepted texts of the suite. */
const TEXTS = [["load", 2], ["objects", 2], ["warnings", 1]].flatMap(([table, column]) =>
  readFileSync(`${root}vectors/${table}.tsv`, "utf8").split("\n").filter((line) => line && !line.startsWith("#"))
    .map((line) => line.split("\t"))
    .filter((row) => table === "warnings" || row[column + 1] === "accepted")
    .map((row) => [row[column - 1], row[column]]));

/** Every third text beside the one behind it, as the command has it. */
async function compareCommand(page, hold, work) {
  const paths = ["a", "b"].map((it) => `${work}/compared-${it}`);
  for (let i = 1; i < TEXTS.length; i += 3) {
    const files = [TEXTS[i - 1], TEXTS[i]];
    files.forEach(([, hex], which) => writeFileSync(paths[which], Buffer.from(hex, "hex")));
    await compare(page, files);
    const name = files.map(([it]) => it).join(" and ");
    hold(`${name}, what differs`, called("diff", "--items", "--wide", ...paths).out.toString(), await text(page));
    const same = called("same", ...paths).out.toString().trim().replaceAll("\n", ", ");
    hold(`${name}, the same`, same, await shown(page, "compare-same"));
  }
}

export async function compareCompared(page, hold, { work }) {
  await compareByHand(page, hold);
  await compareLayout(page, hold);
  await compareOthers(page, hold);
  await comparePicked(page, hold, work);
  if (hasCommand) await compareCommand(page, hold, work);
}
