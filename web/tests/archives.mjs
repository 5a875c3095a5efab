// What an archive and a linker ask of many files: sums, which are the same, what is no hunk file, and names that none
// defines.

import { execFileSync } from "node:child_process";
import { readFileSync, writeFileSync } from "node:fs";
import { longs } from "./many.mjs";
import { root } from "./texts.mjs";

/** The fields of each line of the table, as it is saved. */
async function linesOf(page) {
  const text = Buffer.from(await page.saved("save-csv"), "hex").toString();
  const [head, ...lines] = text.split("\r\n").slice(0, -1).map((line) => line.match(/(?<=^|,)("[^"]*"|[^,]*)/g));
  return lines.map((cells) => Object.fromEntries(head.map((name, i) => [name, cells[i]])));
}

/** The texts of the suite, with those in other spellings. */
const TEXTS = [["load", 2], ["objects", 2], ["wide", 3]].flatMap(([table, column]) =>
  readFileSync(`${root}vectors/${table}.tsv`, "utf8").split("\n").filter((line) => line && !line.startsWith("#"))
    .map((line) => line.split("\t")).map((row, i) => [`${table} ${i}`, row[column]]));

/** The three sums of each, by the model that shares nothing with the library. */
function modelled(work) {
  const paths = TEXTS.map(([name, hex]) => {
    const path = `${work}/sums ${name}`;
    writeFileSync(path, Buffer.from(hex, "hex"));
    return path;
  });
  const said = execFileSync("python3", ["-B", `${root}vectors/sums.py`, ...paths], { encoding: "utf8" });
  return said.trim().split("\n").map((line) => line.split(" ").slice(0, 3).map((it) => (it === "-" ? "" : it)));
}

async function compareSums(page, hold, work) {
  const sums = modelled(work);
  await page.drop(TEXTS);
  const lines = await linesOf(page);
  const firsts = ["file", "program", "memory"].map((name) => [name, new Map()]);
  for (const [i, [name]] of TEXTS.entries()) {
    const line = lines[i];
    const found = firsts.find(([, map], which) => sums[i][which] && map.has(sums[i][which]));
    const first = found ? found[1].get(sums[i][firsts.indexOf(found)]) : "";
    const wanted = [...sums[i], found?.[0] ?? "", first].join();
    const said = [line["file sum"], line["program sum"], line["memory sum"], line.same, line.first].join();
    hold(`${name}, its sums`, wanted, said);
    firsts.forEach(([, map], which) => sums[i][which] && !map.has(sums[i][which]) && map.set(sums[i][which], name));
  }
}

/** The program of docs/SUMS.md, whose three sums are one. */
const ONE = longs("3f3 0 1 0 0 1 3e9 1 4e754e71 3f2");
const ONE_SUM = "222ed372d229b79358acb636a061e0c755c429086c96ed14bea91ee8ab297a8f";
const FOREIGN = {
  "an archive": [Buffer.from("\x20\x31-lh5-and more").toString("hex"), "LhA archive"],
  "no bytes": ["", "empty"],
  "unknown bytes": ["0001020304", ""],
  "a slave": [longs("3f3 0 1 0 0 3 3e9 3 70ff4e75 'WHDL 'OADS 3f2"), "load file\\, WHDLoad slave"],
  "a program": [ONE, "load file"],
};

async function compareKinds(page, hold) {
  await page.drop(Object.entries(FOREIGN).map(([name, [digits]]) => [name, digits]));
  const cells = `return [...document.querySelectorAll("#many-list [data-row]")]
    .map((it) => it.children[10].textContent).join("|")`;
  hold("what files are", "LhA archive|empty||load file, WHDLoad slave|", await page.in(cells));
  const one = (await linesOf(page)).at(-1);
  const sums = [one["file sum"], one["program sum"], one["memory sum"]].join();
  hold("the sums of docs/SUMS.md", Array(3).fill(ONE_SUM).join(), sums);
}

/** Object files with EXT blocks: `_main` needs `_f` and `_g`; the second defines `_f`, and needs `_main` and `_h`;
 * `_common` is one of both, and SYMB defines nothing. */
const OBJECTS = [
  ["main.o", longs("3e7 0 3e9 1 4e714e71 3ef 1000002 '_mai 6e000000 0 81000001 '_f.. 1 0 81000001 '_g.. 1 0 " +
    "82000002 '_com 6d6f6e00 4 0 0 3f2")],
  ["f.o", longs("3e7 0 3e9 1 4e714e71 3ef 1000001 '_f.. 0 81000002 '_mai 6e000000 1 0 81000001 '_h.. 1 0 " +
    "1 '_h.. 0 0 3f2")],
  ["g.o", longs("3e7 0 3e9 1 4e714e71 3ef 81000001 '_h.. 1 0 81000002 '_com 6d6f6e00 1 0 0 3f2")],
];

async function compareNames(page, hold) {
  const missing = `const box = document.getElementById("many-missing");
    return box.hidden ? "none" : box.querySelector("summary").textContent`;
  await page.drop(OBJECTS);
  hold("how many names no file defines", "2 names that no file here defines", await page.in(missing));
  hold("which of them are seen", "name,files that need it,the first,_g..,1,main.o,_h..,2,f.o", await page.in(SEEN));
  const text = Buffer.from(await page.in(SAVED), "hex").toString();
  hold("which", "name,files that need it,the first\r\n_g..,1,main.o\r\n_h..,2,f.o\r\n", text);
  hold("how many each file needs", "1,1,1", (await linesOf(page)).map((it) => it.undefined).join());
  await page.drop([["program", ONE], ["another", ONE]]);
  hold("of programs", "none", await page.in(missing));
}

/** The texts of the table of names that are seen whole, once it is opened. */
const SEEN = `document.querySelector("#many-missing summary").click();
  await new Promise((done) => setTimeout(done, 200));
  return [...document.querySelectorAll("#many-missing [role=columnheader], #many-missing [data-row] > *")]
    .filter((it) => it.checkVisibility() && it.scrollWidth <= it.clientWidth).map((it) => it.textContent).join()`;

/** What the button of the names saves. */
const SAVED = `const was = URL.createObjectURL;
  let blob;
  URL.createObjectURL = (it) => { blob = it; return "#"; };
  HTMLAnchorElement.prototype.click = () => {};
  document.querySelector("#many-missing button").click();
  URL.createObjectURL = was;
  return Array.from(new Uint8Array(await blob.arrayBuffer()), (it) => it.toString(16).padStart(2, "0")).join("");`;

export async function compareArchives(page, hold, { work }) {
  await compareSums(page, hold, work);
  await compareKinds(page, hold);
  await compareNames(page, hold);
}
