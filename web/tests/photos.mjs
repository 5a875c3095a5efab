// Pictures of the page in its states, to be looked at; some of them stand in docs/.

import { readFileSync, writeFileSync } from "node:fs";
import { DAMAGED, PROGRAM } from "./program.mjs";

/** The files of the conformance suite, and a text: [name, digits]. */
function suite(root) {
  const rows = ["load", "objects", "wide"].flatMap((table) =>
    readFileSync(`${root}vectors/${table}.tsv`, "utf8")
      .split("\n")
      .filter((line) => line && !line.startsWith("#"))
      .map((line) => line.split("\t"))
      .map((cells) => [`${table}/${cells[1]}`, cells[table === "wide" ? 3 : 2]]),
  );
  return [...rows, ["notes", "6e6f7465"]];
}

/** By the names of the pictures: the size of the window, and what is opened there, a link or files. */
const STATES = {
  page: [[1120, 880], "#example=sum"],
  "page-program": [[1120, 880], [["stars", PROGRAM]]],
  "page-refused": [[1120, 800], [["stars", DAMAGED]]],
  "page-many": [[1120, 760], null],
  findings: [[1280, 900], "#example=two-findings"],
  spelling: [[1280, 900], "#example=short-even"],
  wide: [[1920, 1080], [["stars", PROGRAM]]],
};

/** Each goes into a file that is named after `prefix`, the state and whether it is dark or a phone's. */
export async function takePictures(page, root, prefix) {
  const { browser } = page;
  const take = async (name, [size, what], shape = "") => {
    await browser.size(...size);
    await page.open(typeof what === "string" ? what : "");
    if (typeof what !== "string") await page.drop(what ?? suite(root));
    // A canvas is drawn once it has its size.
    await page.in("await new Promise((done) => requestAnimationFrame(() => requestAnimationFrame(done)))");
    writeFileSync(`${prefix}-${name}${shape}.png`, await browser.picture());
  };
  for (const [name, state] of Object.entries(STATES)) await take(name, state);
  await browser.dark(true);
  for (const [name, state] of Object.entries(STATES)) await take(name, state, "-dark");
  await browser.dark(false);
  await browser.touch(true);
  for (const [name, [, what]] of Object.entries(STATES)) await take(name, [[390, 844], what], "-phone");
  await browser.touch(false);
}
