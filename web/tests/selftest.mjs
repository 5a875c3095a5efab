// Opens the page in a browser, gives it files, and holds what it shows to what the program prints: node selftest.mjs
// BROWSER PAGE PROGRAM EVERY ONE_OF PICTURES WORK [TEST..]. EVERY is what vectors/every has printed, of which one of
// ONE_OF inputs is dropped; pictures go into the folder PICTURES, and files into WORK. With names only these tests are
// run.

import { execFileSync } from "node:child_process";
import { copyFileSync, mkdirSync, readFileSync, writeFileSync } from "node:fs";
import { createServer } from "node:http";
import { Chromium, Firefox } from "./browser.mjs";
import { askedWide } from "./command.mjs";
import { tryLarge } from "./large.mjs";
import { BASE, Page } from "./page.mjs";
import { tryMany } from "./many.mjs";
import { compareMap } from "./pictures.mjs";
import { takePictures } from "./photos.mjs";

const [browserName, pagePath, program, everyPath, oneOf, pictures, work, ...only] = process.argv.slice(2);
const root = new URL("../../", import.meta.url).pathname;

let compared = 0;
let failed = 0;
function hold(which, wanted, said) {
  compared += 1;
  if (said === wanted) return;
  failed += 1;
  if (failed <= 100) console.log(`${browserName}: ${which}: ${said}, and not ${wanted}`);
}

/** What the program prints, whatever its status. */
function printed(...words) {
  try {
    return execFileSync(program, words, { encoding: "utf8", stdio: ["ignore", "pipe", "ignore"] });
  } catch (error) {
    return error.stdout;
  }
}

const cellsOf = (name) =>
  readFileSync(root + name, "utf8")
    .split("\n")
    .filter((line) => line && !line.startsWith("#"))
    .map((line) => line.split("\t"));

const rowsOf = (table) =>
  cellsOf(`vectors/${table}.tsv`)
    .map(([number, name, hex, ...answer]) => ({ number, name, hex, answer: answer.join(" "), table }))
    .filter((row) => row.hex.startsWith("000003e7") === (table === "objects"));

/** The rows of the reasons, by number; that of one at byte 0 also by that. */
const REASONS = Object.fromEntries(cellsOf("docs/reasons.tsv").map((row) => [row[0], row]));

function reasonOf(answer) {
  const [, place, number] = answer.split(" ");
  return REASONS[`${number} at byte ${place}`] ?? REASONS[number];
}

/** The classes of `hunk survey`, in its order. */
const CLASSES = ["load", "object", "findings", "wide", "no hunk file", "not supported", "damaged", "not judged"];

/** The class, what the reason means, and what to do about it. */
function whyOf(answer) {
  const [, , shown, meaning, developer, archive] = reasonOf(answer);
  return `${shown}: ${meaning}.\nDeveloper: ${developer}.\nArchive: ${archive}.`;
}

/** The class of what the program has accepted or refused: that of a refusal, unless --wide accepts it. */
function classOf(digits, answer, wide) {
  if (!answer.startsWith("accepted")) return wide.get(digits).startsWith("refused") ? reasonOf(answer)[2] : "wide";
  if (digits.startsWith("000003f3")) return "load";
  return answer.endsWith(" 0") ? "object" : "findings";
}

const SHOWN = `
  const verdict = document.getElementById("verdict").textContent.replaceAll(",", "");
  const number = (pattern) => (verdict.match(pattern) ?? []).slice(1).join(" ");
  if (verdict.startsWith("A load file")) return "accepted " + number(/: (\\d+) hunks? (\\d+) bytes? in memory/);
  if (verdict.startsWith("An object file")) return "accepted " + number(/: (\\d+) units? (\\d+) findings?/);
  return "refused " + number(/at byte (\\d+) .*\\((\\d+)\\)\\.$/);`;

// ---- What is compared.

/** The memory that the program prints. */
function memoryOf(path) {
  const lines = printed("relocate", "--base", BASE, path).split("\n");
  return lines.filter((line) => line.startsWith("  ")).map((line) => line.trim()).join("");
}

async function compareRow(page, row) {
  const path = `${work}/${row.table}-${row.number}-${row.name}`;
  writeFileSync(path, Buffer.from(row.hex, "hex"));
  await page.hex(row.hex);
  hold(row.name, row.answer, await page.in(SHOWN));
  if (!row.answer.startsWith("accepted")) {
    const marked = await page.in(`return document.querySelectorAll("#file-hex .refused").length`);
    // Where the plain spelling is accepted, that is shown, and nothing in it is refused.
    const begin = `return document.getElementById("verdict").textContent.startsWith("In another spelling")`;
    const isSpelled = await page.in(begin);
    hold(`${row.name}, the bytes that are marked`, isSpelled ? 0 : 4, marked);
    const why = await page.in(`return document.getElementById("why").textContent`);
    if (isSpelled) hold(`${row.name}, advice that was followed`, false, why.includes("--wide"));
    else hold(`${row.name}, why`, whyOf(row.answer), why[0].toLowerCase() + why.slice(1));
    return;
  }
  printed("rewrite", "--strip", path, `${path}.stripped`);
  hold(`${row.name}, stripped`, readFileSync(`${path}.stripped`).toString("hex"), await page.saved("save-stripped"));
  if (row.table === "load" && Number(row.answer.split(" ")[2]) < 1 << 20) {
    hold(`${row.name}, its memory`, memoryOf(path), await page.saved("save-memory"));
  }
  await compareLists(page, row.name, path);
}

const LINES = {
  check: ["validate", /^unit \d+ hunk/],
  hunks: ["show", /^hunk \d+ \d+ bytes \w/],
  units: ["show", /^unit /],
  blocks: ["show", /^ {2}\S/],
};

/** How many items each list has, by the lines that the program prints. */
async function compareLists(page, name, path) {
  const tabs = await page.in(
    `return Object.fromEntries([...document.querySelectorAll("[role=tab]")].map((it) =>
       [it.id.slice(4), Number(it.textContent.match(/[\\d,]+$/)[0].replaceAll(",", ""))]))`,
  );
  const shown = printed("show", path);
  for (const [id, [command, pattern]] of Object.entries(LINES)) {
    const text = command === "show" ? shown : printed(command, path);
    const count = text.split("\n").filter((line) => pattern.test(line)).length;
    hold(`${name}, ${id}`, count, tabs[id] ?? 0);
  }
  const symbols = [...shown.matchAll(/^ {4}0x([0-9a-f]{8}) (.*)$/gm)].map(([, value, text]) => `${value} ${text}`);
  if (!tabs.symbols) return hold(`${name}, symbols`, 0, symbols.length);
  const said = await page.in(
    `document.getElementById("tab-symbols").click();
     const rows = [...document.querySelectorAll("#list-panel [data-row]")];
     return rows.map((row) => [row.children[2], row.lastChild].map((it) => it.textContent).join(" ")).join("\\n")`,
  );
  hold(`${name}, symbols`, symbols.join("\n"), said);
}

/** Inputs of vectors/every, dropped together: the table, as it is saved. */
async function compareMany(page) {
  const lines = readFileSync(everyPath, "utf8").split("\n");
  const isTaken = (line, i) => line && !line.startsWith("#") && i % Number(oneOf) === 0;
  const rows = lines.filter(isTaken).map((line) => line.split("\t"));
  await page.drop(rows.map((row, i) => [`input ${i}`, row[3]]));
  const text = Buffer.from(await page.saved("save-csv"), "hex").toString();
  const cells = text.split("\r\n").slice(1, -1).map((line) => line.split(","));
  hold("the lines of the table", rows.length, cells.length);
  const refused = rows.filter((row) => row[4] === "refused").map((row) => row[3]);
  const wide = askedWide(program, `${work}/wide`, [...new Set(refused)]);
  const counts = {};
  for (const [i, [, size, shown, answer, , ...rest]] of cells.entries()) {
    const [hunks, memory, units, findings, , place, , number] = rest;
    const accepted = `${size} accepted ${hunks || units} ${memory || findings}`;
    const said = answer === "accepted" ? accepted : `${size} refused ${place} ${number}`;
    const wanted = rows[i].slice(4).join(" ");
    const kind = classOf(rows[i][3], wanted, wide);
    hold(`input ${i}`, `${rows[i][3].length / 2} ${wanted}, ${kind}`, `${said}, ${shown}`);
    counts[kind] = (counts[kind] ?? 0) + 1;
  }
  const counted = CLASSES.filter((it) => counts[it]).map((it) => `${counts[it]} ${it}`);
  const told = await page.in(
    `return [...document.querySelectorAll("#many-classes button:not([hidden])")]
       .map((it) => it.textContent.replaceAll(",", "")).join(", ")`,
  );
  hold("the counts of the table", `${rows.length} all, ${counted.join(", ")}`, told);
}

/** A folder, which Firefox lets no test drop. */
async function compareFolder(page) {
  const folder = `${work}/folder`;
  mkdirSync(`${folder}/below`, { recursive: true });
  const files = { one: "load-2-two-hunks", "below/two": "objects-29-two-findings", "below/three": "load-9-empty" };
  for (const [name, from] of Object.entries(files)) copyFileSync(`${work}/${from}`, `${folder}/${name}`);
  const wanted = ["folder/below/three 0 refused", "folder/below/two 44 accepted", "folder/one 84 accepted"].join(", ");
  const ways = [() => page.browser.dropPaths([folder]), () => page.browser.upload("#pick-folder", [folder])];
  for (const way of ways) {
    await page.shows(way);
    const lines = Buffer.from(await page.saved("save-csv"), "hex").toString().split("\r\n").slice(1, -1);
    const said = lines.map((line) => line.split(",")).map(([name, size, , answer]) => `${name} ${size} ${answer}`);
    hold("a folder", wanted, said.join(", "));
  }
  await page.in(`document.querySelector("#many-list [role=columnheader]").click()`);
  const names = await page.in(
    `return [...document.querySelectorAll("#many-list [data-row] > :first-child")].map((it) => it.textContent)`,
  );
  hold("a folder, sorted", "folder/below/three,folder/below/two,folder/one", names.join());
}

/** The same page from a server: nothing but the page itself is asked for. */
async function compareServed(page) {
  const asked = [];
  const server = createServer((request, answer) => {
    asked.push(request.url);
    answer.setHeader("content-type", "text/html").end(readFileSync(pagePath));
  });
  await new Promise((done) => server.listen(0, "127.0.0.1", done));
  await page.open("#example=two-hunks", `http://127.0.0.1:${server.address().port}/`);
  hold("a page from a server", "accepted 2 12", await page.in(SHOWN));
  hold("what the server was asked for", "/", asked.filter((it) => it !== "/favicon.ico").join());
  server.closeAllConnections();
  server.close();
}

/** An object file with a short block, whose target is no hunk of its unit. */
const SHORT_OBJECT =
  "000003e7 00000000 000003e9 00000001 00000000 000003fc 0001 0001 0000 0000 000003f2".replaceAll(" ", "");

async function compareUse(page) {
  await page.hex(SHORT_OBJECT);
  const said = await page.in(`return document.getElementById("verdict").textContent`);
  const wanted = "In another spelling, with 1 block of short relocations, an object file: 1 unit, 1 finding.";
  hold("an object file in another spelling", wanted, said.slice(0, wanted.length));
  await page.shows(() => page.browser.upload("#pick", [`${work}/load-2-two-hunks`]));
  hold("a file that is picked", "accepted 2 12", await page.in(SHOWN));
  const key = `const grid = document.querySelector("[role=grid][aria-activedescendant]:not(#many-list)");
    const key = (name) => grid.dispatchEvent(new KeyboardEvent("keydown", { key: name, bubbles: true }));`;
  const active = `${key} key("End"); key("ArrowUp");
    return grid.getAttribute("aria-activedescendant").replace(/.*-/, "")`;
  hold("the row that keys lead to", "0", await page.in(active));
  const labels = `return [...document.querySelectorAll("[role=grid], [role=group], canvas, input, select, button")]
    .filter((it) => !it.getAttribute("aria-label") && !it.textContent.trim() && !it.closest("label")).length`;
  hold("what has no label", 0, await page.in(labels));
  const fetched = `return await fetch("http://127.0.0.1:9/").then(() => "sent", () => "refused")`;
  const blocked = `const seen = new Promise((done) => {
      addEventListener("securitypolicyviolation", (it) => done(it.blockedURI), { once: true });
    });
    fetch("http://127.0.0.1:9/").catch(() => {});
    return await Promise.race([seen, new Promise((done) => setTimeout(() => done("nothing"), 2000))])`;
  hold("a request", "refused", await page.in(fetched));
  hold("what the policy stops", "http://127.0.0.1:9/", await page.in(blocked));
  await page.browser.size(500, 900);
  hold("a narrow window", true, await page.in("return document.documentElement.scrollWidth <= innerWidth"));
}

const paths = { root, work, pagePath, isFew: oneOf !== "1" };
/** The tests of the page, in their order, by their names. What is null stands in a file of that name. */
const TESTS = {
  // First, as Chromium keeps 50 places in the history, and of more forgets those at which nobody has pressed a key.
  staying: null,
  faults: null,
  async rows(page) {
    for (const row of [...rowsOf("load"), ...rowsOf("objects")]) await compareRow(page, row);
  },
  many: compareMany,
  // Firefox lets no test drop a folder.
  folder: (page) => browserName === "chromium" && compareFolder(page),
  served: compareServed,
  table: (page) => tryMany(page, hold, paths),
  archives: null,
  compared: null,
  reloading: null,
  fields: null,
  opening: null,
  refused: null,
  use: compareUse,
  cursor: null,
  pictures: null,
  widths: null,
  keyboard: null,
  steps: null,
  targets: null,
  sight: null,
  copying: null,
  finding: null,
  saving: null,
  spoken: null,
  drawn: null,
  relocated: null,
  jumps: null,
  paper: null,
  warned: null,
  async large(page) {
    if (oneOf !== "1") return;
    await tryLarge(page, hold, work);
    await compareMap(page, hold, work);
  },
  photos: (page) => takePictures(page, root, `${pictures}/${browserName}`),
};

/** The test of a file, as compareFields of fields.mjs. */
async function testOf(name) {
  const { [`compare${name[0].toUpperCase()}${name.slice(1)}`]: test } = await import(`./${name}.mjs`);
  return (page) => test(page, hold, paths);
}

/** Runs a test. One that ends early is a failure of its own, and the others are run all the same. */
async function tried(page, name, test) {
  try {
    await browser.size(1280, 900);
    await page.open();
    await (test ?? (await testOf(name)))(page);
  } catch (error) {
    hold(`the test ${name}`, "no error", error.message);
  }
  for (const fault of await browser.faults()) hold(`an error in the page, at ${name}`, "none", fault);
}

const browser = await (browserName === "chromium" ? Chromium : Firefox).open(work);
try {
  const page = new Page(browser, pagePath);
  await page.open();
  console.log(`${browserName}: ${await page.in("return document.getElementById('module').textContent")}`);
  for (const [name, test] of Object.entries(TESTS).filter(([it]) => only.length === 0 || only.includes(it))) {
    await tried(page, name, test);
  }
} finally {
  await browser.close();
}
console.log(`${browserName}: ${compared} compared, ${failed} failed`);
process.exit(failed > 0 ? 1 : 0);
