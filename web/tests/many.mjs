// Many files at once, and what can't be read of them: held to what stands here.

import { createHash } from "node:crypto";
import { mkdirSync, readFileSync, rmSync, writeFileSync } from "node:fs";
import { createServer } from "node:http";

/** The digits of longwords; words of four characters are given in quotes. */
export const longs = (text) =>
  text.split(/\s+/)
    .map((it) => (it[0] === "'" ? Buffer.from(it.slice(1)).toString("hex") : it.padStart(8, "0"))).join("");

/** The three sums of digits, with commas between them. */
const sums = (...digits) =>
  [0, 1, 2].map((i) => (digits[i] ? createHash("sha256").update(Buffer.from(digits[i], "hex")).digest("hex") : ""))
    .join(",");

/** 164 bytes: 16 of code at 21000 with two relocated longs, at 4 and c, and 8 of data; 3 symbols, the last at byte
 * 90. */
export const LOAD = longs(
  "3f3 0 2 0 1 4 2 3e9 4 4e714e71 4 4e714e71 0 3ec 1 1 4 1 0 c 0 3f0 1 'main 0 2 'add_ 'one. 8 0 3f2 " +
    "3ea 2 1 2 3f0 1 'Tabl 4 0 3f2",
);
/** The second relocation is at 10, where the hunk has ended: that longword is at byte 76. */
const DAMAGED = LOAD.replace(longs("1 0 c 0"), longs("1 0 10 0"));
const OBJECT = longs("3e7 1 'unit 3e9 1 0 3f2");
/** Two offsets, 1 and 2, in 4 bytes. */
const FINDINGS = longs("3e7 0 3e9 1 0 3ec 2 0 1 2 0 3f2");
const SHORT = longs("3f3 0 1 0 0 1 3e9 1 0 3fc 10000 0");
const OVERLAY = longs("3f3 0 1 0 0 1 3e9 1 0 3f5");
export const TEXT = Buffer.from("no hunk file at all\n").toString("hex");
const FILES = Object.entries({
  load: LOAD, 'b, "Two"': LOAD, object: OBJECT, found: FINDINGS, short: SHORT, text: TEXT, bad: DAMAGED, over: OVERLAY,
});

const HEAD = "file,bytes,class,answer,kind,hunks,memory,units,findings,warnings,place,reason,number" +
  ",what,file sum,program sum,memory sum,same,first,undefined";
/** The program of LOAD, which is without its symbols, and its memory, without the zeros at the end of the code. */
const PROGRAM = longs("3f3 0 2 0 1 4 2 3e9 4 4e714e71 4 4e714e71 0 3ec 1 1 4 1 0 c 0 3f2 3ea 2 1 2 3f2");
const MEMORY = longs("3f3 0 2 0 1 4 2 3e9 3 4e714e71 4 4e714e71 3ec 1 0 c 1 1 4 0 3f2 3e9 2 1 2 3f2");
const [PLAIN, PLAIN_MEMORY] = ["0 ", ""].map((it) => longs(`3f3 0 1 0 0 1 3e9 ${it ? 1 : 0} ${it}3ec 1 0 0 0 3f2`));
const LINES = `load,164,load,accepted,load file,2,24,,,0,,,,load file,${sums(LOAD, PROGRAM, MEMORY)},,,
"b, ""Two""",164,load,accepted,load file,2,24,,,0,,,,load file,${sums(LOAD, PROGRAM, MEMORY)},file,load,
object,28,object,accepted,object file,,,1,0,,,,,object file,${sums(OBJECT, OBJECT)},,,0
found,48,findings,accepted,object file,,,1,2,,,,,object file,${sums(FINDINGS, FINDINGS)},,,0
short,48,wide,refused,load file,,,,,,36,ShortReloc,13,load file,${sums(SHORT, PLAIN, PLAIN_MEMORY)},,,
text,20,no hunk file,refused,other file,,,,,,0,NotLoadFile,1,text,${sums(TEXT)},,,
bad,164,damaged,refused,load file,,,,,,76,BadOffset,24,,${sums(DAMAGED)},,,
over,40,not supported,refused,load file,,,,,,36,Overlay,11,,${sums(OVERLAY)},,,
`;
const CSV = `${HEAD}\n${LINES}`.replaceAll("\n", "\r\n");

const NAMES = `return [...document.querySelectorAll("#many-list [data-row] > :first-child")]
  .map((it) => it.textContent).join()`;
const NOTE = `return document.getElementById("many-note").textContent`;
const PARTIAL = `return document.getElementById("many-partial").textContent !== ""`;
export const VERDICT = `return document.getElementById("verdict").textContent`;
export const type = (page, selector, text, event = "input") =>
  page.in(
    `const field = document.querySelector(values[0]);
     field.value = values[1];
     field.dispatchEvent(new Event(values[2], { bubbles: true }));
     await new Promise((done) => setTimeout(done, 50));`,
    selector,
    text,
    event,
  );
const textOf = async (page, id) => Buffer.from(await page.saved(id), "hex").toString();

async function tryTable(page, hold) {
  await page.drop(FILES);
  hold("the table, saved", CSV, await textOf(page, "save-csv"));
  const buttons = `return [...document.querySelectorAll("#many-classes button")].filter((it) => it.checkVisibility())
    .map((it) => it.textContent).join()`;
  const classes = "8 all,2 load,1 object,1 findings,1 wide,1 no hunk file,1 not supported,1 damaged";
  hold("the classes", classes, await page.in(buttons));
  await page.in(`document.querySelector("#many-classes [name=load]").click()`);
  hold("the files of a class", 'load,b, "Two"', await page.in(NAMES));
  await type(page, "#many-filter", "tWO");
  hold("those with a text in the name, in capitals or not", 'b, "Two"', await page.in(NAMES));
  const saved = CSV.split("\r\n");
  hold("those, saved", [saved[0], saved[2], ""].join("\r\n"), await textOf(page, "save-csv"));
  const count = await page.in(`return document.getElementById("many-summary").textContent`);
  hold("how many those are", "1 of 8 files", count);
  await page.in(`document.querySelector("#many-classes [name='']").click()`);
  await type(page, "#many-filter", "");
  const sort = `document.querySelectorAll("#many-list [role=columnheader]")[6].click();`;
  // Those in which no findings are counted come last, upwards and downwards.
  hold("sorted by findings", 'object,found,load,b, "Two",short,text,bad,over', await page.in(sort + NAMES));
  hold("and downwards", 'found,object,load,b, "Two",short,text,bad,over', await page.in(sort + NAMES));
  await page.in(`document.querySelectorAll("#many-list [role=columnheader]")[1].click()`);
  hold("sorted by bytes", 'text,object,over,found,short,load,b, "Two",bad', await page.in(NAMES));
}

/** Each class has its colour, and what is no hunk file, or has findings, is told neither in green nor in red. */
async function tryTones(page, hold) {
  const colour = `return getComputedStyle(document.getElementById("verdict")).color`;
  const colours = {};
  for (const [name, digits] of FILES) {
    await page.drop([[name, digits]]);
    colours[name] = await page.in(colour);
  }
  hold("load and object file have one colour", colours.load, colours.object);
  hold("findings and other spellings have one", colours.found, colours.short);
  hold("the colours of verdicts", 4, new Set([colours.load, colours.found, colours.text, colours.bad]).size);
}

/** Heads stand over their columns, and the table has the height of the window. */
async function tryLayout(page, hold) {
  await page.drop(Array.from({ length: 200 }, (_, i) => [`file ${i}`, FILES[i % FILES.length][1]]));
  const edges = `const edge = (cell) => {
      const range = document.createRange();
      range.selectNodeContents(cell);
      const { left, right } = range.getBoundingClientRect();
      return cell.classList.contains("number") ? right : left;
    };
    const heads = [...document.querySelector("#many-list .head").children].map(edge);
    const rows = [...document.querySelectorAll("#many-list [data-row]")];
    return heads.map((head, i) => {
      const cells = rows.map((row) => row.children[i]).filter((it) => it.textContent);
      return cells.length > 0 && cells.every((it) => Math.abs(edge(it) - head) < 2);
    }).join()`;
  hold("heads over their columns", Array(14).fill(true).join(), await page.in(edges));
  const cut = `return [...document.querySelectorAll("#many-list [data-row] > *")]
    .filter((it) => it.scrollWidth > it.clientWidth).length`;
  hold("texts that are cut", 0, await page.in(cut));
  const height = `const { bottom } = document.getElementById("many-list").getBoundingClientRect();
    const { top } = document.querySelector("footer").getBoundingClientRect();
    const isWithin = document.documentElement.scrollHeight <= innerHeight;
    return [top - bottom < 80, bottom > innerHeight - 120, isWithin].join()`;
  hold("the table fills the height", "true,true,true", await page.in(height));
  await page.browser.size(390, 844);
  hold("the table on a phone", true, await page.in("return document.documentElement.scrollWidth <= innerWidth"));
  await page.browser.size(1280, 900);
  await page.shows(() => page.in(`[...document.querySelectorAll("#many-list [data-row]")].at(-3).click()`));
  const seen = `const row = document.querySelector("#many-list [aria-selected=true]");
    const { top, bottom } = row.getBoundingClientRect();
    const box = document.querySelector("#many-list .body").getBoundingClientRect();
    return top >= box.top - 1 && bottom <= box.bottom + 1 && box.height < 300`;
  hold("the file that was picked is seen in the table", true, await page.in(seen));
}

/** A name that is too long for its column is told whole under the pointer, and one that is not is not. */
async function tryTitles(page, hold) {
  const long = "a name of a file ".repeat(12);
  await page.drop([[long, LOAD], ["short", LOAD]]);
  const titles = `return [...document.querySelectorAll("#many-list [data-row] > :first-child")].map((it) => {
    it.dispatchEvent(new PointerEvent("pointerover", { bubbles: true }));
    return it.title;
  }).join()`;
  hold("the titles of names", `${long},`, await page.in(titles));
}

/** A folder as entries of which some can't be read: one that is gone, one whose name is no text, and a folder. */
const DROP = `
  const bytes = Uint8Array.from(values[0].match(/../g), (it) => parseInt(it, 16));
  const gone = (done, fail) => fail(new DOMException("", "NotFoundError"));
  const file = (name, get) => ({ name, isFile: true, isDirectory: false, file: get });
  const folder = (name, inside) => ({
    name, isFile: false, isDirectory: true,
    createReader() {
      const parts = [inside, []];
      return { readEntries: (done, fail) => (inside ? done(parts.shift()) : gone(done, fail)) };
    },
  });
  const good = (name) => file(name, (done) => done(new File([bytes], name)));
  const lost = [file("lost", gone), folder("", [good("never")]), folder("shut", null), file("", gone)];
  const box = folder("box", [good("b"), ...lost, good("a:b")]);
  const event = new DragEvent("drop", { bubbles: true, cancelable: true });
  const items = [{ kind: "file", webkitGetAsEntry: () => box }];
  Object.defineProperty(event, "dataTransfer", { value: { items, files: [] } });
  document.body.dispatchEvent(event);`;

async function tryUnread(page, hold) {
  await page.shows(() => page.in(DROP, LOAD));
  const wanted =
    "4 could not be read: box/lost, box/shut (no longer there); box/\ufffd, box/\ufffd (the name is no UTF-8 text).";
  hold("what can't be read in a folder", wanted, await page.in(NOTE));
  hold("and the rest", "box/a:b,box/b,box/lost,box/shut,box/\ufffd,box/\ufffd", await page.in(NAMES));
  const lines = (await textOf(page, "save-csv")).split("\r\n");
  hold("its line", "box/lost,,not judged,unread,,,,,,,,Read,30,,,,,,,", lines.find((it) => it.startsWith("box/lost")));
  hold("that names may be left out", false, await page.in(PARTIAL));
  const pick = `[...document.querySelectorAll("#many-list [data-row]")]
    .find((it) => /lost/.test(it.textContent)).click()`;
  await page.shows(() => page.in(pick));
  hold("a file that can't be read", "1 could not be read: box/lost (no longer there).", await page.in(VERDICT));
}

/** A file for which the browser has no memory is told, and the one behind it is looked at. */
async function tryNoMemory(page, hold) {
  await page.open();
  const drop = `
    window.WebAssembly.Memory.prototype.grow = () => {
      throw new RangeError("no room");
    };
    const transfer = new DataTransfer();
    transfer.items.add(new File([new Uint8Array(1 << 25)], "large"));
    transfer.items.add(new File([Uint8Array.from(values[0].match(/../g), (it) => parseInt(it, 16))], "small"));
    document.body.dispatchEvent(new DragEvent("drop", { dataTransfer: transfer, bubbles: true, cancelable: true }));`;
  await page.shows(() => page.in(drop, TEXT));
  const told = "1 could not be read: large (the module's memory can't grow from ";
  hold("a file without memory for it", told, (await page.in(NOTE)).slice(0, told.length));
  const small = `small,20,no hunk file,refused,other file,,,,,,0,NotLoadFile,1,text,${sums(TEXT)},,,`;
  const wanted = `large,,not judged,unread,,,,,,,,Read,30,,,,,,,\r\n${small}\r\n`;
  hold("its line, and the next", wanted, (await textOf(page, "save-csv")).replace(/.*\r\n/, ""));
}

/** Files that are picked; one of them is deleted before it is read. */
async function tryVanished(page, hold, work) {
  const paths = ["stays", "goes"].map((name) => `${work}/${name}`);
  const HELD = `const stop = (event) => event.stopImmediatePropagation();
    addEventListener("change", stop, { capture: true, once: true });`;
  const release = `document.getElementById("pick").dispatchEvent(new Event("change", { bubbles: true }))`;
  for (const some of [paths, paths.slice(1)]) {
    for (const path of paths) writeFileSync(path, Buffer.from(LOAD, "hex"));
    await page.open();
    await page.in(HELD);
    await page.browser.upload("#pick", some);
    rmSync(paths[1]);
    await page.shows(() => page.in(release));
    const told = await page.in(some.length > 1 ? NOTE : VERDICT);
    const isTold = /^1 could not be read: goes \((no longer there|changed since, or .*)\)\.$/.test(told);
    hold("a file that has vanished", true, isTold);
  }
  const shown = `return document.querySelector(".columns").checkVisibility()`;
  hold("what is shown of it", false, await page.in(shown));
  await page.drop([["load", LOAD]]);
  hold("a file after it", true, await page.in(shown));
}

/** A folder with such names on a disk, dropped on the page from there and from a server, and chosen there. */
async function tryNames(page, hold, { work, pagePath }) {
  const folder = `${work}/names`;
  mkdirSync(`${folder}/sub`, { recursive: true });
  for (const name of ["plain", "a:b", "sub/in:ner"]) writeFileSync(`${folder}/${name}`, Buffer.from(LOAD, "hex"));
  const other = (name) => Buffer.concat([Buffer.from(`${folder}/no`), Buffer.from([0xff]), Buffer.from(name)]);
  writeFileSync(other("text"), "");
  mkdirSync(other("folder"));
  writeFileSync(Buffer.concat([other("folder"), Buffer.from("/in")]), "");
  const unread = "2 could not be read: names/\ufffd, names/\ufffd (the name is no UTF-8 text).";
  const server = createServer((_, answer) => answer.setHeader("content-type", "text/html").end(readFileSync(pagePath)));
  await new Promise((done) => server.listen(0, "127.0.0.1", done));
  const from = { "a disk": undefined, "a server": `http://127.0.0.1:${server.address().port}/` };
  for (const [name, url] of Object.entries(from)) {
    await page.open("", url);
    await page.shows(() => page.browser.dropPaths([folder]));
    hold(`names that are no UTF-8, from ${name}`, unread, await page.in(NOTE));
    const names = url ? "names/a:b,names/plain,names/sub/in:ner" : "names/plain";
    hold(`the names, from ${name}`, `${names},names/\ufffd,names/\ufffd`, await page.in(NAMES));
    hold(`that names may be left out, from ${name}`, !url, await page.in(PARTIAL));
    await page.shows(() => page.browser.upload("#pick-folder", [folder]));
    hold(`the names where it is chosen, from ${name}`, "names/a:b,names/plain,names/sub/in:ner", await page.in(NAMES));
    hold(`that names may be left out of it, from ${name}`, false, await page.in(PARTIAL));
  }
  server.closeAllConnections();
  server.close();
}

/** `paths`: the folder `work` for files, and the page, `pagePath`. */
export async function tryMany(page, hold, paths) {
  await page.open();
  await tryTable(page, hold);
  await tryTones(page, hold);
  await tryLayout(page, hold);
  await tryTitles(page, hold);
  await tryUnread(page, hold);
  await tryNoMemory(page, hold);
  await tryVanished(page, hold, paths.work);
  // Firefox lets no test drop a folder.
  if (page.browser.name === "Chromium") await tryNames(page, hold, paths);
}
