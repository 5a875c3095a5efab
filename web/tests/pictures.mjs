// The map of hunks and the strips of a file and its memory: what they say to the pointer and to the keyboard, and what
// is drawn.

import { execFileSync } from "node:child_process";
import { digits, root, SUM } from "./texts.mjs";

/** Hunks of 4 bytes in chip memory, of 8 in fast memory, and of 4 with attributes; nothing is relocated. */
const MEMORIES = digits(`
  000003f3 00000000 00000003 00000000 00000002 40000001 80000002 c0000001 00010002
  000003e9 00000001 4e714e75 000003f2
  000003e9 00000000 000003f2
  000003eb 00000001 000003f2`);

/** Two units of two hunks, and two of none. Hunk 0 of the first is relocated at its hunk 1 twice, and at a hunk 2; hunk
 * 1 of the second at its hunk 0. */
const OBJECT = digits(`
  000003e7 00000001 61000000
  000003e9 00000002 00000000 00000000
  000003ec 00000002 00000001 00000000 00000004 00000001 00000002 00000000 00000000
  000003f2
  400003ea 00000001 00000000 000003f2
  000003e7 00000000
  000003eb 00000002 000003f2
  000003ea 00000001 00000000 000003ec 00000001 00000000 00000000 00000000 000003f2
  000003e7 00000000 000003e7 00000001 62000000`);

const PICTURE = `const canvas = document.getElementById(values[0] + "-picture");
  const text = () => canvas.getAttribute("aria-valuetext");
  const press = (key) => canvas.dispatchEvent(new KeyboardEvent("keydown", { key, bubbles: true }));
  const point = (type, share) => {
    const { left, top, width, height } = canvas.getBoundingClientRect();
    const at = { clientX: left + share * width, clientY: top + height / 2 };
    canvas.dispatchEvent(new PointerEvent(type, { bubbles: true, ...at }));
  };
  const tip = canvas.parentNode.querySelector(".picture-tip");`;

/** Where the carets of the views stand. */
const CARETS = `const caret = (id) => {
    const cell = document.querySelector("#" + id + "-hex .caret");
    const line = cell.parentNode;
    return (parseInt(line.firstChild.textContent, 16) + [...line.children].indexOf(cell) - 1).toString(16);
  };`;

/** What a picture says of each of its parts, from one end to the other by the arrow keys. */
const parts = (page, name) =>
  page.in(
    `${PICTURE} press("Home");
     const found = [text()];
     for (let i = 0; i < 20; i++) {
       press("ArrowRight");
       if (text() !== found.at(-1)) found.push(text());
     }
     return found.join("\\n");`,
    name,
  );

async function holdParts(page, hold, what, name, wanted) {
  hold(`${what}, the parts of the picture of the ${name}`, wanted.join("\n"), await parts(page, name));
}

const SUM_HUNKS = [
  "hunk 0, CODE, 48 bytes, any memory, 2 relocations: 1 to hunk 0, 1 to hunk 1",
  "hunk 1, BSS, 12 bytes, any memory",
];

async function compareSum(page, hold) {
  await page.hex(SUM);
  await holdParts(page, hold, "sum", "map", SUM_HUNKS);
  const loaded = ["hunk 0, CODE, 48 bytes from 00021000", "hunk 1, BSS, 12 bytes from 00021030"];
  await holdParts(page, hold, "sum", "memory", loaded);
  await holdParts(page, hold, "sum", "file", [
    "HEADER, 28 bytes from 00000000",
    "CODE, hunk 0, 56 bytes from 0000001c",
    "RELOC32, hunk 0, 32 bytes from 00000054",
    "END, hunk 0, 4 bytes from 00000074",
    "BSS, hunk 1, 8 bytes from 00000078",
    "END, hunk 1, 4 bytes from 00000080",
  ]);
  const legends = `const texts = (id) =>
      [...document.querySelectorAll("#" + id + "-legend span")].map((it) => it.textContent);
    return ["map", "file"].map(texts).join(" / ")`;
  hold("the legends", "CODE,BSS,any memory / CODE,BSS,RELOC32,HEADER, END", await page.in(legends));
}

/** What the keys, a pointer and a click lead to. */
async function compareWays(page, hold) {
  await page.hex(SUM);
  const keys = (...names) => names.map((name) => `press("${name}");`).join(" ");
  const carets = `return [caret("memory"), caret("file")].join()`;
  const ended = await page.in(`${PICTURE} ${CARETS} ${keys("Home", "End", "Enter")} ${carets}`, "map");
  hold("Enter in the map", "21030,78", ended);
  const back = keys("End", "ArrowLeft", "ArrowLeft", "Enter");
  const left = await page.in(`${PICTURE} ${CARETS} ${back} return caret("file")`, "file");
  hold("Enter in the strip of the file", "74", left);
  const second = keys("Home", "ArrowRight", "Enter");
  const memory = await page.in(`${PICTURE} ${CARETS} ${second} return caret("memory")`, "memory");
  hold("Enter in the strip of the memory", "21030", memory);
  // 0.5 of 132 bytes is byte 66, which is in the block of 56 bytes from 28 on.
  const under = await page.in(`${PICTURE} point("pointermove", 0.5); return tip.hidden ? "" : tip.textContent`, "file");
  hold("the block under the pointer", "CODE, hunk 0, 56 bytes from 0000001c", under);
  const gone = await page.in(`${PICTURE} point("pointerleave", 0.5); return tip.hidden`, "file");
  hold("the label, once the pointer is gone", true, gone);
  const clicked = await page.in(`${PICTURE} ${CARETS} point("click", 0.95); ${carets}`, "map");
  hold("a click into the map", "21030,78", clicked);
  const strip = await page.in(`${PICTURE} ${CARETS} point("click", 0.9); return caret("memory")`, "memory");
  // 0.9 of 60 bytes is byte 54.
  hold("a click into the memory", "21036", strip);
}

/** How many different colours a row of a picture has, so many pixels from below; nothing where there is nothing. */
const colours = (page, below) =>
  page.in(
    `const canvas = document.getElementById("map-picture");
     const y = canvas.height - values[0] - 1;
     const { data } = canvas.getContext("2d").getImageData(0, y, canvas.width, 1);
     const found = new Set();
     for (let i = 0; i < data.length; i += 4) if (data[i + 3] === 255) found.add(data.slice(i, i + 3).join());
     return found.size;`,
    below,
  );

async function compareDrawn(page, hold) {
  await page.hex(MEMORIES);
  await holdParts(page, hold, "memories", "map", [
    "hunk 0, CODE, 4 bytes, chip memory",
    "hunk 1, CODE, 8 bytes, fast memory",
    "hunk 2, BSS, 4 bytes, memory by attributes",
  ]);
  hold("the map, kinds of memory", 3, await colours(page, 3));
  hold("the map, kinds of content", 2, await colours(page, 11));
  const height = `return document.getElementById("map-picture").clientHeight`;
  hold("a map without arcs", true, (await page.in(height)) < 60);
  const isHidden = await page.in(`return document.getElementById("map-arcs").hidden`);
  hold("the legend of arcs, where there are none", true, isHidden);
  await page.hex(SUM);
  hold("a map with arcs", true, (await page.in(height)) > 100);
  const arcs = `const canvas = document.getElementById("map-picture");
    const { data } = canvas.getContext("2d").getImageData(0, 0, canvas.width, canvas.height - 50);
    return data.some((it, i) => i % 4 === 3 && it > 0)`;
  hold("arcs that are drawn", true, await page.in(arcs));
  // The arc from hunk 0 to itself is pale while the pointer is at hunk 1: fewer of all that is drawn above the bars is
  // opaque.
  const strong = `const { data } = canvas.getContext("2d").getImageData(0, 0, canvas.width, canvas.height - 50);
    return data.filter((it, i) => i % 4 === 3 && it > 150).length`;
  const all = await page.in(`${PICTURE} ${strong}`, "map");
  const chosen = await page.in(`${PICTURE} point("pointermove", 0.95); ${strong}`, "map");
  hold("arcs that are pale under the pointer", true, chosen > 0.3 * all && chosen < 0.9 * all);
  await page.hex(OBJECT);
  await holdParts(page, hold, "object", "map", [
    "unit 0, hunk 0, CODE, 8 bytes, any memory, 3 relocations: 2 to hunk 1",
    "unit 0, hunk 1, DATA, 4 bytes, chip memory",
    "unit 1, hunk 0, BSS, 8 bytes, any memory",
    "unit 1, hunk 1, DATA, 4 bytes, any memory, 1 relocation: 1 to hunk 0",
  ]);
  await holdParts(page, hold, "object", "file", [
    "UNIT 0 a, 12 bytes from 00000000",
    "CODE, unit 0, hunk 0, 16 bytes from 0000000c",
    "RELOC32, unit 0, hunk 0, 36 bytes from 0000001c",
    "END, unit 0, hunk 0, 4 bytes from 00000040",
    "DATA, unit 0, hunk 1, 12 bytes from 00000044",
    "END, unit 0, hunk 1, 4 bytes from 00000050",
    "UNIT 1, 8 bytes from 00000054",
    "BSS, unit 1, hunk 0, 8 bytes from 0000005c",
    "END, unit 1, hunk 0, 4 bytes from 00000064",
    "DATA, unit 1, hunk 1, 12 bytes from 00000068",
    "RELOC32, unit 1, hunk 1, 20 bytes from 00000074",
    "END, unit 1, hunk 1, 4 bytes from 00000088",
    "UNIT 2, 8 bytes from 0000008c",
    "UNIT 3 b, 12 bytes from 00000094",
  ]);
  await page.hex("000003f3");
  const seen = `return [...document.querySelectorAll("canvas")].filter((it) => it.checkVisibility()).length`;
  hold("the pictures of a refused file", 0, await page.in(seen));
}

/** The map of 65,536 hunks, at hunks by chance: how long it takes, the quickest of three times. */
export async function compareMap(page, hold, work) {
  const path = `${work}/map-targets`;
  execFileSync("python3", [`${root}bench/make.py`, "targets", "2", path]);
  for (let i = 0; i < 3; i++) await page.shows(() => page.browser.upload("#pick", [path]));
  const times = await page.in(
    `return performance.getEntriesByName("the map of hunks").slice(-3).map((it) => it.duration)`,
  );
  const time = Math.min(...times);
  console.log(`${page.browser.name}: the map of 65,536 hunks ${time.toFixed(0)} ms`);
  hold("the map of 65,536 hunks, within 100 ms", true, time <= 100);
  const last = await page.in(`${PICTURE} press("End"); return text()`, "map");
  // Its longword is no offset of its target.
  hold("the last of 65,536 hunks", "hunk 65535, CODE, 4 bytes, any memory, 1 relocation, 1 warning", last);
  // A hunk in the middle of the picture, as all have the same bytes.
  const middle = `${PICTURE} point("pointermove", 0.5); return canvas.getAttribute("aria-valuenow")`;
  const under = await page.in(middle, "map");
  hold("the hunk in the middle", true, Math.abs(Number(under) - 32768) < 200);
}

export async function comparePictures(page, hold) {
  await compareSum(page, hold);
  await compareWays(page, hold);
  await compareDrawn(page, hold);
}
