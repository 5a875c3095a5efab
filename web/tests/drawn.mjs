// What is drawn of many hunks, of the row that is marked, and on paper.

import { PROGRAM } from "./program.mjs";

const long = (number) => number.toString(16).padStart(8, "0");

/** A load file of so many hunks of CODE, each with a relocation of so many others, by chance. */
function manyTargets(count, targets) {
  const all = [...Array(count).keys()];
  const hunk = (i) => {
    const others = [...Array(targets).keys()].map((k) => (i * 37 + k * k * 11 + 5 * k + 1) % count);
    return [0x3e9, targets, ...others.map(() => 0), 0x3ec, ...others.flatMap((it, k) => [1, it, 4 * k]), 0, 0x3f2];
  };
  return [0x3f3, 0, count, 0, count - 1, ...all.map(() => targets), ...all.flatMap(hunk)].map(long).join("");
}

/** How high each of so many columns across the map is drawn on, of a hundred: from below, while nothing or a hunk is
 * chosen. */
export const HEIGHTS = `
  const canvas = document.getElementById("map-picture");
  await new Promise((done) => requestAnimationFrame(() => requestAnimationFrame(done)));
  const height = canvas.height - 45;
  const { data } = canvas.getContext("2d").getImageData(0, 0, canvas.width, height);
  const isDrawn = (x, y) => data[4 * (y * canvas.width + x) + 3] > values[0];
  const rows = [...Array(height).keys()];
  const columns = [...Array(canvas.width).keys()].map((x) => rows.filter((y) => isDrawn(x, y)).length / height);`;

const POINT = `
  const picture = document.getElementById("map-picture");
  const { left, top, width } = picture.getBoundingClientRect();
  const at = { clientX: left + values[1] * width, clientY: top + 110 };
  picture.dispatchEvent(new PointerEvent("pointermove", { bubbles: true, ...at }));`;

export const SHARE = `return columns.reduce((sum, it) => sum + it, 0) / columns.length`;

/** 300 hunks: of each one relocation leads to the next, and all lead to hunk 7. */
export function toSeven() {
  const all = [...Array(300).keys()];
  const hunk = (i) => [0x3e9, 2, 0, 0, 0x3ec, 1, (i + 1) % 300, 0, 1, 7, 4, 0, 0x3f2];
  return [0x3f3, 0, 300, 0, 299, ...all.map(() => 2), ...all.flatMap(hunk)].map(long).join("");
}

async function tryCrowded(page, hold) {
  await page.drop([["targets", manyTargets(269, 12)]]);
  const legend = await page.in(`return document.getElementById("map-arcs").textContent`);
  const said = /^a column above a bar says how many .*arcs are drawn for the hunk under the pointer/;
  hold("what the columns of 269 hunks mean", true, said.test(legend));
  await page.drop([["seven", toSeven()]]);
  const highest = `${HEIGHTS} const most = Math.max(...columns); return columns.indexOf(most) / columns.length`;
  // Hunk 7 is in the second of 64 bars.
  const at = await page.in(highest, 150);
  hold("the highest column is that of the hunk to which all lead", true, at >= 1 / 64 - 0.01 && at < 2 / 64);
  const low = `${HEIGHTS} return columns.slice(columns.length / 4).every((it) => it < 0.3)`;
  hold("the others are low", true, await page.in(low, 150));
  const none = await page.in(`${HEIGHTS} ${SHARE}`, 200);
  await page.in(POINT, 0, 0.9);
  const one = await page.in(`${HEIGHTS} ${SHARE}`, 200);
  hold("the arcs of one hunk under the pointer", true, one > 0.005 && one < 0.1 && one !== none);
  // From hunk 270 to 7 and 271, which are in one arc to the left, and in a short one.
  const wide = `${HEIGHTS} return columns.filter((it) => it > 0).length / columns.length`;
  hold("they reach over the map", true, (await page.in(wide, 200)) > 0.8);
  await page.in(POINT, 0, 0.99);
  const tip = `return document.querySelector("#hunks .picture-tip").textContent`;
  const told = "hunk 297, CODE, 8 bytes, any memory, 2 relocations: 1 to hunk 7, 1 to hunk 298";
  hold("where one of many leads to", told, await page.in(tip));
}

/** How far the row that is marked is from the paper, and whether it has an edge. */
const MARKED = `
  const drawing = new OffscreenCanvas(1, 1).getContext("2d", { willReadFrequently: true });
  const light = (...colours) => {
    drawing.clearRect(0, 0, 1, 1);
    for (const colour of colours) {
      drawing.fillStyle = colour;
      drawing.fillRect(0, 0, 1, 1);
    }
    const [r, g, b] = [...drawing.getImageData(0, 0, 1, 1).data].map((it) => it / 255)
      .map((it) => (it <= 0.04045 ? it / 12.92 : ((it + 0.055) / 1.055) ** 2.4));
    return 0.2126 * r + 0.7152 * g + 0.0722 * b + 0.05;
  };
  const paper = getComputedStyle(document.body).backgroundColor;
  const row = getComputedStyle(document.querySelector("#list-panel [aria-selected=true]"));
  const [one, other] = [light(paper), light(paper, row.backgroundColor)].sort((a, b) => b - a);
  return [one / other >= 1.2, row.boxShadow !== "none"].join()`;

/** How many lines a view and a list have for a printer, and of which none is cut. */
const PRINTED = `
  document.getElementById("tab-relocations").click();
  dispatchEvent(new Event("beforeprint"));
  const lines = document.querySelectorAll("#file-hex .line").length;
  const rows = document.querySelectorAll("#list-panel [data-row]").length;
  const said = getComputedStyle(document.getElementById("file-hex"), "::after").content;
  dispatchEvent(new Event("afterprint"));
  const again = document.querySelectorAll("#file-hex .line").length;
  return [lines, rows, again < 100].join()`;

export async function compareDrawn(page, hold) {
  await page.open();
  await tryCrowded(page, hold);
  await page.drop([["program", PROGRAM]]);
  for (const is of [true, false]) {
    await page.shows(() => page.browser.dark(is));
    hold(`the row that is marked, ${is ? "dark" : "light"}`, "true,true", await page.in(MARKED));
  }
  const bytes = PROGRAM.length / 2;
  // 62 relocations, by the program's table of targets.
  hold("what is printed", `${Math.ceil(bytes / 16)},${RELOCATIONS},true`, await page.in(PRINTED));
}

/** How many relocations the program has. */
const RELOCATIONS = 9 + 3 + 4 + 1 + (4 + 8 + 5 + 2 + 2) + (3 + 2) + (2 + 4 + 5);
