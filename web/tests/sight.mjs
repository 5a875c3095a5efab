// What a row, a picture or a lead goes to is seen then: in the window, and in its view.

import { DAMAGED, PROGRAM } from "./program.mjs";

/** The size of the window, and whether it is touched. */
const WINDOWS = [
  [390, 844, true], [800, 900, false], [1280, 900, false], [1280, 720, false], [1920, 1080, false], [2560, 1440, false],
];

/** Picks the last row of a list, and says of each view whether the first byte that is picked is seen. */
const LAST = `
  scrollTo(0, 0);
  document.getElementById("tab-" + values[0]).click();
  const grid = document.querySelector("#list-panel .grid");
  for (const key of ["End", "Enter"]) grid.dispatchEvent(new KeyboardEvent("keydown", { key, bubbles: true }));
  return ["memory", "file"].map((id) => {
    const cell = document.querySelector("#" + id + "-hex .picked");
    if (!cell) return id + ": none";
    const { top, bottom } = cell.getBoundingClientRect();
    const box = document.getElementById(id + "-hex").getBoundingClientRect();
    const isSeen = top >= 0 && bottom <= innerHeight && top >= box.top - 1 && bottom <= box.bottom + 1;
    return id + ": " + (isSeen ? "seen" : "out of sight");
  }).join(", ")`;

const WANTED = {
  hunks: "memory: seen, file: seen",
  symbols: "memory: seen, file: seen",
  relocations: "memory: seen, file: seen",
  // The last block is an END, which is in no memory.
  blocks: "memory: none, file: seen",
};

/** Whether the fault of a refused file is seen in its view. */
const FAULT = `
  await new Promise((done) => setTimeout(done, 100));
  const box = document.getElementById("file-hex").getBoundingClientRect();
  return [...document.querySelectorAll("#file-hex .refused")].some((it) => {
    const { top, bottom } = it.getBoundingClientRect();
    return top >= box.top - 1 && bottom <= box.bottom + 1;
  })`;

/** Goes by a lead beside the bytes of the file, from the first of the window. */
const LEAD = `
  scrollTo(0, 0);
  document.querySelector("#memory-item button").click();
  const { top, bottom } = document.querySelector("#file-hex .picked").getBoundingClientRect();
  return top >= 0 && bottom <= innerHeight`;

export async function compareSight(page, hold) {
  for (const [width, height, isTouched] of WINDOWS) {
    await page.browser.size(width, height);
    await page.browser.touch(isTouched);
    await page.open();
    await page.drop([["program", PROGRAM]]);
    for (const [list, wanted] of Object.entries(WANTED)) {
      hold(`the last of ${list} at ${width} by ${height} pixels`, wanted, await page.in(LAST, list));
    }
    hold(`what a lead goes to at ${width} by ${height} pixels`, true, await page.in(LEAD));
    await page.drop([["damaged", DAMAGED]]);
    hold(`the fault behind another file at ${width} by ${height} pixels`, true, await page.in(FAULT));
  }
  await page.browser.touch(false);
  await page.browser.size(1280, 900);
}
