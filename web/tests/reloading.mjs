// A file that changes on disk while it is shown: a button reads it again, where the browser lets the page see that.

import { mkdirSync, writeFileSync } from "node:fs";
import { LOAD, VERDICT, longs } from "./many.mjs";

const ONE = longs("3f3 0 1 0 0 1 3e9 1 4e754e71 3f2");
const [WAS, IS] = ["A load file: 1 hunk, 4 bytes in memory", "A load file: 2 hunks, 24 bytes in memory"];
const write = (path, digits) => writeFileSync(path, Buffer.from(digits, "hex"));
const focus = `dispatchEvent(new Event("focus"));`;

/** Whether the button comes within so many tenths of a second. */
const offered = (page, tenths = 60) =>
  page.in(
    `const button = document.getElementById("reload");
     for (let i = 0; i < values[0] && !button.checkVisibility(); i++) {
       await new Promise((done) => setTimeout(done, 100));
     }
     return button.checkVisibility()`,
    tenths,
  );
/** Goes one line of bytes down in the file, and tells at which byte one is. */
const down = `document.getElementById("file-hex")
  .dispatchEvent(new KeyboardEvent("keydown", { key: "ArrowDown", bubbles: true }));`;
const byte = (page) => page.in(`return document.getElementById("file-item").textContent.slice(0, 8)`);
const start = async (page) => (await page.in(VERDICT)).slice(0, IS.length).replace(/[.;].*/, "");

/** Changes a file that is shown, and has the button read it again. `isLooked` is whether the window has to get the
 * focus. */
async function change(page, hold, what, path, isLooked) {
  hold(`${what}, at first`, WAS, await start(page));
  hold(`${what}, not changed`, false, await offered(page, 3));
  await page.in(down);
  write(path, LOAD);
  if (isLooked) await page.in(focus);
  hold(`${what}, changed`, true, await offered(page));
  await page.shows(() => page.in(`document.getElementById("reload").click()`));
  hold(`${what}, read again`, IS, await start(page));
  hold(`${what}, where it was left`, "00000010", await byte(page));
  hold(`${what}, and not offered again`, false, await offered(page, 3));
  await page.shows(() => page.in("history.back()"));
  hold(`${what}, and back`, WAS, await start(page));
}

/** Files that the browser gives by handles, as a picker does. */
async function comparePicker(page, hold) {
  await page.open();
  const picker = `const bytes = (digits) => Uint8Array.from(digits.match(/../g), (it) => parseInt(it, 16));
    window.now = new File([bytes(values[0])], "picked", { lastModified: 1 });
    window.showOpenFilePicker = async () => [{ kind: "file", name: "picked", getFile: async () => window.now }];
    window.dispatchPick = () => document.getElementById("pick").click();
    window.change = (digits, lastModified) => { window.now = new File([bytes(digits)], "picked", { lastModified }); };`;
  await page.in(picker, ONE);
  await page.shows(() => page.in("dispatchPick()"));
  hold("a file that is picked by a handle", WAS, await start(page));
  await page.in("change(...values)", LOAD.slice(0, 16), 2);
  hold("that it has changed", true, await offered(page));
  // It was half written then.
  await page.in("change(...values)", LOAD, 3);
  await page.shows(() => page.in(`document.getElementById("reload").click()`));
  hold("it is read again", IS, await start(page));
}

export async function compareReloading(page, hold, { work }) {
  mkdirSync(`${work}/reload`, { recursive: true });
  const path = `${work}/reload/file`;
  const isChromium = page.browser.name === "Chromium";
  write(path, ONE);
  await page.shows(() => page.browser.upload("#pick", [path]));
  if (isChromium) {
    // Chromium reads no file of a field again that has changed.
    write(path, LOAD);
    await page.in(focus);
    hold("a file of a field that has changed", false, await offered(page, 10));
    write(path, ONE);
    await page.shows(() => page.browser.dropPaths([path]));
    await change(page, hold, "a file that is dropped", path, false);
    await comparePicker(page, hold);
  } else await change(page, hold, "a file of a field", path, true);
  await page.open();
  await page.in(focus);
  hold("an example", false, await offered(page, 3));
}
