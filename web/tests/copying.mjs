// Rows and bytes that are chosen by keys or a pointer, and what is copied of them.

import { PROGRAM } from "./program.mjs";
import { SUM } from "./texts.mjs";

/** What Ctrl and C copy while an element has the focus. */
const COPIED = `
  const copied = (selector) => {
    document.querySelector(selector).focus();
    let text = "nothing";
    const event = new Event("copy", { bubbles: true, cancelable: true });
    Object.defineProperty(event, "clipboardData", { value: { setData: (_, it) => { text = it; } } });
    document.activeElement.dispatchEvent(event);
    return text;
  };
  const press = (selector, ...keys) => {
    for (const name of keys) {
      const key = name.split("+").at(-1);
      const init = { key, bubbles: true, shiftKey: name.includes("Shift"), ctrlKey: name.includes("Ctrl") };
      document.querySelector(selector).dispatchEvent(new KeyboardEvent("keydown", init));
    }
  };`;

const GRID = "#list-panel .grid";

async function tryRows(page, hold) {
  await page.hex(SUM);
  const rows = (...keys) => page.in(`${COPIED} document.getElementById("tab-blocks").click();
    press("${GRID}", ...values); return copied("${GRID}")`, ...keys);
  const lines = [
    "0000001c\t0\tCODE\t56\t48 bytes of content\n", "00000054\t0\tRELOC32\t32\t2 items\n",
    "00000074\t0\tEND\t4\t\n",
  ];
  hold("a row, copied", lines[0], await rows("Home"));
  hold("three rows, copied", lines.join(""), await rows("Home", "Shift+ArrowDown", "Shift+ArrowDown"));
  hold("rows upwards, copied", lines.slice(1).join(""), await rows("ArrowDown", "ArrowDown", "Shift+ArrowUp"));
  hold("all rows, copied", 5, (await rows("Ctrl+a")).split("\n").length - 1);
  const button = await page.in(
    `let text = "nothing";
     const writeText = async (it) => { text = it; };
     Object.defineProperty(navigator, "clipboard", { value: { writeText }, configurable: true });
     document.getElementById("copy-list").click();
     await new Promise((done) => setTimeout(done, 50));
     return text.split("\\n").slice(0, 2).join("\\n") + " / " + document.getElementById("copied-list").textContent`,
  );
  hold("the list by its button", `at\thunk\tblock\tbytes\tof it\n${lines[0].trimEnd()} / 5 rows copied.`, button);
}

async function tryBytes(page, hold) {
  await page.hex(SUM);
  const bytes = (id, ...keys) => page.in(`${COPIED} const box = "#" + values[0] + "-hex";
    press(box, ...values.slice(1)); return copied(box)`, id, ...keys);
  hold("bytes of the file, copied", "00 00 03 f3\n", await bytes("file", "Home", ...Array(3).fill("Shift+ArrowRight")));
  const memory = await bytes("memory", "Home", "ArrowRight", "ArrowRight", ...Array(3).fill("Shift+ArrowRight"));
  hold("bytes of the memory, copied", "00 02 10 20\n", memory);
  hold("bytes of two lines", 2, (await bytes("file", "Home", "Shift+ArrowDown")).split("\n").length - 1);
  hold("all bytes, copied", SUM.toLowerCase(), (await bytes("file", "Ctrl+a")).replace(/\s/g, ""));
  await page.in(`document.getElementById("tab-relocations").click();
    document.querySelector("#list-panel [data-row]").click()`);
  hold("the bytes of a row, copied", "00 00 00 02\n", await bytes("file"));
}

/** A wheel that turns leaves what is picked. */
async function tryWheel(page, hold) {
  await page.drop([["program", PROGRAM]]);
  const kept = await page.in(
    `${COPIED}
     press("#file-hex", "Home", "Shift+ArrowRight", "Shift+ArrowRight", "Shift+ArrowRight");
     const box = document.getElementById("file-hex");
     for (const to of [2000, 0]) {
       box.scrollTop = to;
       await new Promise((done) => setTimeout(done, 100));
     }
     return copied("#file-hex") + document.querySelectorAll("#file-hex .picked").length`,
  );
  hold("bytes that stay picked while the view is scrolled", "00 00 03 f3\n4", kept);
}

/** Where an element stands, by its middle. */
const MIDDLE = `
  const { left, top, width, height } = document.querySelectorAll(values[0])[values[1]].getBoundingClientRect();
  return [left + width / 2, top + height / 2]`;

/** A mouse that is drawn over rows and over bytes, as one that a hand moves. */
async function tryMouse(page, hold) {
  await page.hex(SUM);
  await page.in(`document.getElementById("tab-blocks").click(); scrollTo(0, 0)`);
  const draw = async (selector, from, to) => {
    await page.in(`document.querySelector(values[0]).scrollIntoView({ block: "center" })`, selector);
    await page.browser.draw(await page.in(MIDDLE, selector, from), await page.in(MIDDLE, selector, to));
  };
  await draw("#list-panel [data-row]", 0, 1);
  const rows = await page.in(`${COPIED} return copied("${GRID}")`);
  hold("rows under a mouse", "0000001c 00000054", rows.split("\n").map((it) => it.split("\t")[0]).join(" ").trim());
  await draw("#file-hex .line b", 0, 3);
  hold("bytes under a mouse", "00 00 03 f3\n", await page.in(`${COPIED} return copied("#file-hex")`));
  // Within a row the browser selects a text, as of a name.
  await page.drop([["program", PROGRAM]]);
  await page.in(`document.getElementById("tab-symbols").click()`);
  const [x, y] = await page.in(MIDDLE, "#list-panel [data-row]:nth-child(2) > :first-child", 0);
  await page.browser.draw([x - 30, y], [x + 30, y]);
  const selected = await page.in("return getSelection().toString().trim()");
  hold("the text of a cell under a mouse", true, /^[0-9a-f]{4,8}$/.test(selected) || selected);
}

export async function compareCopying(page, hold) {
  await tryRows(page, hold);
  await tryBytes(page, hold);
  await tryWheel(page, hold);
  await tryMouse(page, hold);
}
