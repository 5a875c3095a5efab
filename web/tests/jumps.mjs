// Back and forward through jumps, and links to a byte.

import { BASE } from "./page.mjs";
import { PROGRAM } from "./program.mjs";
import { SUM } from "./texts.mjs";

/** Where the carets are, and what is picked in the file. */
const PLACE = `
  const at = (id, what) => [...document.querySelectorAll("#" + id + "-hex ." + what)].map((cell) => {
    const line = cell.closest(".line");
    return (parseInt(line.firstChild.textContent, 16) + [...line.children].indexOf(cell) - 1).toString(16);
  });
  const place = () => [at("memory", "caret")[0], at("file", "caret")[0], at("file", "picked").length].join();`;

const PRESS = `
  const row = (list, i) => {
    document.getElementById("tab-" + list).click();
    document.querySelectorAll("#list-panel [data-row]")[i].click();
  };
  const keyed = (id, key) =>
    document.getElementById(id).dispatchEvent(new KeyboardEvent("keydown", { key, bubbles: true }));
  const found = (id, text) => {
    document.getElementById("find-" + id).value = text;
    keyed("find-" + id, "Enter");
  };
  const back = () => document.getElementById("jump-back");
  const forward = () => document.getElementById("jump-forward");`;

const run = (page, acts, ...values) => page.in(`${PLACE} ${PRESS} ${acts}`, ...values);

async function tryWays(page, hold) {
  await page.hex(SUM);
  const buttons = `return [place(), back().disabled, forward().disabled].join()`;
  hold("before a jump", "21000,0,0,true,true", await run(page, buttons));
  const length = await page.in("return history.length");
  const places = `const found_ = [place()];
    row("relocations", 1); found_.push(place());
    keyed("map-picture", "End"); keyed("map-picture", "Enter"); found_.push(place());
    found("file", "4e 75"); found_.push(place());
    document.querySelector("#file-item button").click(); found_.push(place());
    return found_`;
  // By hand: the second relocation stands at 6c and is of offset 8; hunk 1 stands at 78; 4e75 at 40, and is loaded to
  // 2101c.
  const wanted = ["21000,0,0", "21008,6c,4", "21030,78,8", "21030,40,2", "2101c,40,2"];
  hold("a row, the map, what is found, and a lead", wanted.join(" "), (await run(page, places)).join(" "));
  const there = `const seen = []; while (!back().disabled) { back().click(); seen.push(place()); } return seen`;
  hold("back through them", wanted.slice(0, -1).reverse().join(" "), (await run(page, there)).join(" "));
  const on = `const seen = []; while (!forward().disabled) { forward().click(); seen.push(place()); } return seen`;
  hold("and forward", wanted.slice(1).join(" "), (await run(page, on)).join(" "));
  hold("which place it is", "place 5 of 5", await page.in(`return document.getElementById("jump-told").textContent`));
  hold("the history of the browser", length, await page.in("return history.length"));
}

async function tryMoved(page, hold) {
  await page.hex(SUM);
  const moved = `row("blocks", 1); keyed("file-hex", "ArrowRight"); keyed("file-hex", "ArrowRight");
    row("blocks", 0); keyed("file-hex", "Backspace"); return place()`;
  hold("where the caret had been moved to", "21000,56,0", await run(page, moved));
  hold("forward by keys", "21000,1c,56", await run(page, `document.body.dispatchEvent(new KeyboardEvent("keydown",
    { key: "Backspace", shiftKey: true, bubbles: true })); return place()`));
  hold("Backspace in a field", "21000,1c,56", await run(page, `keyed("find-file", "Backspace"); return place()`));
  const anew = `back().click(); row("blocks", 2); const one = forward().disabled;
    row("blocks", 2); back().click(); return [one, place()].join()`;
  hold("a jump leaves what was forward, and the same one again adds nothing", "true,21000,56,0", await run(page, anew));
  const left = `keyed("file-hex", "ArrowRight"); back().click(); forward().click(); return place()`;
  await run(page, `row("blocks", 0); row("blocks", 1)`);
  hold("a caret that was moved before Back", "21000,55,0", await run(page, left));
  await page.drop([["program", PROGRAM]]);
  hold("the places of another file", true, await run(page, `return back().disabled && forward().disabled`));
}

/** The link that is copied, behind the address, and what is said of it. */
const COPY = `
  let copied = "nothing";
  const writeText = async (text) => (copied = text);
  Object.defineProperty(navigator, "clipboard", { value: { writeText }, configurable: true });
  document.getElementById("copy-link").click();
  await new Promise((done) => setTimeout(done, 50));
  return [copied.replace(/.*#/s, ""), document.getElementById("copied").textContent]`;

const TOLD = `return document.getElementById("copied").textContent`;

async function tryLinks(page, hold) {
  await page.open("#example=sum");
  await run(page, `row("blocks", 1)`);
  const [link] = await run(page, COPY);
  hold("a link to a byte", `example=sum&base=${BASE}&at=54`, link);
  await page.open(`#${link}`);
  hold("that is opened", "21000,54,4", await run(page, "return place()"));
  await page.open("#example=sum&base=30000&at=1:4");
  hold("a link to a byte of the memory, from another address", "30034,0,0", await run(page, "return place()"));
  await run(page, `document.getElementById("memory-hex").focus()`);
  hold("its link", "example=sum&base=00030000&at=1:4", (await run(page, COPY))[0]);
  await page.open("#example=sum&at=ffff");
  hold("a byte that is not there", "The link leads to a byte that is not there: ffff.", await page.in(TOLD));
  await page.open("#at=24");
  const alone = "The link leads to byte 24 of a file: drop it, and it is shown there.";
  hold("a link to a byte alone", alone, await page.in(TOLD));
  await page.drop([["large", PROGRAM.padEnd(9000, "00")]]);
  hold("the file that is dropped then", "21000,24,4", await run(page, "return place()"));
  await run(page, `row("blocks", 3)`);
  const [short, told] = await run(page, COPY);
  const isOfByte = /^at=[0-9a-f]+$/.test(short) && told.startsWith("Copied. It leads to the byte");
  hold("the link of a large file", true, isOfByte);
  await page.shows(() => page.in(`location.hash = "#at=30"`));
  const shown = `return at("file", "caret")[0] + "," + document.title.split(" ")[0]`;
  hold("an address to a byte of the file that is shown", "30,large", await run(page, shown));
}

export async function compareJumps(page, hold) {
  for (const it of [tryWays, tryMoved, tryLinks]) await it(page, hold);
}
