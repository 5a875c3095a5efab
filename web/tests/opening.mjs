// What the page opens with, and how it looks: in the light and in the dark, on a phone, under a finger.

import { createHash } from "node:crypto";
import { readFileSync, writeFileSync } from "node:fs";
import { pathToFileURL } from "node:url";
import { contrastOf, contrastOfGrey, tintsOf } from "./contrast.mjs";

const PHONE = [390, 844];
const DESK = [1280, 900];

/** Files in which each kind of text and of cell is drawn. */
const STATES = {
  sum: "#example=sum",
  "an object file": "#example=code-and-ext",
  findings: "#example=two-findings",
  "a refused file": "#example=offset-outside",
  "bytes after the file": "#example=bytes-behind",
  symbols: "#example=symbol",
  "debug data": "#example=debug-of-end-words",
  "an advisory block": "#example=advisory-block",
  "a name": "#example=name-with-line-end",
  "a finding": "#example=common-outside",
  "another spelling": "#example=short-even",
};

const long = (number) => number.toString(16).padStart(8, "0");

/** A load file of so many hunks. The first has a longword for each of them, to which its base is added. */
function manyHunks(count) {
  const all = [...Array(count).keys()];
  const header = [0x3f3, 0, count, 0, count - 1, count, ...all.slice(1).map(() => 1)];
  const first = [0x3e9, count, ...all.map(() => 0), 0x3ec, ...all.flatMap((i) => [1, i, 4 * i]), 0, 0x3f2];
  const others = all.slice(1).flatMap(() => [0x3eb, 1, 0x3f2]);
  return [...header, ...first, ...others].map(long).join("");
}

class Opening {
  constructor(page, hold, paths) {
    this.page = page;
    this.hold = hold;
    this.paths = paths;
  }

  title() {
    return this.page.in("return document.title");
  }

  verdict() {
    return this.page.in(`return document.getElementById("verdict").textContent`);
  }

  current() {
    return this.page.in(
      `return [...document.querySelectorAll("#examples [aria-current]")].map((it) => it.hash).join()`,
    );
  }

  async first() {
    const { page, hold } = this;
    await page.open();
    // By hand: 12 longwords in the first hunk, and 3 in the second.
    hold("what opens", "A load file: 2 hunks, 60 bytes in memory.", await this.verdict());
    hold("its title", "sum - hunk files", await this.title());
    hold("the example that is marked", "#example=sum", await this.current());
    const line = await page.in(`return document.querySelector("#memory-hex .line").textContent.replaceAll(" ", "")`);
    hold("its memory, as the README has it", true, line.includes("41f90002102043f90002103472032018"));
    const says = await page.in(`return document.querySelector("header").innerText`);
    hold("what a hunk file is", true, /A hunk file is a program or an object file of AmigaDOS/.test(says));
    const version = readFileSync(`${this.paths.root}VERSION`, "utf8").trim();
    hold("the version", true, says.includes(`Monteplum ${version}\n`));
    hold("what was asked for", 0, await page.in(`return performance.getEntriesByType("resource").length`));
  }

  /** What moved by itself while the page was loading, as a share of the window; Firefox does not tell. */
  async still() {
    const moved = await this.page.in(
      `if (!PerformanceObserver.supportedEntryTypes.includes("layout-shift")) return 0;
       return await new Promise((done) => {
         let sum = 0;
         const observer = new PerformanceObserver((list) => { for (const it of list.getEntries()) sum += it.value; });
         observer.observe({ type: "layout-shift", buffered: true });
         setTimeout(() => done(sum), 200);
       })`,
    );
    this.hold("what moves while it loads, below a thousandth", true, moved < 0.001);
  }

  async examples() {
    const { page, hold } = this;
    // By hand: _f is referred to and _m defined in the one unit; offset 5 in a hunk of 8 bytes, at byte 52.
    const cards = [
      ["code-and-ext", "An object file: 1 unit, 0 findings."],
      ["offset-outside", "Begins as a load file: refused at byte 52 (00000034), BadOffset (24)."],
      ["sum", "A load file: 2 hunks, 60 bytes in memory."],
    ];
    for (const [name, wanted] of cards) {
      const click = `document.querySelector('#examples a[href="#example=' + values[0] + '"]').click()`;
      await page.shows(() => page.in(click, name));
      hold(`the example ${name}`, wanted, await this.verdict());
      hold(`the example ${name}, its title`, `${name} - hunk files`, await this.title());
      hold(`the example ${name}, marked`, `#example=${name}`, await this.current());
      hold(`the example ${name}, in the list`, name, await page.in(`return document.getElementById("example").value`));
    }
    const listed = await page.in(
      `return [...document.querySelectorAll("#example optgroup")].map((group) =>
         [group.label, ...[...group.children].map((it) => it.value)].join(" ")).join("\\n")`,
    );
    const rows = (table) => {
      const lines = readFileSync(`${this.paths.root}vectors/${table}.tsv`, "utf8").split("\n");
      return lines.filter((it) => it && it[0] !== "#").map((it) => it.split("\t"));
    };
    const wide = rows("wide").filter(([number, , , , answer]) => number > 100 && answer === "accepted");
    const wanted = [
      ["Load files", "sum", ...rows("load").map(([, name]) => name)],
      ["Object files", ...rows("objects").map(([, name]) => name)],
      ["Other spellings", ...wide.map(([, name]) => name)],
    ];
    hold("the list of examples", wanted.map((it) => it.join(" ")).join("\n"), listed);
  }

  async own() {
    const { page, hold } = this;
    const isThere = `return ["intro", "examples"].every((id) => document.getElementById(id).checkVisibility())`;
    hold("the opening", true, await page.in(isThere));
    await page.drop([["mine", manyHunks(3)]]);
    hold("a file of one's own, its title", "mine - hunk files", await this.title());
    hold("a file of one's own, the opening", false, await page.in(isThere));
    hold("a file of one's own, the list", "", await page.in(`return document.getElementById("example").value`));
    await page.drop([["one", manyHunks(2)], ["other", "00"]]);
    hold("two files, the title", "2 files - hunk files", await this.title());
    await page.shows(() => page.in(`location.hash = "#example=none-such"`));
    hold("an example that is not there", "There is no example with the name none-such.", await this.verdict());
    await page.shows(() => page.in(`location.hash = "#example=sum"`));
    hold("an example again, the opening", true, await page.in(isThere));
  }

  async colours(scheme) {
    const { page, hold } = this;
    const look = async (name) => {
      const { texts, worst, of } = await contrastOf(page);
      hold(`${name}, ${scheme}: texts that were looked at, more than 30`, true, texts > 30);
      const enough = "4.5 and more";
      hold(`${name}, ${scheme}: contrast`, enough, worst < 4.5 ? `${worst.toFixed(2)} of ${of}` : enough);
    };
    for (const [name, hash] of Object.entries(STATES)) {
      await page.open(hash);
      const tabs = await page.in(`return [...document.querySelectorAll("[role=tab]")].map((it) => it.id)`);
      await look(name);
      for (const tab of tabs.slice(1)) {
        await page.in("document.getElementById(values[0]).click()", tab);
        await look(`${name}, ${tab}`);
      }
    }
    await page.drop([["one", manyHunks(2)], ["other", "00"], ["third", "000003e700000000"]]);
    await look("many files");
    await page.drop([["hunks", manyHunks(64)]]);
    await look("many hunks");
    // As tables of WCAG have it.
    hold("the contrast of #777 on white", "4.48", await contrastOfGrey(page));
    const { cells, least, most } = await tintsOf(page);
    hold(`cells, ${scheme}: those that were looked at, more than 256`, true, cells > 256);
    if (scheme === "dark") hold("cells in the dark, of at most a fifth of the light", true, most <= 0.2);
    else hold("cells in the light, of at least two fifths of it", true, least >= 0.4);
  }

  /** The colours follow the scheme while a file is shown. */
  async change() {
    const { page, hold } = this;
    await page.open();
    await page.shows(() => page.browser.dark(true));
    hold("cells after a change to the dark", true, (await tintsOf(page)).most <= 0.2);
    await page.shows(() => page.browser.dark(false));
    hold("cells after a change to the light", true, (await tintsOf(page)).least >= 0.4);
  }

  async phone() {
    const { page, hold } = this;
    const wide = `return document.documentElement.scrollWidth > innerWidth ? "more than the window" : "the window"`;
    await page.browser.size(...PHONE);
    await page.browser.touch(true);
    for (const [name, hash] of Object.entries(STATES)) {
      await page.open(hash);
      hold(`${name}, the width of a phone's window`, PHONE[0], await page.in("return innerWidth"));
      hold(`${name}, the width that a phone takes`, "the window", await page.in(wide));
      hold(`${name}, what is too low for a finger`, "", await page.in(LOW));
    }
    await page.drop([["a name", manyHunks(2)], ["other", "00"]]);
    hold("many files, the width that a phone takes", "the window", await page.in(wide));
    hold("many files, what is too low for a finger", "", await page.in(LOW));
    hold("the titles of a text that is not cut, and is cut", ", a name", await page.in(CUT));
    await page.drop([["a program with some name", manyHunks(2)]]);
    const lines = `const name = document.getElementById("file-name");
      return name.clientHeight / parseFloat(getComputedStyle(name).lineHeight)`;
    hold("how many lines the name of a file has on a phone", 1, await page.in(lines));
    await page.browser.touch(false);
    await page.browser.size(...DESK);
  }

  /** A browser that can't unpack: the page with a script before its own, which its policy names. */
  async old() {
    const { page, hold, paths } = this;
    const script = "delete globalThis.DecompressionStream";
    const sum = createHash("sha256").update(script).digest("base64");
    const text = readFileSync(paths.pagePath, "utf8");
    const path = `${paths.work}/old.html`;
    const named = text.replace("script-src ", `script-src 'sha256-${sum}' `);
    writeFileSync(path, named.replace("<body>", `<body><script>${script}</script>`));
    await page.browser.go(pathToFileURL(path).href);
    const said = await page.in(
      `const verdict = () => document.getElementById("verdict")?.textContent ?? "";
       for (let i = 0; i < 400 && !verdict(); i++) await new Promise((done) => setTimeout(done, 5));
       return verdict()`,
    );
    hold("a browser that can't unpack", "The library can't be run here: this browser is too old to unpack it.", said);
  }
}

/** What is there to press, and is lower than 36 pixels. */
const LOW = `
  const pressed = "button, .button, select, input:not([type=file]), a, [data-row]";
  const seen = [...document.querySelectorAll(pressed)].filter((it) => it.checkVisibility());
  const low = seen.filter((it) => it.getBoundingClientRect().height < 36);
  return low.map((it) => it.id || it.className || it.textContent).join()`;

/** The title of a cell that the pointer has come to, as it is and when it is cut. */
const CUT = `
  const cells = [...document.querySelectorAll("[role=rowheader], [role=gridcell]")];
  const cell = cells.find((it) => it.textContent === "a name");
  const told = (width) => {
    cell.style.width = width;
    cell.dispatchEvent(new PointerEvent("pointerover", { bubbles: true }));
    return cell.title;
  };
  return [told("300px"), told("10px")].join(", ")`;

export async function compareOpening(page, hold, paths) {
  const opening = new Opening(page, hold, paths);
  await opening.first();
  await opening.still();
  await opening.examples();
  await opening.own();
  await opening.colours("light");
  await page.browser.dark(true);
  await opening.colours("dark");
  await page.browser.dark(false);
  await opening.change();
  await opening.phone();
  await opening.old();
  await page.open();
}
