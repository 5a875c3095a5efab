// Relocations with their source and target as symbol and offset; lists that are sorted, and filtered, by each column.

import { type } from "./many.mjs";
import { PROGRAM } from "./program.mjs";
import { SUM, digits } from "./texts.mjs";

/** A unit of two hunks: hunk 0 has _first at 0 and _second at 4, by EXT, and its longword at 8 leads to 2 of hunk 1,
 * which has the symbol _data at 0. */
const OBJECT = digits(`
  000003e7 00000000
  000003e9 00000003 00000000 00000000 00000002 000003ec 00000001 00000001 00000008 00000000
  000003ef 01000002 5f666972 73740000 00000000 01000002 5f736563 6f6e6400 00000004 00000000 000003f2
  000003ea 00000001 00000000 000003f0 00000002 5f646174 61000000 00000000 00000000 000003f2`);

/** The texts of a column of the open list, by the name of its head. */
const COLUMN = `
  const heads = [...document.querySelectorAll("#list-panel [role=columnheader]")];
  const column = (name) => heads.findIndex((it) => it.textContent === name);
  const rows = () => [...document.querySelectorAll("#list-panel [data-row]")];
  const texts = (name) => rows().map((row) => row.children[column(name)]?.textContent);
  const press = (name) => heads[column(name)].click();`;

const open = (list) => `document.getElementById("tab-${list}").click();`;

async function tryNames(page, hold) {
  const ways = `${open("relocations")} ${COLUMN}
    return texts("source").map((it, i) => it + " > " + texts("leads to")[i]).slice(0, 3).join()`;
  await page.drop([["program", PROGRAM]]);
  // By hand: the nine addresses of hunk 1 in hunk 0 stand at 4, 24, 44 and so on to 164, and have 0, 4, 8 and so on to
  // 20, and again; a group begins with its last. _main is at 72.
  const wanted = "_main + 5c > _draw + 8,_main + 48 > _draw + 4,_main + 34 > _draw";
  hold("relocations by symbols", wanted, await page.in(ways));
  const line = `document.querySelector("#list-panel [data-row]").click();
    return document.querySelector("#memory-item p > :last-child").textContent`;
  hold("the first of them beside its bytes", "_main + 5c, the base of hunk 1 is added", await page.in(line));
  await page.drop([["object", OBJECT]]);
  hold("relocations of an object file", "_second + 4 > _data + 2", await page.in(ways));
  await page.hex(SUM);
  const columns = `${open("relocations")} ${COLUMN}
    return heads.filter((it) => it.checkVisibility()).map((it) => it.textContent).join()`;
  hold("the columns of a file without symbols", "at,hunk,offset,target,of it,kind", await page.in(columns));
  const values = `${open("relocations")} ${COLUMN} return texts("of it").join()`;
  // By hand: 20 stands at offset 2 of hunk 0, and 4 at offset 8.
  hold("the offsets of their targets", "00000020,00000004", await page.in(values));
}

/** Whether texts rise, or fall. */
const isRising = (texts) => texts.every((it, i) => i === 0 || texts[i - 1].toLowerCase() <= it.toLowerCase());

/** By the name of a list: its columns, of which those of numbers are padded for the comparison, and so are offsets
 * behind a symbol. */
const SORTED = {
  relocations: ["at", "hunk", "offset", "source", "target", "of it", "leads to", "kind"],
  symbols: ["at", "hunk", "value", "address", "name"],
};

async function trySorted(page, hold) {
  await page.drop([["program", PROGRAM]]);
  for (const [list, columns] of Object.entries(SORTED)) {
    await page.in(open(list));
    for (const name of columns) {
      const sorted = `${COLUMN} press(values[0]);
        const whole = (it) => it.replace(/ \\+ (.*)/, (_, past) => " + " + past.padStart(8, "0"));
        return texts(values[0]).map(whole).map((it) => it.padStart(4, "0"))`;
      const isNumber = ["hunk", "target"].includes(name);
      const padded = isNumber ? sorted : sorted.replace(`.map((it) => it.padStart(4, "0"))`, "");
      hold(`${list} by ${name}`, true, isRising(await page.in(padded, name)));
      hold(`${list} by ${name}, falling`, true, isRising((await page.in(padded, name)).reverse()));
      const marked = `${COLUMN}
        const orders = heads.map((it) => it.getAttribute("aria-sort")).filter(Boolean);
        return orders.join() + heads[column(values[0])].ariaSort`;
      hold(`what ${list} are sorted by`, "descendingdescending", await page.in(marked, name));
    }
  }
  await page.in(open("symbols"));
  const first = `${COLUMN} press("name"); document.querySelector("#list-panel [data-row]").click();
    return [...document.querySelectorAll("#list-panel [data-row]")][0].lastChild.textContent + " " +
      document.querySelector("#memory-hex .picked").closest(".line").querySelector(".names").textContent.split(" ")[0]`;
  hold("where the first row leads to then", "_blit _blit", await page.in(first));
}

/** What is typed above a list, in which column, and what is left of one column. */
const FILTERED = [
  ["symbols", "name", "_M", "name", "_main,_messages"],
  ["symbols", "hunk", "3", "name", "_messages"],
  ["symbols", "value", "48", "name", "_main"],
  ["symbols", "address", "21000", "name", "_start"],
  ["symbols", "", "_plane", "name", "_plane"],
  ["relocations", "leads to", "_table", "source", "_usage + 24,_read_all + 3c,_read_all + 4"],
  ["relocations", "target", "6", "target", "6,6"],
  ["relocations", "source", "_usage", "hunk", "0,0"],
  ["relocations", "", "_usage", "hunk", "0,0"],
];

async function tryFiltered(page, hold) {
  await page.drop([["program", PROGRAM]]);
  for (const [list, column, said, other, wanted] of FILTERED) {
    await page.in(`${open(list)}
      const select = document.querySelector("#list-panel select");
      select.value = values[0] && [...select.options].find((it) => it.text === "in " + values[0]).value;
      select.dispatchEvent(new Event("change"))`, column);
    await type(page, "#list-panel input", said);
    const left = await page.in(`${COLUMN} return texts(values[0]).join()`, other);
    hold(`${list} with ${said} in ${column || "any column"}`, wanted, left);
  }
}

export async function compareRelocated(page, hold) {
  await page.browser.size(1920, 2400);
  await page.open();
  await tryNames(page, hold);
  await trySorted(page, hold);
  await tryFiltered(page, hold);
  await page.browser.size(1280, 900);
}
