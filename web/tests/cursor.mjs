// What the page says of the byte under the pointer and at the caret, held to what was read off small files by hand.

import { digits, SUM } from "./texts.mjs";

/** Hunks of 8 bytes in chip memory, of 4 with attributes, of 4: "go" at 4 of hunk 0, "end" behind it, "x" at 0 of hunk
 * 1. */
const SYMBOLS = digits(`
  000003f3 00000000 00000003 00000000 00000002 40000002 c0000001 00010002 00000001
  000003e8 00000001 74000000
  000003e9 00000001 4e714e75
  000003f0 00000001 676f0000 00000004 00000001 656e6400 00000008 00000000
  000003f2
  000003ea 00000001 00000004 000003ec 00000001 00000000 00000000 00000000
  000003f0 00000001 78000000 00000000 00000000
  000003f2
  000003eb 00000001 000003f2`);

/** A unit "a" of a hunk of CODE: the longword at 2 refers to _f, the one at 6 is relocated at hunk 1, which is DATA. */
const OBJECT = digits(`
  000003e7 00000001 61000000
  000003e9 00000003 4eb90000 00004ef9 00000004
  000003ec 00000001 00000001 00000008 00000000
  000003ef 81000001 5f660000 00000001 00000002 01000001 5f6d0000 00000006
  02000001 5f610000 00001234 00000000
  000003f2
  000003ea 00000002 00000001 00000002
  000003f1 00000001 12345678
  000003f2`);

/** The text of the line beside a view. */
const LINE = `const line = (id) => [...document.querySelectorAll("#" + id + "-item p > *")]
    .map((it) => it.textContent).join(" | ");`;

/** An event at a byte of a view, whose first line is at the top. */
const POINT = `${LINE}
  const point = (type, id, byte) => {
    const line = document.querySelectorAll("#" + id + "-hex .line")[Math.floor(byte / 16)];
    const cell = line.children[1 + byte % 16];
    cell.dispatchEvent(new PointerEvent(type, { bubbles: true }));
  };
  const press = (id, ...keys) => {
    const view = document.getElementById(id + "-hex");
    for (const key of keys) view.dispatchEvent(new KeyboardEvent("keydown", { key, bubbles: true }));
  };`;

/** The bytes that have a mark, as addresses. */
const MARKED = `const marked = (id, name) => [...document.querySelectorAll("#" + id + "-hex ." + name)].map((it) => {
    const line = it.parentNode;
    return parseInt(line.firstChild.textContent, 16) + [...line.children].indexOf(it) - 1;
  }).map((it) => it.toString(16)).join(" ");`;

export const pointed = (page, id, byte, type = "pointermove") =>
  page.in(`${POINT} point(values[2], values[0], values[1]); return line(values[0])`, id, byte, type);

async function holdLines(page, hold, name, id, lines) {
  for (const [byte, wanted] of lines) hold(`${name}, ${id} byte ${byte}`, wanted, await pointed(page, id, byte));
}

const SUM_FILE = [
  [0x00, "00000000 | HEADER: block word | 000003f3"],
  [0x07, "00000004 | HEADER: names of resident libraries | 00000000 | none"],
  [0x08, "00000008 | HEADER: size of the table | 00000002 | 2 hunks"],
  [0x13, "00000010 | HEADER: last hunk | 00000001 | hunk 1"],
  [0x14, "00000014 | HEADER: size of hunk 0 | 0000000c | 12 longwords, 48 bytes, any memory"],
  [0x1b, "00000018 | HEADER: size of hunk 1 | 00000003 | 3 longwords, 12 bytes, any memory"],
  [0x1c, "0000001c | hunk 0, CODE: block word | 000003e9 | a block of 56 bytes"],
  [0x20, "00000020 | hunk 0, CODE: size | 0000000c | 12 longwords, 48 bytes"],
  [0x25, "00000024 | hunk 0, CODE: content at offset 00000000 | 41f9 | → memory 00021000"],
  [
    0x26,
    "00000026 | hunk 0, CODE: content at offset 00000002 | 00000020 | the base of hunk 0 is added" +
      " | → hunk 0 + 00000020 = 00021020 | → memory 00021002",
  ],
  [0x2b, "0000002a | hunk 0, CODE: content at offset 00000006 | 43f9 | → memory 00021006"],
  [0x55, "00000054 | hunk 0, RELOC32: block word | 000003ec | a block of 32 bytes, 2 items"],
  [0x58, "00000058 | hunk 0, RELOC32: count | 00000001 | 1 offset for hunk 0"],
  [0x68, "00000068 | hunk 0, RELOC32: target | 00000001 | hunk 1 | → hunk 1 + 00000000 = 00021030"],
  [
    0x6f,
    "0000006c | hunk 0, RELOC32: offset 1 of 1 | 00000008 | the base of hunk 1 is added there" +
      " | → hunk 0 + 00000008 = 00021008",
  ],
  [0x70, "00000070 | hunk 0, RELOC32: end | 00000000 | no more follow in this block"],
  [0x7c, "0000007c | hunk 1, BSS: size | 00000003 | 3 longwords, 12 bytes"],
];

const SUM_MEMORY = [
  [0x00, "00021000 | hunk 0 + 00000000, CODE | 41f9 | → byte 00000024 of the file"],
  [
    0x0b,
    "00021008 | hunk 0 + 00000008, CODE | 00021034 | the base of hunk 1 is added" +
      " | → hunk 1 + 00000004 = 00021034 | → byte 0000002c of the file",
  ],
  [0x2f, "0002102c | hunk 0 + 0000002c, CODE | 00044444 | → byte 00000050 of the file"],
  [0x30, "00021030 | hunk 1 + 00000000, BSS: zero, not in the file | 00000000"],
];

const SYMBOLS_FILE = [
  [0x18, "00000018 | HEADER: size of hunk 1 | c0000001 | 1 longword, 4 bytes, memory by attributes"],
  [0x1c, "0000001c | HEADER: memory attributes of hunk 1 | 00010002"],
  [0x20, "00000020 | HEADER: size of hunk 2 | 00000001 | 1 longword, 4 bytes, any memory"],
  [0x28, "00000028 | hunk 0, NAME: length of the name | 00000001 | 1 longword"],
  [0x2c, "0000002c | hunk 0, NAME: name | 74000000 | t"],
  [0x44, "00000044 | hunk 0, SYMBOL: name | 676f0000 | go"],
  [0x48, "00000048 | hunk 0, SYMBOL: value | 00000004 | offset in its hunk | → hunk 0 + 00000004 = 00021004"],
  [0x4c, "0000004c | hunk 0, SYMBOL: symbol | 00000001 | 1 longword of name: end"],
  [
    0x54,
    "00000054 | hunk 0, SYMBOL: value | 00000008 | offset in its hunk | → hunk 0 + 00000008 = 00021008, outside of it",
  ],
];

const OBJECT_FILE = [
  [0x00, "00000000 | UNIT 0: block word | 000003e7 | 2 hunks"],
  [0x08, "00000008 | UNIT 0: name | 61000000 | a"],
  [0x14, "00000014 | unit 0, hunk 0, CODE: content at offset 00000000 | 4eb9"],
  [0x17, "00000016 | unit 0, hunk 0, CODE: content at offset 00000002 | 00000000 | REF32 _f"],
  [0x1a, "0000001a | unit 0, hunk 0, CODE: content at offset 00000006 | 4ef9"],
  [
    0x1c,
    "0000001c | unit 0, hunk 0, CODE: content at offset 00000008 | 00000004 | RELOC32 to hunk 1 | → hunk 1 + 00000004",
  ],
  [0x38, "00000038 | unit 0, hunk 0, EXT: REF32 entry | 81000001 | 1 longword of name: _f"],
  [0x40, "00000040 | unit 0, hunk 0, EXT: count | 00000001 | 1 offset"],
  [0x44, "00000044 | unit 0, hunk 0, EXT: offset 1 of 1 | 00000002 | refers to the name there | → hunk 0 + 00000002"],
  [0x50, "00000050 | unit 0, hunk 0, EXT: value | 00000006 | offset in its hunk | → hunk 0 + 00000006"],
  [0x5c, "0000005c | unit 0, hunk 0, EXT: value | 00001234 | absolute"],
  [0x60, "00000060 | unit 0, hunk 0, EXT: end | 00000000 | no more follow in this block"],
  [0x78, "00000078 | unit 0, hunk 1, DEBUG: block word | 000003f1 | a block of 12 bytes"],
  [0x80, "00000080 | unit 0, hunk 1, DEBUG: data at 00000000 | 12345678"],
];

/** The caret is moved by keys, and Enter goes where its longword leads to. */
async function compareKeys(page, hold) {
  await page.hex(SUM);
  const moved = `${POINT} press("memory", "End", "Home", "ArrowDown", "ArrowRight", "ArrowUp", "ArrowRight");
    return line("memory")`;
  const relocated = "00021002 | hunk 0 + 00000002, CODE | 00021020 | the base of hunk 0 is added";
  const leads = "→ hunk 0 + 00000020 = 00021020 | → byte 00000026 of the file";
  hold("the caret that keys move", `${relocated} | ${leads}`, await page.in(moved));
  const followed = await page.in(`${POINT} ${MARKED} press("memory", "Enter");
    return [marked("memory", "picked"), marked("file", "picked")].join()`);
  hold("what Enter leads to", "21020 21021 21022 21023,44 45 46 47", followed);
  const kept = await page.in(`${POINT} ${MARKED} point("pointermove", "memory", 5); point("pointerleave", "memory", 5);
    document.getElementById("memory-hex").dispatchEvent(new PointerEvent("pointerleave"));
    return marked("memory", "caret") + " " + line("memory").slice(0, 8)`);
  hold("the caret behind the pointer", "21020 00021020", kept);
  const clicked = `${POINT} ${MARKED} point("click", "file", 0x2d); document.querySelector("#file-item button").click();
    return [marked("memory", "picked"), line("memory")].join()`;
  const bss = "21034 21035 21036 21037,00021034 | hunk 1 + 00000004, BSS: zero, not in the file | 00000000";
  hold("what a button leads to", bss, await page.in(clicked));
  const double = `${POINT} ${MARKED} point("click", "file", 0x60); point("dblclick", "file", 0x60);
    return marked("file", "picked")`;
  hold("what a double click leads to", "26 27 28 29", await page.in(double));
}

async function compareSymbols(page, hold) {
  await page.hex(SYMBOLS);
  await holdLines(page, hold, "symbols", "file", SYMBOLS_FILE);
  const rows = `document.getElementById("tab-symbols").click();
    return [...document.querySelectorAll("#list-panel [data-row]")].map((it) => it.children[3].textContent).join()`;
  hold("the addresses of symbols", "00021004,00021008,00021008", await page.in(rows));
  hold("the bytes at which symbols begin", "21004 21008", await page.in(`${MARKED} return marked("memory", "symbol")`));
  const names = await page.in(`return document.querySelector("#memory-hex .names").textContent`);
  hold("the symbols that begin in a line", "go x", names);
  const zero = "00021004 | hunk 0 + 00000004, CODE: zero, not in the file | 00000000 | go";
  hold("a byte at a symbol", zero, await pointed(page, "memory", 5));
  const x = "00021008 | hunk 1 + 00000000, DATA | 00021004 | x, the base of hunk 0 is added";
  const leads = "→ hunk 0 + 00000004 = 00021004 | → byte 00000068 of the file";
  hold("a longword at a symbol", `${x} | ${leads}`, await pointed(page, "memory", 8));
  const behind = "0002100c | hunk 2 + 00000000, BSS: zero, not in the file | 00000000";
  hold("a byte of a hunk without symbols", behind, await pointed(page, "memory", 12));
  const pick = (row) => page.in(`${MARKED} document.querySelectorAll("#list-panel [data-row]")[values[0]].click();
    return [marked("memory", "picked"), marked("file", "picked")].join()`, row);
  hold("a symbol that is picked", "21004 21005 21006 21007,40 41 42 43 44 45 46 47 48 49 4a 4b", await pick(0));
  hold("a symbol in hunk 1", "21008 21009 2100a 2100b,84 85 86 87 88 89 8a 8b 8c 8d 8e 8f", await pick(2));
}

/** Another base, by which addresses are others. */
async function compareBase(page, hold) {
  await page.hex(SUM);
  await pointed(page, "file", 0x24, "click");
  await page.shows(() => page.in(`const base = document.getElementById("base"); base.value = "40";
    base.dispatchEvent(new Event("change"))`));
  const wanted = "00000048 | hunk 0 + 00000008, CODE | 00000074 | the base of hunk 1 is added";
  const first = "00000024 | hunk 0, CODE: content at offset 00000000 | 41f9 | → memory 00000040";
  hold("the caret at another base", first, await page.in(`${LINE} return line("file")`));
  const leads = "→ hunk 1 + 00000004 = 00000074 | → byte 0000002c of the file";
  hold("a byte at another base", `${wanted} | ${leads}`, await pointed(page, "memory", 8));
}

export async function compareCursor(page, hold) {
  await page.hex(SUM);
  await holdLines(page, hold, "sum", "file", SUM_FILE);
  await holdLines(page, hold, "sum", "memory", SUM_MEMORY);
  const under = `${POINT} ${MARKED} point("pointermove", "file", 0x2a); return marked("file", "item")`;
  hold("the bytes of the item under the pointer", "2a 2b", await page.in(under));
  const blocks = `return [...document.querySelectorAll("#file-hex .names")].map((it) => it.textContent).join()`;
  hold("the blocks that begin in each line", "HEADER,CODE,RELOC32,END BSS,END", await page.in(blocks));
  await compareKeys(page, hold);
  await compareSymbols(page, hold);
  await page.hex(OBJECT);
  await holdLines(page, hold, "object", "file", OBJECT_FILE);
  await compareBase(page, hold);
  await page.hex(`${SUM.slice(0, 0x58 * 2)}00000001 00000002`.replace(" ", ""));
  const refused = "0000005c | refused here, BadTarget | 00000002";
  hold("what is told of a refused file", refused, await page.in(`${LINE} return line("file")`));
  const another = "00000058 | in the block that is refused | 00000001";
  hold("another longword of it", another, await pointed(page, "file", 0x5b));
  await page.hex(`000003e70000001a${"61".repeat(104)}`);
  hold("a long name", `00000008 | UNIT 0: name | ${"a".repeat(100)}…`, await pointed(page, "file", 8));
  await page.hex(`${SUM}00`);
  hold("a byte after the file", "00000084 | after the file | 00", await pointed(page, "file", 0x84));
}
