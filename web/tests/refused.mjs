// Files that are refused: what is shown of their table and blocks before the fault, where the fault is drawn, and the
// reading of the plain spelling beside them. What is wanted was written by hand, from the longwords of each file.

import { pointed } from "./cursor.mjs";

const digits = (text) => text.replace(/\s+/g, "");

/** Two hunks of 8 bytes: CODE with a symbol, and its END; and DATA, before its relocation of hunk 2. */
const BROKEN = digits(`
  000003f3 00000000 00000002 00000000 00000001 00000002 40000002
  000003e9 00000002 4e714e71 4e714e75 000003f0 00000001 5f6d0000 00000004 00000000 000003f2
  000003ea 00000001 00000007 000003ec 00000001 00000002 00000000 00000000 000003f2`);
/** The same up to the END of hunk 0. */
const CUT = BROKEN.slice(0, 2 * 68);
/** A header whose last hunk is 5, of two. */
const HEADER = digits("000003f3 00000000 00000002 00000000 00000005");
/** A unit of CODE with a relocation of hunk 2, an EXT block and END, and of a hunk with a name, before an OVERLAY. */
const OBJECT = digits(`
  000003e7 00000001 61000000 000003e9 00000001 4e714e75 000003ec 00000001 00000002 00000004 00000000
  000003ef 01000001 5f610000 00000002 81000001 5f620000 00000001 00000000 00000000 000003f2
  000003e8 00000001 62000000 000003f5 00000000`);
/** The same, but for the target: hunk 1, of which no content stands before the fault. */
const NAMED = `${OBJECT.slice(0, 2 * 32)}00000001${OBJECT.slice(2 * 36)}`;
/** A unit of a BSS, and the word of a second unit. */
const UNITS = digits("000003e7 00000000 000003eb 00000001 000003f2 000003e7 00000005");
/** CODE of 8 bytes, a short block of offset 0, and no END. */
const WIDE = digits(`
  000003f3 00000000 00000001 00000000 00000000 00000002
  000003e9 00000002 00000000 00000000 000003fc 00010000 00000000`);
/** The same, but for the target: hunk 5 at byte 46. */
const BAD_WIDE = WIDE.slice(0, 2 * 44) + "0001000500000000";

const OTHERWISE = "In another spelling, with 1 block of short relocations and 1 END left out";
const SHORT = "Begins as a load file: refused at byte 40 (00000028), ShortReloc (13).";
const BEFORE_SHORT =
  "The fault is where a block of hunk 0 would begin, at byte 40 (00000028). " +
  "Before it stand 40 bytes, which are shown: the header, 1 block, 0 of 1 hunk whole.";

/** WIDE in its plain spelling. */
const PLAIN = `${WIDE.slice(0, 2 * 40)}${digits("000003ec 00000001 00000000 00000000 00000000 000003f2")}`;

/** All digits of a view. */
const BYTES = `const digits = "-hex .line > :is(span, b):not(.at, .text, .names)";
  return [...document.querySelectorAll("#" + values[0] + digits)]
  .map((it) => it.textContent).join("").trim()`;
const TEXT = `return document.getElementById(values[0]).textContent`;
const HIDDEN = `return values[0].filter((id) => document.getElementById(id).closest("[hidden]")).join()`;
const TABS = `return [...document.querySelectorAll("[role=tab]")].map((it) => it.textContent).join()`;
const ROWS = `document.getElementById("tab-" + values[0]).click();
  const rows = [...document.querySelectorAll("#list-panel [data-row]")];
  return rows.map((row) => [...row.children].slice(0, values[1]).map((it) => it.textContent).join(" ")).join()`;
const MARKED = `const marked = (name) => document.querySelectorAll("#file-hex ." + name).length;
  return ["broken", "refused", "after"].map(marked).join()`;
const READINGS = `const buttons = [...document.querySelectorAll("#readings button")];
  return buttons.map((it) => it.getAttribute("aria-pressed") + " " + it.textContent).join()`;
/** The colour of the strip at a byte. */
const COLOUR = `const canvas = document.getElementById("file-picture");
  const x = Math.floor(((values[0] + 0.5) / values[1]) * canvas.width);
  return [...canvas.getContext("2d").getImageData(x, 10, 1, 1).data].slice(0, 3).join()`;
/** What the strip says at its end, and of the part before. */
const STRIP = `const canvas = document.getElementById("file-picture");
  const said = ["End", "ArrowLeft", "ArrowLeft"].map((key) => {
    canvas.dispatchEvent(new KeyboardEvent("keydown", { key, bubbles: true }));
    return canvas.getAttribute("aria-valuetext");
  });
  return said.join("\\n")`;

class Refused {
  constructor(page, hold) {
    this.page = page;
    this.hold = hold;
  }

  text(id) {
    return this.page.in(TEXT, id);
  }

  /** Shows a file, and holds the verdict, and what stands before the fault, to what is wanted. */
  async show(what, file, verdict, before) {
    this.what = what;
    await this.page.hex(file);
    this.hold(`${what}, the verdict`, verdict, await this.text("verdict"));
    this.hold(`${what}, before the fault`, before, await this.text("before"));
  }

  async same(which, wanted, body, ...values) {
    this.hold(`${this.what}, ${which}`, wanted, await this.page.in(body, ...values));
  }

  async loadFile() {
    const before = "Before it stand 80 bytes, which are shown: the header, 4 blocks, 1 of 2 hunks whole.";
    const fault = "The fault is in the RELOC32 block of hunk 1, which begins at byte 80 (00000050).";
    const verdict = "Begins as a load file: refused at byte 88 (00000058), BadTarget (23).";
    await this.show("a bad target", BROKEN, verdict, `${fault} ${before}`);
    await this.same("its lists", "Hunks 2,Blocks 4,Symbols 1", TABS);
    await this.same("its hunks", "0 8 any whole,1 8 chip in part", ROWS, "hunks", 4);
    const blocks = "0000001c 0 CODE 16,0000002c 0 SYMBOL 20,00000040 0 END 4,00000044 1 DATA 12";
    await this.same("its blocks", blocks, ROWS, "blocks", 4);
    await this.same("its symbols", "00000030 0 00000004 _m", ROWS, "symbols", 4);
    await this.same("its marks", "8,4,12", MARKED);
    const parts = ["memory", "save-stripped", "readings", "file-picture", "lists"];
    await this.same("what is not shown", "memory,save-stripped,readings", HIDDEN, parts);
    const strip = [
      "after the fault, not read, 12 bytes from 0000005c",
      "the block that is refused, up to the fault, 12 bytes from 00000050",
      "DATA, hunk 1, 12 bytes from 00000044",
    ];
    await this.same("its strip", strip.join("\n"), STRIP);
    // The colour of --bad: b3261e.
    await this.same("the fault in its strip", "179,38,30", COLOUR, 89, 104);
    this.hold("a bad target, its legend", "CODEDATASYMBOLHEADER, ENDthe fault", await this.text("file-legend"));
    const item = await this.text("file-item");
    this.hold("a bad target, what stands at the fault", "00000058refused here, BadTarget00000002", item);
  }

  async ends() {
    const fault = "The fault is where a block of hunk 1 would begin, at byte 68 (00000044).";
    const before = "Before it stand 68 bytes, which are shown: the header, 3 blocks, 1 of 2 hunks whole.";
    const verdict = "Begins as a load file: refused at byte 68 (00000044), Truncated (26).";
    await this.show("a file that ends", CUT, verdict, `${fault} ${before}`);
    await this.same("its hunks", "0 8 any whole,1 8 chip not read", ROWS, "hunks", 4);
    await this.same("its marks", "0,4,0", MARKED);
    await this.show("a header", HEADER, "Begins as a load file: refused at byte 16 (00000010), LastHunk (8).", "");
    await this.same("what is not shown", "lists,file-picture", HIDDEN, ["lists", "file-picture"]);
    await this.same("its marks", "0,4,0", MARKED);
  }

  async objectFiles() {
    const fault = "The fault is where a block of unit 0, hunk 1 would begin, at byte 96 (00000060).";
    const before = "Before it stand 96 bytes, which are shown: 1 unit, 5 blocks.";
    const verdict = "Begins as an object file: refused at byte 96 (00000060), Overlay (11).";
    await this.show("an object file", OBJECT, verdict, `${fault} ${before}`);
    await this.same("its lists", "Units 1,Blocks 5,Relocations 1,External names 2,References 1", TABS);
    const blocks = "0000000c 0.0 CODE,00000018 0.0 RELOC32,0000002c 0.0 EXT,00000050 0.0 END,00000054 0.1 NAME";
    await this.same("its blocks", blocks, ROWS, "blocks", 3);
    await this.show("a hunk without content", NAMED, verdict, `${fault} ${before}`);
    const target =
      "00000020 | unit 0, hunk 0, RELOC32: target | 00000001 | hunk 1 | → hunk 1 + 00000000, outside of it";
    this.hold("a hunk without content, what leads to it", target, await pointed(this.page, "file", 0x20));
    const second = "The fault is in the UNIT, which begins at byte 20 (00000014).";
    const shown = "Before it stand 20 bytes, which are shown: 1 unit, 2 blocks.";
    const refused = "Begins as an object file: refused at byte 28 (0000001c), Truncated (26).";
    await this.show("a unit", UNITS, refused, `${second} ${shown}`);
    await this.same("its marks", "8,4,0", MARKED);
  }

  choose(i) {
    return this.page.shows(() => this.page.in(`document.querySelectorAll("#readings button")[values[0]].click()`, i));
  }

  async spellings() {
    const accepted = "a load file: 1 hunk, 8 bytes in memory";
    const strict = "As it is refused at byte 40, ShortReloc";
    const plain = `In its plain spelling ${accepted}`;
    const refused = SHORT.slice("Begins as a load file: ".length);
    const told = "It is shown as readers of this spelling take it. As it is, it is";
    const shown = `${OTHERWISE}, ${accepted}. ${told} ${refused}`;
    await this.show("another spelling", WIDE, shown, "");
    await this.placesOfSpelling();
    await this.same("its readings", `false ${strict},true ${plain}`, READINGS);
    await this.same("its marks", "0,0,0", MARKED);
    await this.choose(0);
    this.hold("another spelling as it is", SHORT, await this.text("verdict"));
    this.hold("another spelling as it is, before the fault", BEFORE_SHORT, await this.text("before"));
    await this.same("its readings", `true ${strict},false ${plain}`, READINGS);
    await this.same("its marks", "0,4,8", MARKED);
    await this.page.shows(() => this.page.in(`document.getElementById("base").dispatchEvent(new Event("change"))`));
    this.hold("another spelling as it is, at another address", SHORT, await this.text("verdict"));
    this.hold("another spelling as it is, its legend", "HEADERCODEthe fault", await this.text("file-legend"));
    await this.choose(1);
    this.hold("another spelling, plain again", shown, await this.text("verdict"));
  }

  /** What is shown is the file, and its places are those of the file: of 52 bytes, with the short block at 28. */
  async placesOfSpelling() {
    await this.same("its bytes", WIDE, BYTES, "file");
    const blocks = "00000018 0 CODE 16,00000028 0 RELOC32SHORT 12,00000034 0 END 0";
    await this.same("its blocks", blocks, ROWS, "blocks", 4);
    await this.same("its relocations", "00000030 0 00000000 0", ROWS, "relocations", 4);
    const picked = `document.querySelector("#list-panel [data-row]").click();
      return [...document.querySelectorAll("#file-hex .picked")].map((it) => it.textContent).join()`;
    await this.same("the bytes of its relocation", "00,00", picked);
    const lines = {
      0x2d: "0000002c | hunk 0, RELOC32SHORT: count | 0001 | 1 offset for hunk 0",
      0x30: "00000030 | hunk 0, RELOC32SHORT: offset 1 of 1 | 0000 | the base of hunk 0 is added there" +
        " | → hunk 0 + 00000000 = 00021000",
      0x32: "00000032 | hunk 0, RELOC32SHORT: end | 0000 | no more follow in this block",
    };
    for (const [byte, wanted] of Object.entries(lines)) {
      this.hold(`another spelling, byte ${byte}`, wanted, await pointed(this.page, "file", Number(byte)));
    }
    const memory = "00021000 | hunk 0 + 00000000, CODE | 00021000 | the base of hunk 0 is added" +
      " | → hunk 0 + 00000000 = 00021000 | → byte 00000020 of the file";
    this.hold("another spelling, its memory", memory, await pointed(this.page, "memory", 1));
    const names = `return [...document.querySelectorAll("#file-hex .names")].map((it) => it.textContent).join()`;
    await this.same("the names beside its bytes", "HEADER,CODE,RELOC32SHORT", names);
    await this.same("what is advised", false, `return /--wide/.test(document.getElementById("why").textContent)`);
    this.hold("its plain spelling, saved", PLAIN, await this.page.saved("save-plain"));
  }

  async why() {
    return (await this.text("why")).split("\n")[0];
  }

  async foreign() {
    for (const [what, file, reason, why] of FOREIGN) {
      const verdict = `Neither a load file nor an object file: refused at byte 0 (00000000), ${reason}.`;
      await this.show(what, file, verdict, "");
      this.hold(`${what}, why`, why, await this.why());
    }
    const fault = "The fault is where a block of hunk 0 would begin, at byte 24 (00000018).";
    const before = "Before it stand 24 bytes, which are shown: the header, no block, 0 of 1 hunk whole.";
    const verdict = "Begins as a load file: refused at byte 24 (00000018), UnknownBlock (16).";
    await this.show("PowerPC code", POWERPC, verdict, `${fault} ${before}`);
    const told = "Not supported: a program with PowerPC code, in a CODE block of its own type.";
    this.hold("PowerPC code, why", told, await this.why());
  }

  async badSpelling() {
    await this.show("a bad target in another spelling", BAD_WIDE, SHORT, BEFORE_SHORT);
    const refused = "In its plain spelling refused at byte 46, BadTarget";
    await this.same("its readings", `true As it is refused at byte 40, ShortReloc,false ${refused}`, READINGS);
    await this.choose(1);
    const plain = `${OTHERWISE}. Read as that, it is refused at byte 46 (0000002e), BadTarget (23).`;
    this.hold("a bad target in plain spelling", plain, await this.text("verdict"));
    const fault = "The fault is in the RELOC32SHORT block of hunk 0, which begins at byte 40 (00000028).";
    this.hold("its fault in plain spelling", fault, (await this.text("before")).split(" Before")[0]);
    await this.same("its bytes", BAD_WIDE, BYTES, "file");
    const said = await pointed(this.page, "file", 46);
    this.hold("what stands at its fault", "0000002e | refused here, BadTarget | 00050000", said);
  }
}

/** An archive, a text, a file of nothing that is known, and one of two bytes, each with the first line of why it is
 * refused. */
const FOREIGN = [
  ["an archive", "20002d6c68352d00000000", "NotLoadFile (1)", "No hunk file: LhA archive, by its first bytes."],
  ["a text", Buffer.from("notes\n").toString("hex"), "NotLoadFile (1)", "No hunk file: text, by its first bytes."],
  ["a file of nothing known", "00010203", "NotLoadFile (1)", "No hunk file: the first longword is not 3F3."],
  ["two letters", Buffer.from("ab").toString("hex"), "Truncated (26)", "No hunk file: text, by its first bytes."],
];
/** The header of one hunk, and a block with a type of PowerPC code. */
export const POWERPC = digits("000003f3 00000000 00000001 00000000 00000000 00000001 000004e9 00000001 4e800020 000003f2");

/** Holds what is shown of files that are refused. */
export async function compareRefused(page, hold) {
  const refused = new Refused(page, hold);
  await page.browser.size(1280, 900);
  await refused.loadFile();
  await refused.ends();
  await refused.objectFiles();
  await refused.spellings();
  await refused.badSpelling();
  await refused.foreign();
}
