// What stands before the fault of a file that is refused: the front that the library finds, and how the page tells of
// it.

import { KINDS } from "../../bindings/javascript/kinds.js";
import { blockName, counted, hex, longAt } from "./names.js";

const LONG = 4;
/** The bytes of a hunk that closes a front: BSS, its size, and END. Where the open hunk has its content, END alone
 * closes it. */
const EMPTY_HUNK = 12;
/** The fewest pixels that show the fault in the strip of the file. */
const NARROWEST = 3;

/** The first rows of a list. */
class FirstRows {
  constructor(rows, length) {
    this.rows = rows;
    this.length = Math.min(rows.length, length);
  }

  at(i) {
    return this.rows.at(i);
  }

  get(i, name) {
    return this.rows.get(i, name);
  }
}

export class Front {
  /** Of what `hunk.front` answers. */
  constructor({ hunks, bytes, text }) {
    const closing = text.length - bytes;
    const empty = Math.floor(closing / EMPTY_HUNK);
    const ends = closing % EMPTY_HUNK > 0 ? 1 : 0;
    this.text = text;
    this.length = bytes;
    this.hunks = hunks;
    this.isOpen = closing > 0;
    this.hasContent = ends > 0;
    this.closingBlocks = 2 * empty + ends;
    /** How many hunks of a load file are whole: the next is open. */
    this.whole = hunks - empty - ends;
  }

  /** A list of the text, without what closes it. What is wrong with offsets, or suspicious, only a whole file shows. */
  only(name, listed) {
    const count = { blocks: listed.count - this.closingBlocks, check: 0, warnings: 0 }[name] ?? listed.count;
    return { ...listed, count, rows: new FirstRows(listed.rows, count) };
  }
}

// ---- In words.

/** Whose block comes next, where a front ends; nothing where the blocks of an object file are too many to be listed. */
function openText({ front, blocks, table }) {
  if (table) return ` of hunk ${front.whole}`;
  if (!front.isOpen || blocks.length === 0) return "";
  const last = blocks.at(blocks.length - 1);
  return ` of unit ${last.unit}, hunk ${last.hunk}`;
}

function whereText(file) {
  const { front, input, about } = file;
  const begins = `byte ${file.end} (${hex(file.end)})`;
  if (about.refusal.place === front.length) return `where a block${openText(file)} would begin, at ${begins}`;
  const kind = longAt(input, file.end) & 0x1fffffff;
  const what = kind === KINDS.UNIT ? "UNIT" : `${blockName(kind)} block${openText(file)}`;
  return `in the ${what}, which begins at ${begins}`;
}

/** Shows the lines of a text, what stands in front of the first colon of each in bold. */
export function showLines(box, text) {
  const parts = text.split("\n").flatMap((line, i) => {
    const end = line.indexOf(":") + 1;
    const head = Object.assign(document.createElement("strong"), { textContent: line.slice(0, end) });
    return [i > 0 ? "\n" : "", head, line.slice(end)];
  });
  box.replaceChildren(...parts);
}

/** Where the fault is, and what stands before it. */
export function beforeText(file) {
  const { front } = file;
  if (!front) return "";
  const { count } = file.list("blocks");
  const blocks = count === 0 ? "no block" : counted(count, "block");
  const parts = file.table
    ? `the header, ${blocks}, ${front.whole.toLocaleString("en")} of ${counted(front.hunks, "hunk")} whole`
    : `${counted(file.list("units").count, "unit")}, ${blocks}`;
  return `The fault is ${whereText(file)}. Before it stand ${counted(file.end, "byte")}, which are shown: ${parts}.`;
}

/** How much of a hunk of a load file stands before the fault. */
export function stateOfHunk({ front, blocks }, hunk) {
  if (hunk < front.whole) return "whole";
  if (hunk > front.whole) return "not read";
  const isBegun = front.hasContent || (blocks.length > 0 && blocks.get(blocks.length - 1, "hunk") === hunk);
  return isBegun ? "in part" : "not read";
}

// ---- Among the bytes.

/** How a byte is drawn that is of the fault or comes after it; nothing for one that stands before its block. */
export function markAtFault({ fault, front, end }, at) {
  if (at >= fault && at < fault + LONG) return { tone: "refused", title: "refused here" };
  if (!front || at < end) return null;
  if (at < fault) return { tone: "broken", title: "in the block that is refused" };
  return { tone: "after", title: "after the fault, not read" };
}

/** The part of the strip to which a byte belongs that does not stand before the fault's block. */
export function partAtFault({ fault, end, input }, at) {
  const after = Math.min(fault + LONG, input.length);
  const isAfter = at >= after;
  const [from, to] = isAfter ? [after, input.length] : [end, after];
  const what = isAfter ? "after the fault, not read" : "the block that is refused, up to the fault";
  return { from, to, text: `${what}, ${counted(to - from, "byte")} from ${hex(from)}` };
}

/** Draws the fault into the strip of the file, and its block up to it. */
export function drawFault(canvas, { fault, end, input }) {
  const drawing = canvas.getContext("2d");
  const scale = canvas.width / input.length;
  const narrowest = NARROWEST * (canvas.width / canvas.clientWidth);
  const width = Math.max(narrowest, LONG * scale);
  const at = Math.min(fault * scale, canvas.width - width);
  drawing.fillStyle = getComputedStyle(canvas).getPropertyValue("--bad");
  drawing.globalAlpha = 0.35;
  drawing.fillRect(end * scale, 0, at - end * scale, canvas.height);
  drawing.globalAlpha = 1;
  drawing.fillRect(at, 0, width, canvas.height);
}
