// Pictures of a file and of its memory, a column for each of so many parts.

import { KINDS } from "../../bindings/javascript/kinds.js";
import { drawFault, partAtFault } from "./front.js";
import { blockColour, blockName, counted, hex, hunkColour, lastAt, lastOf, nameText, whereText } from "./names.js";
import { filePlace, textPlace } from "./places.js";

/** Sizes a canvas to the pixels that it has on the screen. */
export function prepared(canvas) {
  const scale = window.devicePixelRatio || 1;
  canvas.width = Math.max(1, Math.round(canvas.clientWidth * scale));
  canvas.height = Math.max(1, Math.round(canvas.clientHeight * scale));
  const drawing = canvas.getContext("2d");
  drawing.clearRect(0, 0, canvas.width, canvas.height);
  return drawing;
}

/** The share of a range of bytes that is not zero, by 256 of them at most. */
function fullness(bytes, from, to) {
  const step = Math.max(1, Math.floor((to - from) / 256));
  let seen = 0;
  let full = 0;
  for (let i = from; i < to; i += step) {
    seen += 1;
    if (bytes[i] !== 0) full += 1;
  }
  return seen === 0 ? 0 : full / seen;
}

/** The memory: each hunk in its colour, darker where it is not zero, and below it the relocated longs in their
 * target's. */
function drawMemory(canvas, file, memory) {
  const drawing = prepared(canvas);
  const { width, height } = canvas;
  const low = Math.round(height * 0.7);
  for (let x = 0; x < width && memory.length > 0; x++) {
    const from = Math.floor((x * memory.length) / width);
    const to = Math.max(from + 1, Math.floor(((x + 1) * memory.length) / width));
    drawing.fillStyle = hunkColour(lastAt(file.starts, from), 86 - 36 * fullness(memory, from, to));
    drawing.fillRect(x, 0, 1, low);
  }
  const { places, targets } = file.relocated();
  const long = Math.max(1, Math.floor((4 * width) / memory.length));
  let last = -1;
  for (let i = 0; i < places.length; i++) {
    const x = Math.floor((places[i] * width) / memory.length);
    if (x === last) continue;
    last = x;
    drawing.fillStyle = hunkColour(targets[i], 45);
    drawing.fillRect(x, low + 1, long, height - low - 1);
  }
}

/** The file: each block in the colour of its kind, with a line before it where there is room. */
function drawFile(canvas, file) {
  const drawing = prepared(canvas);
  const { width, height } = canvas;
  const { length } = file.input;
  const { end } = file;
  let before = -1;
  for (let x = 0; x < width && length > 0; x++) {
    const at = filePlace(Math.floor((x * length) / width));
    const block = at < end ? lastAt(file.blockPlaces, file.inText(at)) : -2;
    const kind = block >= 0 ? file.blocks.get(block, "kind") : null;
    const isNew = block !== before && length < 4 * width;
    drawing.fillStyle = block === -2 ? "transparent" : blockColour(kind, isNew ? 35 : 68);
    drawing.fillRect(x, 0, 1, height);
    before = block;
  }
}

const linear = (length) => ({ length, share: (at) => at / length, at: (share) => share * length });
const bytesText = (from, to) => `${counted(to - from, "byte")} from ${hex(from)}`;

/** The header of a load file, or a UNIT and its name: what is before the first block, or between two. */
function headText(file, from) {
  if (file.table) return "HEADER";
  const { rows } = file.list("units");
  const unit = lastOf(rows.length, (i) => rows.get(i, "place"), from);
  return `UNIT ${unit} ${nameText(file.bytes, rows.at(unit))}`.trimEnd();
}

/** Where the unit that follows a byte begins, or the next block. */
function nextPlace(file, at, block) {
  const next = block + 1 < file.blockPlaces.length ? file.blockPlaces[block + 1] : file.about.length;
  if (file.table) return next;
  const { rows } = file.list("units");
  const unit = lastOf(rows.length, (i) => rows.get(i, "place"), at) + 1;
  return unit < rows.length ? Math.min(next, rows.get(unit, "place")) : next;
}

/** The block of a file to which a byte belongs, or its header, or what comes after it: {from, to, text}.
 * @param {import("./file.js").Examined} file
 * @param {import("./places.js").FilePlace} at */
export function partOfFile(file, at) {
  const { length } = file.input;
  if (at >= file.end && file.about.refusal) return partAtFault(file, at);
  if (at >= file.end) return { from: file.end, to: length, text: `after the file, ${bytesText(file.end, length)}` };
  const part = partOfText(file, file.inText(at));
  const from = file.inFile(textPlace(part.from));
  const to = file.inFile(textPlace(part.to));
  return { from, to, text: `${part.text}, ${bytesText(from, to)}` };
}

function partOfText(file, at) {
  const block = lastAt(file.blockPlaces, at);
  const from = block < 0 ? 0 : file.blockPlaces[block];
  const behind = block < 0 ? 0 : from + file.blocks.get(block, "bytes");
  if (block >= 0 && at < behind) {
    const row = file.blocks.at(block);
    return { from, to: behind, text: `${blockName(file.typeOf(row) ?? row.kind)}, ${whereText(file, row)}` };
  }
  const begins = file.table ? behind : unitPlace(file, at);
  const to = nextPlace(file, at, block);
  return { from: begins, to, text: headText(file, begins) };
}

function unitPlace(file, at) {
  const { rows } = file.list("units");
  return rows.get(lastOf(rows.length, (i) => rows.get(i, "place"), at), "place");
}

export function fileScene(file, go) {
  const { length } = file.input;
  const draw = (canvas) => {
    drawFile(canvas, file);
    if (file.about.refusal) drawFault(canvas, file);
  };
  return { ...linear(length), part: (at) => partOfFile(file, at), draw, go };
}

/** The colour of each kind of block that a file has; headers have that of END. */
export function fileLegend(file) {
  const head = file.table ? "HEADER" : "UNIT";
  const name = (kind) => (kind === KINDS.END ? `${head}, END` : blockName(kind));
  const parts = file.kinds().map((kind) => [blockColour(kind, 68), name(kind)]);
  if (!file.about.refusal) return parts;
  const header = file.kinds().includes(KINDS.END) ? [] : [[blockColour(null, 68), head]];
  return [...header, ...parts, ["var(--bad)", "the fault"]];
}

function partOfMemory(file, memory, at) {
  const hunk = lastAt(file.starts, at);
  const from = file.starts[hunk];
  const to = hunk + 1 < file.starts.length ? file.starts[hunk + 1] : memory.length;
  const texts = [`hunk ${hunk}`, file.contents().name(hunk), bytesText(file.base + from, file.base + to)];
  return { from, to, text: texts.filter(Boolean).join(", ") };
}

export function memoryScene(file, memory, go) {
  const part = (at) => partOfMemory(file, memory, at);
  return { ...linear(memory.length), part, draw: (canvas) => drawMemory(canvas, file, memory), go };
}
