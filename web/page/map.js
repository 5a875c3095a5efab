// The map of hunks: a bar for each, with its content and memory, and above it what arcs.js draws.

import { GAP, arcsBetween, drawWays, middle } from "./arcs.js";
import { rowsOfHunk } from "./contents.js";
import { KINDS, MEMORIES } from "../../bindings/javascript/kinds.js";
import { blockColour, blockName, counted, hunkColour, lastOf, memoryColour, memoryName, whereText } from "./names.js";
import { prepared } from "./pictures.js";
import { Ways } from "./ways.js";

/** The most bars of a map: of more hunks some stand in one bar. */
const MOST_BARS = 64;
/** The most hunks of which the label of each says where its relocations lead. */
const MOST_TOLD = 4096;
const BAR = 24;
const BAND = 6;
/** The edge of a bar in which there are warnings. */
const WARNED = 5;

/** The hunks of a file in bars, with what is relocated between them. */
export class HunkMap {
  constructor(file) {
    this.file = file;
    this.contents = file.contents();
    this.hunks = this.contents.count;
    this.count = Math.min(this.hunks, MOST_BARS);
    this.bars = Array.from({ length: this.count }, (_, i) => this.#bar(this.#first(i), this.#first(i + 1)));
    this.arcs = arcsBetween(file, this.count, (hunk) => this.barOf(hunk));
    this.ways = new Ways(file);
  }

  #first(bar) {
    return Math.ceil((bar * this.hunks) / this.count);
  }

  barOf(hunk) {
    return Math.floor((hunk * this.count) / this.hunks);
  }

  #warnings(hunk) {
    return this.file.warned().hunks[hunk] ?? 0;
  }

  /** A bar, with how many of its hunks have each kind of content, from CODE on, and each kind of memory. */
  #bar(first, end) {
    const bar = { first, end, bytes: 0, warnings: 0, kinds: [0, 0, 0], memories: [0, 0, 0, 0] };
    for (let i = bar.first; i < bar.end; i++) {
      bar.bytes += this.contents.bytes(i);
      bar.warnings += this.#warnings(i);
      bar.kinds[this.contents.get(i, "kind") - KINDS.CODE] += 1;
      bar.memories[this.contents.memory(i)] += 1;
    }
    return bar;
  }

  /** A hunk's number: in an object file with its unit. */
  numberText(number) {
    const { contents, file } = this;
    return file.table ? `${number}` : `${contents.get(number, "unit")}.${contents.get(number, "hunk")}`;
  }

  /** What is said of a hunk. */
  text(number) {
    const row = { unit: this.contents.get(number, "unit"), hunk: this.contents.get(number, "hunk") };
    const [memory, bytes] = [memoryName(this.contents.memory(number)), counted(this.contents.bytes(number), "byte")];
    const texts = [whereText(this.file, row), this.contents.name(number), bytes, memory];
    const [first, end] = rowsOfHunk(this.file.list("relocations").rows, row.unit, row.hunk);
    if (end > first) texts.push(counted(end - first, "relocation") + this.#targetsText(number));
    const warnings = this.#warnings(number);
    if (warnings > 0) texts.push(counted(warnings, "warning"));
    return texts.join(", ");
  }

  #targetsText(number) {
    if (this.hunks > MOST_TOLD) return "";
    const ways = this.ways.of(number);
    const wayText = ([to, many]) => `${many.toLocaleString("en")} to hunk ${this.contents.get(to, "hunk")}`;
    return `: ${ways.slice(0, 3).map(wayText).join(", ")}${ways.length > 3 ? ", …" : ""}`;
  }
}

/** Where the bars stand in a picture of this width: each has at least some pixels, and else its share by its bytes. */
function lay(map, width) {
  const total = map.bars.reduce((sum, bar) => sum + bar.bytes, 0) || 1;
  const least = Math.min(22, (0.6 * width) / map.count);
  const free = width - map.count * least;
  let x = 0;
  map.width = width;
  for (const bar of map.bars) {
    bar.x = x;
    bar.width = least + (free * bar.bytes) / total;
    x += bar.width;
  }
}

const kindColour = (kind) => blockColour(KINDS.CODE + kind, 60);

/** A bar in the shares of what is counted. */
function drawShares(drawing, bar, counts, colourOf, y) {
  let x = bar.x;
  for (const [what, many] of counts.entries()) {
    const width = ((bar.width - GAP) * many) / (bar.end - bar.first);
    drawing.fillStyle = colourOf(what);
    drawing.fillRect(x, y, width, BAND);
    x += width;
  }
}

/** What a bar may have as its text, the longest first. */
function barTexts(map, bar) {
  const first = map.numberText(bar.first);
  const number = bar.end - bar.first === 1 ? first : `${first} – ${map.numberText(bar.end - 1)}`;
  const bytes = bar.bytes.toLocaleString("en");
  return [`hunk ${number} · ${bytes} bytes`, `${number} · ${bytes}`, number];
}

function drawBar(drawing, map, bar, y, colours) {
  drawing.fillStyle = hunkColour(bar.first, 75);
  drawing.fillRect(bar.x, y, bar.width - GAP, BAR);
  drawShares(drawing, bar, bar.kinds, kindColour, y + BAR + GAP);
  drawShares(drawing, bar, bar.memories, memoryColour, y + BAR + 2 * GAP + BAND);
  if (bar.warnings > 0) {
    drawing.fillStyle = colours.warn;
    drawing.fillRect(bar.x, y, bar.width - GAP, WARNED);
  }
  const text = barTexts(map, bar).find((it) => drawing.measureText(it).width < bar.width - 8);
  drawing.fillStyle = colours.ink;
  if (text) drawing.fillText(text, middle(bar, 0.5), y + BAR / 2);
}

/** The height that a map needs: of arcs only where there are some. */
export function heightOf(map) {
  const arcs = map.arcs.some(({ from, to }) => from !== to) ? 96 : map.arcs.length > 0 ? 26 : 4;
  return arcs + BAR + 2 * (BAND + GAP);
}

/** Draws a map by the calls of a canvas, in these colours and this width: the height of it comes of that. */
export function paintMap(drawing, map, { ink, warn, font, width }, chosen = null) {
  drawing.font = font;
  drawing.textAlign = "center";
  drawing.textBaseline = "middle";
  lay(map, width);
  const base = heightOf(map) - BAR - 2 * (BAND + GAP);
  drawWays(drawing, map, base, chosen);
  for (const it of map.bars) drawBar(drawing, map, it, base, { ink, warn });
}

/** The font and the colours that a map has where a canvas stands. */
export function styleOf(canvas) {
  const style = getComputedStyle(canvas);
  const [warn, paper] = ["--amber-edge", "--paper"].map((name) => style.getPropertyValue(name));
  return { ink: style.color, warn, paper, font: `12px ${style.fontFamily}`, width: canvas.clientWidth };
}

function drawMap(canvas, map, chosen) {
  canvas.style.height = `${heightOf(map) + 2}px`;
  const drawing = prepared(canvas);
  drawing.scale(canvas.width / canvas.clientWidth, canvas.height / canvas.clientHeight);
  paintMap(drawing, map, styleOf(canvas), chosen);
}

/** Where a hunk stands across the picture, and which one stands there: those of one bar share it alike. */
function shareOf(map, canvas, hunk) {
  if (hunk >= map.hunks) return 1;
  const bar = map.bars[map.barOf(hunk)];
  return (bar.x + (bar.width * (hunk - bar.first)) / (bar.end - bar.first)) / canvas.clientWidth;
}

function hunkAt(map, canvas, share) {
  const x = share * canvas.clientWidth;
  const bar = map.bars[Math.max(0, lastOf(map.count, (i) => map.bars[i].x, x))];
  return bar.first + ((x - bar.x) / bar.width) * (bar.end - bar.first);
}

export function mapScene(map, canvas, go) {
  return {
    length: map.hunks,
    follows: true,
    part: (at) => ({ from: at, to: at + 1, text: map.text(at) }),
    share: (at) => shareOf(map, canvas, at),
    at: (share) => hunkAt(map, canvas, share),
    draw: (_, at) => drawMap(canvas, map, at),
    go,
  };
}

/** The legend: what the colours of the bands below a bar mean, of those that are in the map. */
export function mapLegend(map) {
  const has = (counts, number) => map.bars.some((bar) => bar[counts][number] > 0);
  const kinds = [0, 1, 2].filter((kind) => has("kinds", kind));
  const memories = [...MEMORIES.keys()].filter((memory) => has("memories", memory));
  return [
    ...kinds.map((kind) => [kindColour(kind), blockName(KINDS.CODE + kind)]),
    ...memories.map((memory) => [memoryColour(memory), memoryName(memory)]),
    ...(map.bars.some((bar) => bar.warnings > 0) ? [["var(--amber-edge)", "warnings"]] : []),
  ];
}
