// The arcs above the bars of a map: from each hunk to those whose base is added in it. Where these are too many to be
// told apart, a column above each bar says how many lead to it, and the arcs are drawn of one hunk alone.

import { hunkColour } from "./names.js";
import { eachWay } from "./ways.js";

/** The most arcs that are drawn together, and of one hunk. */
const MOST_ARCS = 40;
const MOST_OF_ONE = 250;
const TIP = 4;
/** Between two bars. */
export const GAP = 2;

/** How many relocations each pair of bars has, most first: {from, to, many}. */
export function arcsBetween(file, count, barOf) {
  const pairs = new Float64Array(count * count);
  eachWay(file, (hunk, target) => (pairs[barOf(hunk) * count + barOf(target)] += 1));
  const arcs = [];
  pairs.forEach((many, i) => many > 0 && arcs.push({ from: Math.floor(i / count), to: i % count, many }));
  return arcs.sort((one, other) => other.many - one.many);
}

const isCrowded = ({ arcs }) => arcs.length > MOST_ARCS;

/** The arcs of one hunk, from it and to it: those that lead to hunks of one bar are one. */
function arcsOfOne(map, hunk) {
  const own = map.barOf(hunk);
  const found = new Map();
  const add = (from, to, many) => {
    const arc = found.get(`${from} ${to}`) ?? { from, to, many: 0 };
    arc.many += many;
    found.set(`${from} ${to}`, arc);
  };
  for (const [other, many] of map.ways.of(hunk)) add(own, map.barOf(other), many);
  for (const [other, many] of map.ways.of(hunk, true)) if (other !== hunk) add(map.barOf(other), own, many);
  return [...found.values()].sort((one, other) => other.many - one.many).slice(0, MOST_OF_ONE);
}

/** A point of the upper edge of a bar. */
export const middle = ({ x, width }, share) => x + (width - GAP) * share;

function drawArc(drawing, map, { from, to, many }, base, most) {
  const [a, b] = [middle(map.bars[from], 0.35), middle(map.bars[to], 0.65)];
  const high = from === to ? 18 : 16 + Math.min(1, Math.abs(a - b) / 500) * (base - 22);
  drawing.strokeStyle = hunkColour(map.bars[to].first, 45);
  drawing.lineWidth = 0.8 + Math.min(3.2, map.width / 250) * Math.sqrt(many / most);
  drawing.beginPath();
  drawing.moveTo(a, base);
  drawing.bezierCurveTo(a, base - high * 1.33, b, base - high * 1.33, b, base);
  drawing.stroke();
  drawing.fillStyle = drawing.strokeStyle;
  drawing.beginPath();
  drawing.moveTo(b, base);
  drawing.lineTo(b - TIP, base - 1.6 * TIP);
  drawing.lineTo(b + TIP, base - 1.6 * TIP);
  drawing.fill();
}

/** A column above each bar, by how many relocations of others lead to its hunks. */
function drawColumns(drawing, map, base) {
  const counts = new Float64Array(map.count);
  for (const { from, to, many } of map.arcs) if (from !== to) counts[to] += many;
  const most = Math.max(1, ...counts);
  for (const [i, bar] of map.bars.entries()) {
    const height = (base - 4) * Math.sqrt(counts[i] / most);
    drawing.fillStyle = hunkColour(bar.first, 55);
    drawing.fillRect(bar.x, base - height, bar.width - GAP, height);
  }
}

const isOf = ({ from, to }, bar) => from === bar || to === bar;

/** Draws what stands above the bars, which begin at `base`, where the hunk `chosen` is under the pointer. */
export function drawWays(drawing, map, base, chosen) {
  const own = isCrowded(map) && chosen !== null ? arcsOfOne(map, chosen) : [];
  if (isCrowded(map)) {
    drawing.globalAlpha = chosen === null ? 0.8 : 0.25;
    drawColumns(drawing, map, base);
  }
  const bar = chosen === null ? -1 : map.barOf(chosen);
  const arcs = isCrowded(map) ? own : map.arcs;
  for (const arc of [...arcs].reverse()) {
    drawing.globalAlpha = bar < 0 ? 0.75 : isOf(arc, bar) ? 1 : 0.1;
    drawArc(drawing, map, arc, base, arcs[0].many);
  }
  drawing.globalAlpha = 1;
}

/** What the arcs or the columns mean. */
export function arcsText(map) {
  if (map.arcs.length === 0) return "";
  const arc = "an arc leads to the hunk whose base is added, in its colour; it is thicker where that is more often";
  if (!isCrowded(map)) return arc;
  const columns = "a column above a bar says how many relocations of others lead there";
  const pairs = `${map.arcs.length.toLocaleString("en")} pairs of bars`;
  return `${columns}. Of ${pairs} arcs are drawn for the hunk under the pointer: ${arc}`;
}
