// A picture as SVG: it takes the calls by which pictures are drawn on a canvas, and writes an element for each shape.

import { heightOf, mapLegend, paintMap, styleOf } from "./map.js";

const MARGIN = 8;
/** A line of the legend, and the square of a colour in it. */
const LINE = 20;
const SQUARE = 10;

const escaped = (text) => text.replace(/[&<>"]/g, (it) => `&#${it.charCodeAt(0)};`);
const rounded = (number) => String(Math.round(number * 100) / 100);
const values = (...numbers) => numbers.map(rounded).join(" ");

/** What measures texts, and tells the colour of a pixel: not each program that draws SVG knows `oklch`. */
const pixel = new OffscreenCanvas(1, 1).getContext("2d");

function plainColour(colour) {
  pixel.clearRect(0, 0, 1, 1);
  pixel.fillStyle = colour;
  pixel.fillRect(0, 0, 1, 1);
  const [red, green, blue] = pixel.getImageData(0, 0, 1, 1).data;
  return `#${((red << 16) | (green << 8) | blue).toString(16).padStart(6, "0")}`;
}

/** The calls of a canvas that pictures of hunks need. */
export class SvgDrawing {
  font = "12px sans-serif";
  fillStyle = "#000000";
  strokeStyle = "#000000";
  lineWidth = 1;
  globalAlpha = 1;
  textAlign = "start";
  textBaseline = "middle";
  #parts = [];
  #path = [];
  #colours = new Map();

  #colour(colour) {
    if (!this.#colours.has(colour)) this.#colours.set(colour, plainColour(colour));
    return this.#colours.get(colour);
  }

  #put(name, attributes, content = "") {
    const opacity = this.globalAlpha < 1 ? ` opacity="${rounded(this.globalAlpha)}"` : "";
    this.#parts.push(`<${name} ${attributes}${opacity}${content ? `>${content}</${name}>` : "/>"}\n`);
  }

  beginPath() {
    this.#path = [];
  }

  moveTo(x, y) {
    this.#path.push(`M${values(x, y)}`);
  }

  lineTo(x, y) {
    this.#path.push(`L${values(x, y)}`);
  }

  bezierCurveTo(...numbers) {
    this.#path.push(`C${values(...numbers)}`);
  }

  stroke() {
    const line = `stroke="${this.#colour(this.strokeStyle)}" stroke-width="${rounded(this.lineWidth)}"`;
    this.#put("path", `d="${this.#path.join("")}" fill="none" ${line}`);
  }

  fill() {
    this.#put("path", `d="${this.#path.join("")}Z" fill="${this.#colour(this.fillStyle)}"`);
  }

  fillRect(x, y, width, height) {
    if (width <= 0) return;
    const box = `x="${rounded(x)}" y="${rounded(y)}" width="${rounded(width)}" height="${rounded(height)}"`;
    this.#put("rect", `${box} fill="${this.#colour(this.fillStyle)}"`);
  }

  fillText(text, x, y) {
    const anchor = this.textAlign === "center" ? ' text-anchor="middle"' : "";
    const place = `x="${rounded(x)}" y="${rounded(y)}" dominant-baseline="central"${anchor}`;
    this.#put("text", `${place} fill="${this.#colour(this.fillStyle)}"`, escaped(text));
  }

  measureText(text) {
    pixel.font = this.font;
    return pixel.measureText(text);
  }

  /** The whole picture, on paper of this colour, with what it is. */
  text(width, height, paper, title) {
    const [, size, family] = /^(\d+)px (.*)$/.exec(this.font);
    const [wide, high] = [width + 2 * MARGIN, height + 2 * MARGIN];
    const box = `width="${rounded(wide)}" height="${rounded(high)}" viewBox="${values(-MARGIN, -MARGIN, wide, high)}"`;
    const font = `font-size="${size}" font-family="${escaped(family)}"`;
    const head = `<svg xmlns="http://www.w3.org/2000/svg" ${box} ${font}>\n`;
    const sheet = `<rect x="${-MARGIN}" y="${-MARGIN}" width="100%" height="100%" fill="${this.#colour(paper)}"/>\n`;
    return `${head}<title>${escaped(title)}</title>\n${sheet}${this.#parts.join("")}</svg>\n`;
  }
}

/** Draws what the colours mean from `y` on, and answers where it ends. */
function drawLegend(drawing, entries, { ink, warn, width }, y) {
  let x = 0;
  let line = y + LINE;
  drawing.textAlign = "start";
  for (const [colour, text] of entries) {
    const wide = 2 * SQUARE + drawing.measureText(text).width;
    if (x > 0 && x + wide > width) [x, line] = [0, line + LINE];
    drawing.fillStyle = colour.startsWith("var") ? warn : colour;
    drawing.fillRect(x, line - SQUARE / 2, SQUARE, SQUARE);
    drawing.fillStyle = ink;
    drawing.fillText(text, x + 1.4 * SQUARE, line);
    x += wide + SQUARE;
  }
  return line + SQUARE;
}

/** The map of hunks as it stands on the page, with what its colours mean. */
export function mapSvg(map, canvas, title) {
  const drawing = new SvgDrawing();
  const style = styleOf(canvas);
  paintMap(drawing, map, style);
  const height = drawLegend(drawing, mapLegend(map), style, heightOf(map));
  return drawing.text(style.width, height, style.paper, title);
}
