// The lines of a view of bytes, as HTML: an address, the digits, the letters, and names of what begins there.

import { hex } from "./names.js";
import { escaped } from "./scroller.js";

/** The most names that stand behind a line. */
const NAMES = 4;

export const isIn = (at, range) => range !== null && at >= range.from && at < range.to;

function byteHtml(view, i) {
  const isThere = i < view.bytes.length;
  const mark = i < view.length ? view.source.mark(i) : null;
  if (!isThere && !mark) return "<span>  </span>";
  const text = isThere ? hex(view.bytes[i], 2) : "··";
  const states = [
    mark?.tone, isIn(i, view.item) && "item", isIn(i, view.picked) && "picked", i === view.caret && "caret",
  ];
  const tone = states.filter(Boolean).join(" ");
  if (!mark) return `<span class="${tone}">${text}</span>`;
  const colour = mark.colour ? ` style="background:${mark.colour}"` : "";
  const title = mark.title ? ` title="${escaped(mark.title)}"` : "";
  return `<b class="${tone}"${colour}${title}>${text}</b>`;
}

/** A line of a view, by its number. */
export function lineHtml(view, row) {
  const from = row * view.per;
  let digits = "";
  let text = "";
  for (let i = from; i < from + view.per; i++) {
    digits += byteHtml(view, i) + (i % 8 === 7 ? "  " : " ");
    const byte = view.bytes[i];
    if (byte !== undefined) text += byte > 31 && byte < 127 ? escaped(String.fromCharCode(byte)) : "·";
  }
  const begins = escaped(view.source.names(from, from + view.per, NAMES).join(" "));
  const names = begins && `<span class="names" title="${begins}">${begins}</span>`;
  const rest = " ".repeat(Math.max(0, from + view.per - view.bytes.length));
  const address = `<span class="at">${hex(view.start + from)}</span>`;
  return `<div class="line">${address}  ${digits}<span class="text">${text}${rest}</span>${names}</div>`;
}
