// What a byte of the memory of a load file belongs to: an item, as those of the file are.

import { fieldAt, placeIn } from "./fields.js";
import { warningAt } from "./items.js";
import { hex, lastAt, longAt } from "./names.js";

/** The bytes of the file that were loaded to there. */
function originOf(file, place, bytes) {
  const range = file.range(place, bytes);
  return { text: `byte ${hex(range.from)} of the file`, file: range };
}

/** The longword to which a byte of the memory belongs, or what is relocated there. */
export function itemOfMemory(file, memory, at) {
  const hunk = lastAt(file.starts, at);
  const start = file.starts[hunk];
  const field = fieldAt(file, { hunk }, at - start);
  const from = start + field.offset;
  const contents = file.contents();
  const place = contents.place(hunk, field.offset);
  const where = [`hunk ${hunk} + ${hex(field.offset)}`, contents.name(hunk)].filter(Boolean).join(", ");
  const label = file.labels().before(from);
  const item = { from, to: Math.min(from + field.width, memory.length), where };
  const origin = place === undefined ? null : originOf(file, place, field.width);
  if (field.target === undefined) {
    const name = origin || !file.hasBlocks ? "" : "zero, not in the file";
    return { ...item, name, says: label, targets: [origin] };
  }
  const value = (longAt(memory, from) - file.base - file.starts[field.target]) >>> 0;
  const says = [label, field.says, warningAt(file.warned().inMemory(from))].filter(Boolean).join(", ");
  return { ...item, name: "", says, targets: [placeIn(file, 0, field.target, value), origin] };
}
