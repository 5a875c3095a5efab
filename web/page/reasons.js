// What is known of a file, and what to do about one that is refused, by docs/reasons.tsv.

import { FOREIGN, REASONS } from "./data.js";
import { whatIs } from "./foreign.js";
import { isContent, longAt } from "./names.js";

/** The bits of a block word that are its type; the reason by which the first longword is no hunk file's. */
const KIND_BITS = 0x1fffffff;
const NOT_LOAD_FILE = 1;

/** Class, what a developer does, what an archive does; and what it means, where its block word says more than the
 * library. */
function reasonOf({ number, place, word }) {
  const kind = (word & KIND_BITS).toString(16).toUpperCase();
  return REASONS[`${number} at word ${kind}`] ?? REASONS[`${number} at byte ${place}`] ?? REASONS[number];
}

/** A refusal of these bytes, with the longword at its place, and what the file is by its first bytes. */
export function refusalOf(error, bytes) {
  const { number, reason, place, text } = error;
  const isThere = place + 4 <= bytes.length;
  const isForeign = place === 0 && (number === NOT_LOAD_FILE || `${number} at byte 0` in REASONS);
  const what = isForeign ? whatIs(bytes, FOREIGN) : null;
  return { number, reason, place, text, word: isThere ? longAt(bytes, place) : 0, what };
}

/** A slave of WHDLoad begins with a longword of code and these letters. */
const SLAVE = "WHDLOADS";

/** What a file is, as `hunk survey --what` has it: of one that is accepted, of which these are the bytes, by its first
 * content; else by the first bytes, or by the block for which it is refused.
 * @param {import("./file.js").About} about */
export function whatOf(hunk, input, bytes, about) {
  if (about.refusal) return input.length === 0 ? "empty" : (about.refusal.what ?? reasonOf(about.refusal)[3]);
  if (!(about.hunks > 0)) return "object file";
  const { rows } = hunk.blocks(bytes);
  let i = 0;
  while (!isContent(rows.get(i, "kind"))) i += 1;
  const { content, contentBytes } = rows.at(i);
  const first = String.fromCharCode(...bytes.subarray(content, content + contentBytes).subarray(4, 4 + SLAVE.length));
  return first === SLAVE ? "load file, WHDLoad slave" : "load file";
}

/** The class of a file, in the words of `hunk survey`.
 * @param {import("./file.js").About} about */
export function classOf({ refusal, strict, hunks, findings }) {
  if (refusal) return reasonOf(refusal)[0];
  if (strict) return "wide";
  if (hunks > 0) return "load";
  return findings > 0 ? "findings" : "object";
}

/** How a class is told. What is no hunk file is as it should be, for all that is known. */
const TONES = {
  load: "good", object: "good", findings: "warn", wide: "warn",
  "not supported": "warn", damaged: "bad", "not judged": "warn",
};
export const toneOf = (shown) => TONES[shown] ?? "soft";

/** Why a file is refused, and what to do about it. One that is shown in its other spelling is read so already, and that
 * is not advised again.
 * @param {import("./file.js").About} about */
export function whyOf({ refusal, strict }) {
  if (refusal) return whyText(refusal);
  return strict ? `${PLAIN_NEEDED}: ${strict.text}.\n${SAVE_PLAIN}` : "";
}

const PLAIN_NEEDED = "Not every reader takes it";
const SAVE_PLAIN = "Developer: its plain spelling, which can be saved below, is taken by every reader.";

export function whyText(refusal) {
  const [shown, developer, archive, meaning] = reasonOf(refusal);
  const text = refusal.what ? `${refusal.what}, by its first bytes` : (meaning ?? refusal.text);
  return `${shown[0].toUpperCase()}${shown.slice(1)}: ${text}.\nDeveloper: ${developer}.\nArchive: ${archive}.`;
}
