// What a file is, in words: the verdict, its readings, where it is refused, and what to do about it.

import { beforeText, showLines } from "./front.js";
import { counted, hex } from "./names.js";
import { classOf, toneOf, whyOf } from "./reasons.js";
import { showReadings } from "./spellings.js";
import { warningsText } from "./warned.js";
import { explained } from "./words.js";

const $ = (id) => document.getElementById(id);

/** By its first longword. Its class says what is known of the whole file. */
const BEGINS = { "load file": "Begins as a load file", "object file": "Begins as an object file" };

const refusedText = ({ reason, number }, place) => `refused at byte ${place} (${hex(place)}), ${reason} (${number}).`;

/** What an input has that its plain spelling has otherwise. */
function otherwiseText({ shortBlocks, ends }) {
  const short = shortBlocks > 0 ? [`${counted(shortBlocks, "block")} of short relocations`] : [];
  const left = ends > 0 ? [`${ends.toLocaleString("en")} END left out`] : [];
  return `In another spelling, with ${[...short, ...left].join(" and ")}`;
}

/** @param {import("./file.js").About} about
 * @param {import("./places.js").FilePlace} fault */
function refusalTexts({ kind, refusal, spelling }, fault) {
  const what = BEGINS[kind] ?? "Neither a load file nor an object file";
  if (!spelling) return [`${what}: ${refusedText(refusal, fault)}`];
  return [`${otherwiseText(spelling)}.`, `Read as that, it is ${refusedText(refusal, fault)}`];
}

/** Of a file that is shown in its other spelling: what it has otherwise, and why it is refused as it is. */
function spelledTexts({ spelling, strict }, what) {
  const asItIs = `As it is, it is ${refusedText(strict, strict.place)}`;
  return [`${otherwiseText(spelling)}, ${what}.`, `It is shown as readers of this spelling take it. ${asItIs}`];
}

const warningsOf = ({ warnings }) => (warnings > 0 ? `, ${counted(warnings, "warning")}` : "");

function acceptedTexts({ about, input, end }) {
  const what =
    about.hunks > 0
      ? `a load file: ${counted(about.hunks, "hunk")}, ${counted(about.declared, "byte")} in memory${warningsOf(about)}`
      : `an object file: ${counted(about.units, "unit")}, ${counted(about.findings, "finding")}`;
  if (about.strict) return spelledTexts(about, what);
  const after = input.length - end;
  const rest = after > 0 ? `; ${counted(after, "byte")} after it are not read` : "";
  return [`A${what.slice(1)}${rest}.`];
}

/** What a file is, in a sentence.
 * @param {import("./file.js").Examined} file */
export const verdictText = (file) =>
  (file.about.refusal ? refusalTexts(file.about, file.fault) : acceptedTexts(file))[0];

/** Tells a first sentence in large letters, and what else there is to tell.
 * @param {string[]} texts
 * @param {string} tone */
export function tellVerdict(texts, tone) {
  const [first, ...others] = texts;
  const small = others.map((text) => Object.assign(document.createElement("small"), { textContent: text }));
  $("verdict").className = tone;
  $("verdict").replaceChildren(explained(first), ...small.flatMap((it) => [" ", it]));
}

/** Tells what a file is; `choose(i)` is called for another of its readings.
 * @param {import("./file.js").Examined} file
 * @param {(which: number) => void} choose */
export function showVerdict(file, choose) {
  const { about } = file;
  const tone = about.warnings > 0 ? "warn" : toneOf(classOf(about));
  tellVerdict(about.refusal ? refusalTexts(about, file.fault) : acceptedTexts(file), tone);
  showReadings($("readings"), file, choose);
  $("before").textContent = beforeText(file);
  showLines($("why"), [whyOf(about), about.warnings > 0 ? warningsText(file) : ""].filter(Boolean).join("\n"));
  $("file-name").textContent = `${file.name}, ${counted(file.input.length, "byte")}`;
}

/** Tells why no file is shown. */
export function tellNone(text) {
  for (const id of ["file-name", "why", "before"]) $(id).textContent = "";
  $("readings").hidden = true;
  tellVerdict([text], "warn");
}
