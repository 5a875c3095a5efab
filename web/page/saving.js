// What the page saves of a file: each button, and what it makes.

import { NoForm } from "../../bindings/javascript/sections.js";
import { asProgram, asRecords, linkable } from "./converted.js";
import { counted } from "./names.js";

const $ = (id) => document.getElementById(id);

/** Gives data a name, and has the browser save it. Answers how many bytes that are. */
export function save(data, name, type = "application/octet-stream") {
  const link = document.createElement("a");
  const blob = new Blob([data], { type });
  link.href = URL.createObjectURL(blob);
  link.download = name;
  link.click();
  setTimeout(() => URL.revokeObjectURL(link.href), 1000);
  return blob.size;
}

/** By the button: where it is told what came of it, the end of the name, the type, and what makes the data, of the
 * panels.
 * @type {[string, string, (panels: import("./panels.js").Panels) => string, string, (panels: any) => any][]} */
const BUTTONS = [
  ["save-list", "copied-list", ({ lists }) => `${lists.name}.csv`, "text/csv", ({ lists }) => lists.csv()],
  ["save-stripped", "saved", () => "stripped", "", ({ file }) => file.hunk.strip(file.bytes).text],
  ["save-plain", "saved", () => "plain", "", ({ file }) => file.bytes],
  ["save-linkable", "saved", () => "o", "", ({ file }) => linkable(file)],
  ["save-memory", "copied-memory", () => "memory", "", ({ memory }) => memory],
  ["save-records", "copied-memory", () => "srec", "text/plain", ({ file, memory }) => asRecords(file, memory)],
  ["save-program", "copied-memory", () => "elf", "", ({ file, memory }) => asProgram(file, memory)],
  ["save-map", "saved-map", () => "svg", "image/svg+xml", (panels) => panels.mapSvg()],
];

/** Has each button save something of the file that the panels show. */
export function listenToSaving(panels) {
  for (const [id, told, end, type, make] of BUTTONS) {
    $(id).addEventListener("click", () => {
      try {
        const bytes = save(make(panels), `${panels.file.name}.${end(panels)}`, type || undefined);
        $(told).textContent = `${counted(bytes, "byte")} saved.`;
      } catch (error) {
        if (!(error instanceof NoForm)) throw error;
        $(told).textContent = `Not saved, as it has no such form: ${error.message}.`;
      }
    });
  }
}

/** Shows the buttons that have something to save. */
export function showSaving(file) {
  const isRefused = Boolean(file.about.refusal);
  for (const id of ["save-stripped", "save-linkable"]) $(id).hidden = isRefused;
  $("save-plain").hidden = !file.about.strict || isRefused;
  for (const id of ["saved", "saved-map"]) $(id).textContent = "";
}
