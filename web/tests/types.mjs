// The types of the page, by `tsc`, and that it refuses a size in the place of a place: node types.mjs WORK

import { execFileSync } from "node:child_process";
import { cpSync, readFileSync, writeFileSync } from "node:fs";
import { root } from "./texts.mjs";

const [work] = process.argv.slice(2);

/** What `tsc` says of a tree; nothing where all is well. */
function said(tree) {
  try {
    return execFileSync("tsc", ["-p", `${tree}/web/jsconfig.json`], { encoding: "utf8" });
  } catch (error) {
    return error.stdout || error.message;
  }
}

/** Wrong edits: a file of the page, a text of it, and what is put in its place. */
const WRONG = [
  // The size of a block, as where it stands in the memory.
  ["listed", "file.inMemory(row.hunk, 0, Infinity) : undefined", "{ from: row.memory, to: row.memory } : undefined"],
  // A byte of what is read, as one of the file.
  ["verdict", "about.refusal ? refusalTexts(about, file.fault)", "about.refusal ? refusalTexts(about, textPlace(0))"],
];

const told = said(root.slice(0, -1));
let failed = told ? 1 : 0;
const edited = WRONG.map(([name]) => `page/${name}.js`);
if (told) console.log(`types: ${told.trim()}`);
for (const name of ["web/page", "web/jsconfig.json", "bindings/javascript"]) {
  cpSync(root + name, `${work}/${name}`, { recursive: true });
}
for (const [name, text, other] of WRONG) {
  const path = `${work}/web/page/${name}.js`;
  const whole = readFileSync(path, "utf8");
  if (!whole.includes(text)) console.log(`types: ${name}.js has no longer "${text}"`);
  const imported = other.includes("textPlace") ? 'import { textPlace } from "./places.js";\n' : "";
  writeFileSync(path, imported + whole.replace(text, other));
}
const refused = said(work);
for (const it of edited.filter((name) => !refused.includes(name))) {
  console.log(`types: a wrong edit of ${it} is taken`);
  failed += 1;
}
console.log(`types: ${WRONG.length} edits are refused, ${failed} failed`);
process.exit(failed > 0 ? 1 : 0);
