// Names of object files: which of them each defines, and which it needs of others, as `hunk nm` tells them apart.

import { nameOf } from "../../bindings/javascript/hunk.js";
import { ENTRY_KINDS } from "../../bindings/javascript/kinds.js";
import { isCommon, isDefinition, shown } from "./names.js";

/** The names that an object file needs, and those that it offers to others. A common block is offered, as a linker
 * makes one where nothing else has its name. */
export function namesOf(hunk, bytes) {
  const needed = new Set();
  const defined = new Set();
  for (const row of hunk.entries(bytes).rows) {
    const name = row.nameBytes > 0 ? nameOf(bytes, row) : "";
    // SYMB is for a debugger.
    if (name === "" || row.kind === ENTRY_KINDS.SYMB) continue;
    (isDefinition(row.kind) || isCommon(row.kind) ? defined : needed).add(name);
  }
  return { needed, defined };
}

/** What lines of files have as `names`: for each name that none of them defines, the lines that need it, sorted by
 * name. */
export function missingOf(lines) {
  const defined = new Set(lines.flatMap(({ names }) => (names ? [...names.defined] : [])));
  const missing = new Map();
  for (const line of lines) {
    const lacks = [...(line.names?.needed ?? [])].filter((it) => !defined.has(it));
    if (line.names) line.undefined = lacks.length;
    for (const name of lacks) {
      if (!missing.has(name)) missing.set(name, []);
      missing.get(name).push(line);
    }
  }
  const found = [...missing].map(([name, needing]) => ({ name: shown(name), needing }));
  return found.sort((one, other) => (one.name < other.name ? -1 : 1));
}
