// A file in another format, by the scripts of bindings/javascript that write what the command `hunk convert` writes.

import { nameOf } from "../../bindings/javascript/hunk.js";
import { MEMORIES } from "../../bindings/javascript/kinds.js";
import { sRecords } from "../../bindings/javascript/records.js";
import { NoForm, program, relocatable } from "../../bindings/javascript/sections.js";

/** The most bytes that hunks may have in memory. */
const MOST = 1 << 28;
/** The lists that are needed whole. */
const NEEDED = ["check", "units", "blocks", "symbols", "relocations", "entries", "references"];

function refuseSize(file) {
  for (const name of NEEDED) {
    const { rows, count } = file.list(name);
    if (rows.length < count) throw new NoForm(0, `its ${name} are more than this page lists`);
  }
  const contents = file.contents();
  let sum = 0;
  for (let i = 0; i < contents.count; i++) sum += contents.bytes(i);
  if (sum > MOST) throw new NoForm(0, "it has more memory than this page shows");
}

/** The hunks, each with the data of its content block. */
function hunksOf(file) {
  const contents = file.contents();
  return Array.from({ length: contents.count }, (_, i) => {
    const content = contents.get(i, "content");
    return {
      bytes: contents.bytes(i),
      memory: /** @type {any} */ (MEMORIES[contents.memory(i)]),
      kind: contents.get(i, "kind"),
      content: file.bytes.subarray(content, content + contents.get(i, "contentBytes")),
    };
  });
}

/** What stands in a file, as those scripts take it. */
export function inputOf(file) {
  refuseSize(file);
  const rowsOf = (name) => [...file.list(name).rows];
  const named = (row) => ({ ...row, name: nameOf(file.bytes, row) });
  const entries = rowsOf("entries").map((row) => ({ ...named(row), references: [] }));
  for (const row of rowsOf("references")) entries[row.entry].references.push(row);
  const [symbols, relocations] = [rowsOf("symbols").map(named), rowsOf("relocations")];
  return { units: rowsOf("units"), findings: rowsOf("check"), hunks: hunksOf(file), symbols, relocations, entries };
}

/** The memory of each hunk. */
const partsOf = (file, memory) =>
  Array.from(file.starts, (start, i) => memory.subarray(start, start + file.table.rows.get(i, "bytes")));

/** The file of ELF that a linker takes. */
export const linkable = (file) => relocatable(inputOf(file));

/** The program of ELF at its base, of which this is the memory. */
export const asProgram = (file, memory) => program(inputOf(file), file.base, partsOf(file, memory));

/** The memory as S-records. */
export const asRecords = (file, memory) => sRecords(inputOf(file), file.base, partsOf(file, memory));
