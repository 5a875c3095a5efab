// node two-hunks.js OUT: makes a program of two hunks from nothing. Its code adds two longwords of a table, which is a hunk of its
// own, and ends with the sum, 42, in d0.
import { writeFile } from "node:fs/promises";
import { KINDS, open, Part } from "hunk-files";

// lea table,a0; move.l (a0)+,d0; add.l (a0),d0; rts
const code = Buffer.from("41f9000000002018d0904e75", "hex");
const table = Buffer.from("0000001400000016", "hex");

const hunk = await open();
const data = hunk.build([
  Part.hunk(3),
  Part.block(KINDS.CODE, code),
  // The longword at 2 gets the address of hunk 1.
  Part.block(KINDS.RELOC32),
  Part.group(1, [2]),
  Part.block(KINDS.SYMBOL),
  Part.symbol("start", 0),
  Part.end(),
  Part.hunk(2),
  Part.block(KINDS.DATA, table),
  Part.end(),
]);
await writeFile(process.argv[2], data);
