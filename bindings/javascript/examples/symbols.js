// node symbols.js FILE: the symbols of a file, and the hunks of a load file at the address 0x21000.
import { readFile } from "node:fs/promises";
import { HunkError, nameOf, open } from "hunk-files";

const hunk = await open();
const bytes = await readFile(process.argv[2]);
try {
  for (const symbol of hunk.symbols(bytes).rows) console.log(symbol.value, nameOf(bytes, symbol));
  console.log(Buffer.from(hunk.loadPacked(bytes, 0x21000).memory).toString("hex"));
} catch (error) {
  if (!(error instanceof HunkError)) throw error;
  console.log(`byte ${error.place}: ${error.reason}`);
}
