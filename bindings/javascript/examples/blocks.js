// node blocks.js FILE..: where the blocks of files lie. Each file is read right into the module's memory.
import { closeSync, fstatSync, openSync, readSync } from "node:fs";
import { kindName, open } from "hunk-files";

const hunk = await open();
for (const path of process.argv.slice(2)) {
  const file = openSync(path);
  const input = hunk.alloc(fstatSync(file).size);
  readSync(file, input.bytes);
  closeSync(file);
  for (const { place, bytes, kind } of hunk.blocks(input).rows) console.log(path, place, bytes, kindName(kind));
  input.free();
}
