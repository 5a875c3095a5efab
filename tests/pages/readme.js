import { readFile } from "node:fs/promises";
import { open } from "hunk-files";

const { rows } = (await open()).relocations(await readFile("prog"));
for (const { hunk, offset, target } of rows) console.log(hunk, offset, target);
