// Where the bytes of a plain spelling stand in the file, as the page has it, held to what the library says: node alone.
// node spelled.mjs MODULE

import { readFileSync } from "node:fs";
import { Hunk } from "../../bindings/javascript/hunk.js";
import { Spelled } from "../page/spelled.js";
import { root } from "./texts.mjs";

const hunk = await Hunk.open(readFileSync(process.argv[2]));
const bytesOf = (digits) => Uint8Array.from(digits.match(/../g) ?? [], (it) => parseInt(it, 16));
const lines = readFileSync(`${root}vectors/wide.tsv`, "utf8").split("\n");
const rows = lines.filter((it) => it && it[0] !== "#").map((it) => it.split("\t"));
let compared = 0;
const wrong = [];
for (const [, name, , digits, answer] of rows) {
  const input = bytesOf(digits);
  const { shortBlocks, ends } = hunk.spelling(input);
  if (answer !== "accepted" || shortBlocks + ends === 0) continue;
  const text = hunk.plain(input);
  const spelled = new Spelled(input, hunk.blocks(text).rows);
  for (let place = 0; place < text.length; place += 4) {
    compared += 1;
    const [said, wanted] = [spelled.inFile(place), hunk.inputPlace(input, place)];
    if (said !== wanted) wrong.push(`${name}, byte ${place}: ${said}, and not ${wanted}`);
    // What is put in has no byte of its own in the file.
    const isOwn = spelled.inFile(place + 4) > said;
    const back = spelled.inText(said);
    if (isOwn && back !== place) wrong.push(`${name}, byte ${said}: back to ${back}`);
  }
}
if (compared < 100) wrong.push(`compared ${compared}`);
for (const it of wrong.slice(0, 20)) console.log(`plain spellings: ${it}`);
console.log(`plain spellings: ${compared} compared, ${wrong.length} failed`);
process.exit(wrong.length > 0 ? 1 : 0);
