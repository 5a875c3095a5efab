// Holds the names of bindings/javascript/kinds.js to the tables of docs/FORMAT.md: node kinds.mjs FORMAT.md. Prints what differs.
import { readFileSync } from "node:fs";
import { ENTRY_KINDS, entryKindName, KINDS, kindName } from "../../bindings/javascript/kinds.js";

const cells = readFileSync(process.argv[2], "utf8")
  .split("\n")
  .filter((line) => line.startsWith("| "))
  .map((line) => line.split("|").map((cell) => cell.trim()));

/** Three cells with the number of a type, the same in hexadecimal digits, and its name: two of them a line. */
const triples = cells.flatMap((line) => [line.slice(1, 4), line.slice(4, 7)]);
const kinds = triples.filter(([number, hex]) => /^\d{3,4}$/.test(number) && parseInt(hex, 16) === Number(number));
/** Types and their names, as many of both, before what follows them and a width. */
const typeLists = cells.filter((line) => line.length === 6).map((line) => line.slice(1, 3).map((cell) => cell.split(", ")));
const entries = typeLists
  .filter(([numbers, names]) => numbers.length === names.length && numbers.every((it) => /^\d{1,3}$/.test(it)))
  .flatMap(([numbers, names]) => numbers.map((number, i) => [number, names[i]]));

let failed = 0;
function hold(what, wanted, names, nameOf) {
  const text = (pairs) => pairs.map(([name, number]) => `${name} ${number} ${nameOf(Number(number))}`).sort().join("\n");
  const read = wanted.map(([number, name]) => `${name} ${number} ${name}`).sort().join("\n");
  if (wanted.length > 0 && read === text(Object.entries(names))) return;
  failed += 1;
  console.log(`${what} of kinds.js and the table of ${process.argv[2]} differ`);
}
hold("KINDS", kinds.map(([number, , name]) => [number, name]), KINDS, kindName);
hold("ENTRY_KINDS", entries, ENTRY_KINDS, entryKindName);
process.exit(failed);
