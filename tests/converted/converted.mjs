// converted.mjs FOLDER: for each line of standard input, an object of JSON that says what stands in a hunk file, prints the file of ELF
// that FOLDER/sections.js writes of it, in hexadecimal digits, or why it writes none. With a `base` it is the program that is loaded
// there, or, where `to` says so, what FOLDER/records.js writes of that.
import { createInterface } from "node:readline";
import { pathToFileURL } from "node:url";

const { NoForm, program, relocatable } = await import(pathToFileURL(`${process.argv[2]}/sections.js`));
const { sRecords } = await import(pathToFileURL(`${process.argv[2]}/records.js`));
const bytes = (text) => Uint8Array.from(Buffer.from(text, "hex"));

function made({ to, base, memory, hunks, ...rest }) {
  const file = { ...rest, hunks: hunks.map((it) => ({ ...it, content: bytes(it.content) })) };
  try {
    const write = to === "srec" ? sRecords : base === null ? relocatable : program;
    return Buffer.from(write(file, base, memory.map(bytes))).toString("hex");
  } catch (error) {
    if (!(error instanceof NoForm)) throw error;
    return error.message;
  }
}

for await (const line of createInterface({ input: process.stdin })) console.log(made(JSON.parse(line)));
