// The command `hunk` of bindings/python over the library that LIBHUNK names: what the page saves and tells is held to
// its answers. And a hunkinfo that is asked about many files.

import { execFileSync, spawnSync } from "node:child_process";
import { mkdirSync, writeFileSync } from "node:fs";
import { root } from "./texts.mjs";

/** Whether there is a library for it. */
export const hasCommand = Boolean(process.env.LIBHUNK);

/** What the command writes to its standard output, as bytes; what it says, a line; and its status. */
export function called(...words) {
  const env = { ...process.env, PYTHONPATH: `${root}bindings/python`, PYTHONDONTWRITEBYTECODE: "1" };
  const { stdout, stderr, status } = spawnSync("python3", ["-m", "hunk", ...words], { env, maxBuffer: 2 ** 28 });
  const said = stderr.toString().trim().split("\n").at(-1);
  // As of a library that is older than the command.
  if (said.startsWith("ImportError")) throw new Error(said);
  return { out: stdout, said, status };
}

/** What a hunkinfo answers with --wide to each of these digits, by them. A shell that calls it for one after the other
 * takes a third of the time of calls from here. */
export function askedWide(program, folder, inputs) {
  mkdirSync(folder);
  inputs.forEach((digits, i) => writeFileSync(`${folder}/${i}`, Buffer.from(digits, "hex")));
  const asking = 'for i in $(seq 0 "$2"); do echo "= "; "$1" validate --wide $i 2> /dev/null; done; true';
  const words = ["-c", asking, "sh", program, String(inputs.length - 1)];
  const said = execFileSync("sh", words, { cwd: folder, encoding: "utf8", maxBuffer: 2 ** 28 }).split("= \n").slice(1);
  return new Map(inputs.map((digits, i) => [digits, said[i]]));
}
