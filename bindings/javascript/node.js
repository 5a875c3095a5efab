// The package in node, where the modules are files beside this one.

import { readFile } from "node:fs/promises";
import { Hunk, takesMemory64 } from "./hunk.js";

export * from "./hunk.js";

/** Opens the library: hunk.wasm where the engine takes 64-bit memories, else hunk32.wasm. */
export async function open() {
  const url = takesMemory64() ? new URL("./hunk.wasm", import.meta.url) : new URL("./hunk32.wasm", import.meta.url);
  return Hunk.open(readFile(url).catch(lack));
}

/** The tree has no modules here: they are built. */
function lack(error) {
  if (error.code !== "ENOENT") throw error;
  throw new Error(`${error.path} is not there. Of the source tree, packaging/npm makes the package with it`, { cause: error });
}
