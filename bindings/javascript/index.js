// The package: the library with the module that suits the engine, fetched from beside this file. Bundlers know this form of URL,
// and take the modules along.

import { Hunk, takesMemory64 } from "./hunk.js";

export * from "./hunk.js";

/** Opens the library: hunk.wasm where the engine takes 64-bit memories, else hunk32.wasm. */
export async function open() {
  const url = takesMemory64() ? new URL("./hunk.wasm", import.meta.url) : new URL("./hunk32.wasm", import.meta.url);
  return Hunk.open(fetch(url));
}
