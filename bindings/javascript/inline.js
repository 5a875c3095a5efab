// The package for places without files, as a bundle that is one file: it has hunk32.wasm, which each engine takes, in a script.
// packaging/npm writes module.js.

import { Hunk } from "./hunk.js";
import { MODULE } from "./module.js";

export * from "./hunk.js";

/** Opens the library. */
export async function open() {
  return Hunk.open(Uint8Array.from(atob(MODULE), (it) => it.charCodeAt(0)));
}
