import { Hunk } from "./hunk.js";

export * from "./hunk.js";

/** Opens the library, with hunk32.wasm, which is in the script. */
export function open(): Promise<Hunk>;
