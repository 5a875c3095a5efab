import { Hunk } from "./hunk.js";

export * from "./hunk.js";

/** Opens the library: hunk.wasm where the engine takes 64-bit memories, else hunk32.wasm. */
export function open(): Promise<Hunk>;
