// The library: by the module of the kit, where the browser takes 64-bit memories, else by the one that binaryen made of
// it.

import { Hunk } from "../../bindings/javascript/hunk.js";
import { MODULES } from "./data.js";
import { unpacked } from "./packed.js";

/** Opens the library, and tells by which module. */
export async function openModule(told) {
  for (const [name, text] of MODULES) {
    const bytes = await unpacked(text);
    if (!WebAssembly.validate(bytes)) continue;
    told.textContent = `${name}, ${bytes.length.toLocaleString("en")} bytes.`;
    return Hunk.open(bytes);
  }
  throw new Error("this browser runs none of the modules in this page");
}
