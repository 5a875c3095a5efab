// Texts of files that more than one test has.

import { readFileSync } from "node:fs";

export const root = new URL("../../", import.meta.url).pathname;
export const digits = (text) => text.replace(/\s/g, "");

/** The example of the pages: CODE of 48 bytes whose longwords at 2 and 8 are relocated, at hunk 0 and at hunk 1; a BSS
 * of 12. */
export const SUM = digits(readFileSync(`${root}bindings/c/examples/sum.hex`, "utf8"));
