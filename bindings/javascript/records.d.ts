/** Memory as Motorola S-records of 32 bits, as `hunk convert` of the package for Python writes it. */

import type { ElfInput } from "./sections.js";

/** The lines of a load file that is loaded at the base; `memory` has the bytes of each hunk there. Hunks that are zero have none. */
export function sRecords(file: ElfInput, base: number, memory: readonly Uint8Array[]): string;
