/** What a hunk file is in ELF, as `hunk convert` of the package for Python writes it. The rows are those of the library, with names
 * in place of their places, and the references of an entry beside it. */

import type { Entry, Finding, HunkSymbol, Reference, Relocation } from "./hunk.js";

export interface ElfHunk {
  /** Its bytes in memory. */
  bytes: number;
  memory: "any" | "chip" | "fast" | "attributes";
  /** The type of its content block, and the data of that. */
  kind: number;
  content: Uint8Array;
}

/** A text of which each character is a byte, as `nameOf` gives. */
export interface WithName { name: string }

export type ElfEntry = Pick<Entry, "place" | "hunk" | "kind" | "value"> & WithName & {
  references: readonly Pick<Reference, "place" | "offset" | "width">[];
};

export interface ElfInput {
  /** The units, and what is wrong with an object file; of a load file none. */
  units: readonly { place: number }[];
  findings: readonly Pick<Finding, "place" | "fault">[];
  hunks: readonly ElfHunk[];
  symbols: readonly (Pick<HunkSymbol, "hunk" | "value"> & WithName)[];
  relocations: readonly Pick<Relocation, "place" | "hunk" | "kind" | "width" | "target" | "offset">[];
  entries: readonly ElfEntry[];
}

/** Says what of a file has no form in ELF, and at which byte it stands. */
export class NoForm extends Error {
  constructor(place: number, text: string);
  place: number;
}

/** The file of ELF that a linker takes. It throws a NoForm where there is none. */
export function relocatable(file: ElfInput): Uint8Array;
/** The program of a load file that is loaded at the base; `memory` has the bytes of each hunk there. */
export function program(file: ElfInput, base: number, memory: readonly Uint8Array[]): Uint8Array;
/** Of each hunk whether it is not zero in memory. */
export function notZero(file: ElfInput): boolean[];
