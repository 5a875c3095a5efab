// The rows that lists have, by the name of the call that gives them: their places and sizes are plain numbers.

import type * as Library from "../../bindings/javascript/hunk.js";

export interface RowTypes {
  check: Library.Finding;
  warnings: Library.Warning;
  units: Library.Unit;
  blocks: Library.Block;
  symbols: Library.HunkSymbol;
  relocations: Library.Relocation;
  entries: Library.Entry;
  references: Library.Reference;
}

export interface RowsOf<Row> {
  readonly length: number;
  at(i: number): Row;
  get(i: number, name: keyof Row & string): number;
}
