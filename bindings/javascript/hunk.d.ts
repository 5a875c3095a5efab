/** Hunk files of AmigaDOS: the calls of hunk.h, which says what each answers when. Counts, and places in a file,
 * are numbers, and exact up to 2^53. All of them count from 0. No types of a browser or of node are needed.
 *
 * What calls throw:
 * - HunkError, where they refuse the bytes of a file.
 * - TypeError, where an argument is of another kind than its type says. So are bytes whose memory is gone, an Input that was
 *   freed or is of another Hunk, and a view of other elements than bytes, as a Uint16Array.
 * - RangeError, where a number is out of its range. An address, a base and the number of a reason are whole and below 2^32; a
 *   budget, a length and a place are whole and at most 2^53, and so is `most`, or Infinity. The number of a row is below the
 *   length of its rows.
 * - RangeError, too, where the engine has no more memory for the module.
 *
 * A TypeError or RangeError of an argument begins with its name. It comes before anything is done, and nothing stays taken. */

export const ABI: number;
export const BUDGET: number;

/** How the structs of hunk.h are laid out. */
export const LAYOUTS: Record<string, { size: number; fields: Record<string, { at: number; bytes: number }> }>;

/** The types of blocks, by their names: KINDS.CODE is 0x3E9. An advisory block may have any other number. */
export const KINDS: Readonly<Record<
  | "UNIT" | "NAME" | "CODE" | "DATA" | "BSS" | "RELOC32" | "RELOC16" | "RELOC8" | "EXT" | "SYMBOL" | "DEBUG" | "END"
  | "HEADER" | "OVERLAY" | "BREAK" | "DREL32" | "DREL16" | "DREL8" | "LIB" | "INDEX" | "RELOC32SHORT" | "RELRELOC32"
  | "ABSRELOC16",
  number
>>;

/** The types of EXT entries: SYMB, DEF and ABS define their name, all others refer to it. */
export const ENTRY_KINDS: Readonly<Record<
  | "SYMB" | "DEF" | "ABS" | "REF32" | "COMMON" | "REF16" | "REF8" | "DEXT32" | "DEXT16" | "DEXT8" | "RELREF32"
  | "RELCOMMON" | "ABSREF16" | "ABSREF8",
  number
>>;

/** The flags of a block's word. */
export const FLAGS: Readonly<Record<"ADVISORY" | "CHIP" | "FAST", number>>;

/** What is wrong with an offset of an object file. */
export const FAULTS: Readonly<Record<"BadTarget" | "OutsideHunk", number>>;

/** What a part is. */
export const PARTS: Readonly<Record<"HUNK" | "UNIT" | "BLOCK" | "GROUP" | "SYMBOL" | "ENTRY", number>>;

export type WarningKind =
  | "OddOffset"
  | "Twice"
  | "Overlap"
  | "InBss"
  | "OutsideTarget"
  | "SymbolOutside"
  | "NoEntry"
  | "MemoryIgnored";

/** The kinds of warnings of load files. */
export const WARNINGS: Readonly<Record<WarningKind, number>>;

/** The memory that a hunk asks for, by the number in its row of the table. */
export const MEMORIES: readonly ["any", "chip", "fast", "attributes"];

/** The name of a block's type, as "CODE"; of one that is in no table "ADVISORY" and its number. A type is below 2^29. */
export function kindName(kind: number): string;
/** The name of an EXT entry's type, as "REF32". A type is at most 255. */
export function entryKindName(kind: number): string;
/** The names of the flags that are set, as ["chip"]; of flags from 0 to 7. */
export function flagNames(flags: number): string[];
/** The name of a finding's fault, as "BadTarget". */
export function faultName(fault: number): string;
/** The name of a warning's kind, as "OddOffset". */
export function warningName(kind: number): string;

/** The rows of a table. A row is made when it is asked for; `[...rows]` makes all of them, and a column none. Those of an Input stand in its
 * memory, and end with it: to read them then throws. */
export class Rows<Row> implements Iterable<Row> {
  private constructor();
  readonly length: number;
  /** Row i, from 0 to `length` - 1: any other number throws. */
  at(i: number): Row;
  /** One field of row i. A name that is no field of these rows throws. */
  get(i: number, name: keyof Row & string): number;
  /** One field of all rows, in memory of its own: a Float64Array where it has 8 bytes in hunk.h, a Uint32Array where it has 4. */
  column(name: keyof Row & string): Float64Array | Uint32Array;
  /** The same rows in memory of their own, which stay when an Input is freed. */
  copy(): Rows<Row>;
  [Symbol.iterator](): IterableIterator<Row>;
}

/** Bytes in the module's memory, which the caller fills, and which calls take without a copy. */
export class Input {
  private constructor();
  readonly length: number;
  /** A view of them, made anew by each look. One that was kept is invalid, with a length of 0, once the module's memory has
   * grown, as a call or another Input may make it; no call takes it then for an empty file, but throws a TypeError. */
  readonly bytes: Uint8Array;
  /** Gives the memory back. The Input and its rows end by that: to use them throws a TypeError. A view of it that was kept shows
   * then what later calls write there; calls take it no more, unless another Input is there. */
  free(): void;
}

/** A file, or a part of one. A view of an Input is taken where it is, also by a call that makes the memory grow. */
export type Bytes = Uint8Array | Input;

/** Says that a call refused its bytes. */
export class HunkError extends Error {
  readonly number: number;
  /** The name of the number, as "Budget". */
  readonly reason: string;
  /** A sentence that says what it means. */
  readonly text: string;
  /** The byte of the file. */
  readonly place: number;
  /** With NoBase the first hunk that has none, else as hunk.h says. */
  readonly hunk: number;
  /** With Truncated of a table how many bytes more its header has at least, else as hunk.h says. */
  readonly count: number;
}

/** Says that parts spell no file that is accepted. */
export class BuildError extends HunkError {
  /** The number of the part at fault, from 0 on, or of all where they end too soon. */
  readonly row: number;
}

/** A hunk of the table of a load file. `memory` is a place in MEMORIES; 3 is by the attributes in `extra`. */
export interface TableRow { word: number; extra: number; bytes: number; memory: number }

/** What is wrong with an offset of an object file, and the byte where that stands. `fault` is one of FAULTS: the target is no
 * hunk of the unit, or the bytes there go past the end of the hunk. */
export interface Finding { place: number; unit: number; hunk: number; offset: number; fault: number }

/** Something suspicious in a load file, and the byte where that stands: an offset, a symbol or a content block. `kind` is one of
 * WARNINGS; a later library may have others. `offset` is what is relocated; `target` its target, or the hunk of a symbol; `value`
 * the longword before it is relocated, that of a symbol, or the place in MEMORIES of what a block asks for; `other` the other
 * offset of an Overlap. What a kind does not have is 0. */
export interface Warning {
  place: number;
  hunk: number;
  kind: number;
  offset: number;
  target: number;
  value: number;
  other: number;
}

/** A part of a file. `what` is one of PARTS. `word` is the size word of a hunk of a load file, the word of a block, the target of a
 * group, the top byte of a symbol's word, or the type of an entry; `value` the attributes of a hunk, the value of a symbol or an
 * entry, bits 30 and 31 of the size word of CODE and DATA, or that of BSS. `content` is the byte at which its name or its data
 * begins, and `offsets` that at which its offsets begin, four bytes each. What a kind does not have is 0. */
export interface Part {
  what: number;
  word: number;
  value: number;
  content: number;
  contentBytes: number;
  offsets: number;
  offsetCount: number;
}

/** A part of a file with its bytes. Zero bytes fill the content up to whole longwords; a text has a character for each byte. */
export interface FilePart {
  what: number;
  word?: number;
  value?: number;
  content?: Uint8Array | string;
  offsets?: number[];
}

/** Makes parts by what they are. */
export const Part: {
  /** A hunk of a load file begins: its longwords, and its memory, one of MEMORIES. */
  hunk(longs: number, memory?: string, attributes?: number): FilePart;
  unit(name?: Uint8Array | string): FilePart;
  /** A block with its content or name, its FLAGS, and of CODE and DATA bits 30 and 31 of the size word. */
  block(kind: number, content?: Uint8Array | string, flags?: number, bits?: number): FilePart;
  bss(longs: number, flags?: number, bits?: number): FilePart;
  end(): FilePart;
  /** Offsets with one target, in the block of relocations before it. */
  group(target: number, offsets: Iterable<number>): FilePart;
  symbol(name: Uint8Array | string, value: number, top?: number): FilePart;
  entry(kind: number, name: Uint8Array | string, value?: number, offsets?: Iterable<number>): FilePart;
};

/** A row of `parts` with its bytes, as `build` takes it. */
export function partOf(bytes: Bytes, row: Part): FilePart;

export interface Unit { place: number; name: number; nameBytes: number; hunks: number }

export interface Block {
  place: number;
  bytes: number;
  unit: number;
  hunk: number;
  content: number;
  contentBytes: number;
  memory: number;
  items: number;
  /** One of KINDS, or the number of an advisory block. */
  kind: number;
  /** Those of FLAGS, added. */
  flags: number;
}

export interface Named { name: number; nameBytes: number }
export interface HunkSymbol extends Named { place: number; unit: number; hunk: number; value: number }

export interface Relocation {
  place: number;
  unit: number;
  hunk: number;
  kind: number;
  width: number;
  target: number;
  offset: number;
}

export interface Entry extends Named {
  place: number;
  unit: number;
  hunk: number;
  references: number;
  value: number;
  /** One of ENTRY_KINDS. */
  kind: number;
}

/** `entry` is the number of a row of entries. */
export interface Reference { entry: number; place: number; offset: number; width: number }

/** A file: the hunks of a load file, or 0 of an object file, and its bytes. */
export interface FileAnswer { hunks: number; bytes: number }

/** `count`: the items. Where these are more than the call's `most`, there are no rows. */
export interface Listed<Row> extends FileAnswer { count: number; rows: Rows<Row> }

/** `header`: the bytes of the header; `size`: those of the hunks in memory together. */
export interface Table { header: number; size: number; rows: Rows<TableRow> }

/** The hunks, one right after the other. */
export interface Loaded extends FileAnswer { memory: Uint8Array }

/** How an input spells its file: the bytes of its plain spelling, the blocks of short relocations that are RELOC32 there, and
 * the END that the input leaves out. */
export interface Spelling { bytes: number; shortBlocks: number; ends: number }

/** The bytes of a row's name, each as a character. A name that is not in these bytes throws a RangeError. */
export function nameOf(bytes: Bytes, row: Named): string;

/** A load file that comes piece by piece; `Hunk.begin` makes one. The pieces are those after the header. */
export class Loader {
  private constructor();
  /** 65,536 bytes for the next piece: what the caller puts there is fed without a copy. */
  readonly buffer: Uint8Array;
  /** How many bytes it took: all of them, unless the file is whole. A fault throws a HunkError, and each later call the same. */
  feed(bytes: Uint8Array): number;
  want(): { bytes: number; place: number; hunks: number };
  end(): { hunks: number; bytes: number; size: number };
  /** A view of the loader's memory. Nobody writes to it before the file is whole. */
  memory(): Uint8Array;
}

/** What `fetch` answers, as far as it is asked. A module that is named as `application/wasm` is compiled while it comes. */
export interface Fetched {
  arrayBuffer(): Promise<ArrayBuffer>;
}

/** A module: its bytes, what `fetch` answers, or a WebAssembly.Module, which only the types of a browser know. */
export type Source = ArrayBuffer | ArrayBufferView | Fetched | object;

/** Whether the engine takes hunk.wasm, which has a 64-bit memory; hunk32.wasm is for the others. */
export function takesMemory64(): boolean;

export class Hunk {
  private constructor();
  /** What is no module of this library rejects with a TypeError, and bytes that are no WebAssembly with what the engine says. */
  static open(source: Source | Promise<Source>): Promise<Hunk>;
  abi(): number;
  /** So many bytes in the module's memory, for the caller to fill. What is there is not cleared. */
  alloc(length: number): Input;
  /** A copy of the bytes in the module's memory, for more than one call. */
  put(bytes: Bytes): Input;
  reason(number: number): string;
  reasonText(number: number): string;
  table(bytes: Bytes, budget?: number): Table;
  /** `bases` is a list with an address for each hunk; what is behind the last hunk's is not used. */
  load(bytes: Bytes, bases: ArrayLike<number>, budget?: number): Loaded;
  /** `size`: the bytes of the hunks together. The memory is written, and where the call throws it is as it was. An Input, or a
   * view of one, is written without a copy; it has to be another one than the file's. */
  loadAt(bytes: Bytes, bases: ArrayLike<number>, start: number, memory: Bytes): FileAnswer & { size: number };
  loadPacked(bytes: Bytes, base: number, budget?: number): Loaded;
  /** Of fewer bases than the table has rows it throws a RangeError. */
  begin(table: Table, bases: ArrayLike<number>): Loader;
  check(bytes: Bytes, most?: number): Listed<Finding>;
  warnings(bytes: Bytes, most?: number): Listed<Warning>;
  parts(bytes: Bytes, most?: number): Listed<Part>;
  /** The file that parts spell, in the order of `parts`. Throws a BuildError where they spell none. */
  build(parts: readonly FilePart[]): Uint8Array;
  units(bytes: Bytes, most?: number): Listed<Unit>;
  blocks(bytes: Bytes, most?: number): Listed<Block>;
  symbols(bytes: Bytes, most?: number): Listed<HunkSymbol>;
  relocations(bytes: Bytes, most?: number): Listed<Relocation>;
  entries(bytes: Bytes, most?: number): Listed<Entry>;
  references(bytes: Bytes, most?: number): Listed<Reference>;
  spelling(bytes: Bytes): Spelling;
  plain(bytes: Bytes): Uint8Array;
  inputPlace(bytes: Bytes, place: number): number;
  wide<Answer>(bytes: Bytes, call: (plain: Uint8Array) => Answer): Answer;
  strip(bytes: Bytes): FileAnswer & { text: Uint8Array };
  /** What stands before the fault of a file, as a file that all calls take: `text` begins with so many `bytes` of the input, all
   * whole blocks, and goes on with what closes its hunks. Rows of it whose place is below `bytes` are the input's. Where the
   * header, or the first unit's name, is refused, `bytes` is 0, and the text is empty. */
  front(bytes: Bytes): FileAnswer & { text: Uint8Array };
}
