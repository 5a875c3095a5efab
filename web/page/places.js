// Places, as types of their own. A byte of the file, a byte of what is read of it, a byte of the memory and a count of
// bytes are all numbers, and to take one for another leads to a wrong place. `tsc` holds the page to these types
// (web/selftest).

/** A byte of the file, as it was dropped.
 * @typedef {number & { readonly of: "the file" }} FilePlace */

/** A byte of what is read: of the file, or of its plain spelling.
 * @typedef {number & { readonly of: "the text" }} TextPlace */

/** A byte of the memory, counted from its first.
 * @typedef {number & { readonly of: "the memory" }} MemoryPlace */

/** @typedef {{ from: FilePlace, to: FilePlace }} FileRange */
/** @typedef {{ from: MemoryPlace, to: MemoryPlace }} MemoryRange */

/** Where something stands: in the file, in the memory, in both or nowhere.
 * @typedef {{ file?: FileRange, memory?: MemoryRange }} Target */

/** A target that is told, as beside the bytes that lead to it.
 * @typedef {Target & { text: string }} Lead */

/** @type {(byte: number) => FilePlace} */
export const filePlace = (byte) => /** @type {FilePlace} */ (byte);

/** @type {(byte: number) => TextPlace} */
export const textPlace = (byte) => /** @type {TextPlace} */ (byte);

/** @type {(byte: number) => MemoryPlace} */
export const memoryPlace = (byte) => /** @type {MemoryPlace} */ (byte);

/** @type {(from: MemoryPlace, bytes: number) => MemoryRange} */
export const memoryRange = (from, bytes) => ({ from, to: memoryPlace(from + bytes) });
