// What a caller hands over, tried before a call does anything. What is of another kind throws a TypeError, and a number out of
// its range a RangeError; both name the argument.

/** The most that a longword holds, and the most of a count of bytes. */
export const MOST_LONG = 2 ** 32 - 1;
export const MOST_BYTES = 2 ** 53;
/** No file has more hunks. */
const MOST_HUNKS = 65536;

const TYPED_ARRAY = Object.getPrototypeOf(Uint8Array.prototype);
const { get: typedName } = Object.getOwnPropertyDescriptor(TYPED_ARRAY, Symbol.toStringTag);
/** Typed arrays whose elements are bytes; a Buffer of node is the first of these. */
const OF_BYTES = ["Uint8Array", "Int8Array", "Uint8ClampedArray"];

/** How much of a text an error shows. */
const MOST_TEXT = 20;

/** What a value is, as an error says it. */
function told(value) {
  if (value === null || value === undefined || typeof value === "number") return String(value);
  if (typeof value === "string") return JSON.stringify(value.slice(0, MOST_TEXT));
  const kind = typedName.call(value) ?? typeof value;
  return `${/^[aeiouI]/.test(kind) ? "an" : "a"} ${kind}`;
}

/** Throws what says that this value is not what is wanted. */
export function refuse(name, wanted, value) {
  const Kind = typeof value === "number" ? RangeError : TypeError;
  throw new Kind(`${name}: ${wanted} is wanted, not ${told(value)}`);
}

export const isWhole = (value, most) => Number.isInteger(value) && value >= 0 && value <= most;

/** A whole number, from 0 to the most that it may be. */
export function whole(name, value, most) {
  if (!isWhole(value, most)) refuse(name, `a whole number from 0 to ${most}`, value);
  return value;
}

/** Throws a TypeError for a value that is none of what is wanted, a number too. */
export function refuseKind(name, wanted, value) {
  throw new TypeError(`${name}: ${wanted} is wanted, not ${told(value)}`);
}

/** Whether a view has no memory any more: its buffer has grown, was handed on, or is too short. Then it is no empty one. */
function isGone(view) {
  if (view.byteLength > 0) return false;
  try {
    TYPED_ARRAY.keys.call(view);
    return false;
  } catch {
    return true;
  }
}

function refuseGone(name, view) {
  if (!isGone(view)) return;
  throw new TypeError(`${name}: the memory of this ${typedName.call(view)} is gone: it has grown, shrunk or been handed on`);
}

/** The bytes of a view whose elements are bytes. No other is taken: one of wider elements might stand for its elements, or for
 * their bytes. */
export function bytesOf(name, view, wanted) {
  const kind = typedName.call(view);
  if (!OF_BYTES.includes(kind)) refuseKind(name, wanted, view);
  refuseGone(name, view);
  return kind === OF_BYTES[0] ? view : new Uint8Array(view.buffer, view.byteOffset, view.byteLength);
}

/** A copy of a list of longwords: nothing that happens to the list then, or to the memory where it lies, changes what is done. */
export function longs(name, list) {
  const length = list === null || typeof list !== "object" ? undefined : list.length;
  if (!isWhole(length, MOST_BYTES)) refuseKind(name, "a list of numbers", list);
  if (ArrayBuffer.isView(list)) refuseGone(name, list);
  const copy = new Uint32Array(Math.min(length, MOST_HUNKS));
  for (let i = 0; i < copy.length; i++) {
    const it = list[i];
    if (!isWhole(it, MOST_LONG)) whole(`${name}[${i}]`, it, MOST_LONG);
    copy[i] = it;
  }
  return copy;
}

/** A function. */
export function callable(name, value) {
  if (typeof value !== "function") refuseKind(name, "a function", value);
}
