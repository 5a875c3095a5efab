// How the bytes of a file in another spelling stand to those of its plain spelling, which is what the library reads.
// Short relocations have half the bytes there, and an END that was left out has none.

import { KINDS } from "../../bindings/javascript/kinds.js";
import { filePlace, textPlace } from "./places.js";

const LONG = 4;
const SHORT = [KINDS.RELOC32SHORT, KINDS.DREL32];

/** The type of the block whose word stands at a byte; -1 where no longword does. */
function typeAt(bytes, at) {
  if (at + LONG > bytes.length) return -1;
  return (((bytes[at] << 24) | (bytes[at + 1] << 16) | (bytes[at + 2] << 8) | bytes[at + 3]) & 0x1fffffff) >>> 0;
}

/** The last of rising numbers that is at most this one. */
function lastBelow(list, number) {
  let low = 0;
  let high = list.length;
  while (low < high) {
    const middle = (low + high) >> 1;
    if (list[middle] <= number) low = middle + 1;
    else high = middle;
  }
  return low - 1;
}

export class Spelled {
  /** Pieces, each from a byte of the text and one of the file on: `shares` says how many bytes of the file one of the
   * text has. */
  texts = [0];
  files = [0];
  shares = [1];

  /** Of the file, and the blocks of its plain spelling. */
  constructor(input, blocks) {
    this.input = input;
    let at = 0;
    let behind = 0;
    for (let i = 0; i < blocks.length; i++) {
      const place = blocks.get(i, "place");
      const end = place + blocks.get(i, "bytes");
      at = this.#follow(blocks.get(i, "kind"), place, end, at + place - behind);
      behind = end;
    }
  }

  /** Follows a block of the text to its end in the file, from the byte `at` on. */
  #follow(kind, place, end, at) {
    const type = typeAt(this.input, at);
    if (kind === KINDS.END && type !== KINDS.END) {
      this.#begin(place, at, 0);
      this.#begin(end, at, 1);
      return at;
    }
    if (kind !== KINDS.RELOC32 || !SHORT.includes(type)) return at + end - place;
    this.#begin(place + LONG, at + LONG, 0.5);
    // A word fills up the last longword.
    const next = LONG * Math.ceil((at + LONG + (end - place - LONG) / 2) / LONG);
    this.#begin(end, next, 1);
    return next;
  }

  #begin(text, file, share) {
    this.texts.push(text);
    this.files.push(file);
    this.shares.push(share);
  }

  /** @param {import("./places.js").TextPlace} place */
  inFile(place) {
    const i = lastBelow(this.texts, place);
    return filePlace(this.files[i] + Math.floor(this.shares[i] * (place - this.texts[i])));
  }

  /** @param {import("./places.js").FilePlace} place */
  inText(place) {
    const i = lastBelow(this.files, place);
    const text = this.texts[i] + (place - this.files[i]) / this.shares[i];
    return textPlace(i + 1 < this.texts.length ? Math.min(text, this.texts[i + 1] - 1) : text);
  }

  /** The type that a block has in the file; nothing where it is put in.
   * @param {import("./places.js").TextPlace} place */
  typeOf(place, kind) {
    const type = typeAt(this.input, this.inFile(place));
    if (kind === KINDS.END) {
      return type === KINDS.END && this.shares[lastBelow(this.texts, place)] > 0 ? kind : undefined;
    }
    return kind === KINDS.RELOC32 && SHORT.includes(type) ? type : kind;
  }
}
