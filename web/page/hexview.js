// Bytes as hexadecimal digits, of any number. A caret stands at one of them, and the item is told to which it belongs.
// Bytes that are picked are marked, and can be copied.

import { copiesFrom, textOfBytes } from "./copying.js";
import { isIn, lineHtml } from "./hexlines.js";
import { Scroller } from "./scroller.js";

const HEIGHT = 19;
/** Of fewer pixels, a line has 8 bytes. */
const NARROW = 616;
/** The most bytes that are copied. */
const MOST_COPIED = 2 ** 20;

export class HexView {
  /** `line` is told of the item under the pointer, or else at the caret. */
  constructor(box, label, line) {
    box.classList.add("hex");
    box.tabIndex = 0;
    box.setAttribute("role", "group");
    box.setAttribute("aria-label", label);
    this.box = box;
    this.line = line;
    this.bytes = new Uint8Array();
    this.length = 0;
    this.source = { mark: (at) => null, item: (at) => null, names: (from, to, most) => [] };
    this.start = 0;
    this.per = 16;
    this.caret = 0;
    /** Where what is picked by keys or a pointer began. */
    this.anchor = 0;
    this.item = null;
    this.picked = null;
    this.scroller = new Scroller(box, HEIGHT, (first, count) => this.#draw(first, count));
    this.#listen();
    copiesFrom(box, () => this.copied());
    new ResizeObserver(() => this.#fit()).observe(box);
  }

  /** Shows bytes, the first at the address `start`. `source.mark(i)` says how byte i is drawn: {colour, tone, title},
   * or nothing; `source.item(i)` to which item it belongs, and `source.names(from, to)` what begins in these bytes.
   * Bytes up to `length` that are not there are drawn where they are marked. */
  show(bytes, start, length, source) {
    Object.assign(this, { bytes, start, length, source, picked: null, caret: 0, anchor: 0 });
    this.#tell(0);
    this.#fit();
    this.scroller.setCount(Math.ceil(length / this.per));
  }

  /** Shows other bytes at other addresses in the place of these: the caret, what is picked and what is seen stay. */
  renew(bytes, start, source) {
    Object.assign(this, { bytes, start, source });
    this.refresh();
  }

  /** Draws anew, and tells of the item at the caret. */
  refresh() {
    this.#tell(this.caret);
    this.scroller.refresh();
  }

  /** Scrolls to a byte. */
  go(at) {
    this.scroller.go(Math.floor(at / this.per) - 3);
  }

  /** Marks bytes as those that were picked, and goes there. */
  pick(from, to) {
    Object.assign(this, { picked: { from, to }, caret: from, anchor: from });
    this.#tell(from);
    this.go(from);
  }

  /** Marks no bytes as picked any more. */
  unpick() {
    this.picked = null;
    this.scroller.refresh();
  }

  /** Where the caret stands, what is picked, and the byte that is seen first; and back to such a place. */
  get place() {
    const { caret, anchor, picked, per, scroller } = this;
    return { caret, anchor, picked, first: scroller.top * per };
  }

  set place({ caret, anchor, picked, first }) {
    Object.assign(this, { caret, anchor, picked });
    this.#tell(caret);
    this.scroller.go(first / this.per);
  }

  /** The line of the caret, where it is drawn. */
  get caretLine() {
    return this.scroller.layer.children[Math.floor(this.caret / this.per) - this.scroller.top];
  }

  /** Bytes as text, those that are picked or others; nothing where they are none, or too many. */
  copied(from = this.picked?.from ?? 0, to = this.picked?.to ?? 0) {
    return to - from > MOST_COPIED ? "" : textOfBytes(this.bytes.subarray(from, to));
  }

  /** Tells of the item at the caret again, as after a change of the base. */
  retell() {
    this.#tell(this.caret);
  }

  /** Moves the caret, and scrolls as little as needed. Bytes are picked from where it stood, or from where they are
   * already. */
  #move(at, isPicking) {
    this.caret = Math.min(Math.max(0, at), Math.max(0, this.length - 1));
    this.#pickTo(isPicking);
    this.#tell(this.caret);
    this.scroller.reveal(Math.floor(this.caret / this.per));
  }

  #pickTo(isPicking) {
    const { anchor, caret } = this;
    if (!isPicking) this.anchor = caret;
    this.picked = isPicking ? { from: Math.min(anchor, caret), to: Math.max(anchor, caret) + 1 } : null;
  }

  #tell(at) {
    this.item = at < this.length ? this.source.item(at) : null;
    this.line.show(this.item, this);
  }

  #listen() {
    const { box } = this;
    box.addEventListener("keydown", (event) => this.#key(event));
    box.addEventListener("pointermove", (event) => this.#pointed(event));
    box.addEventListener("pointerleave", () => this.#hover(this.caret));
    box.addEventListener("pointerdown", (event) => this.#pressed(event));
    box.addEventListener("click", (event) => this.#clicked(event));
    box.addEventListener("dblclick", () => this.line.follow());
  }

  #key(event) {
    if (event.key === "Enter") {
      this.#tell(this.caret);
      this.line.follow();
      return;
    }
    if (event.key === "a" && (event.ctrlKey || event.metaKey)) {
      event.preventDefault();
      this.picked = { from: 0, to: this.bytes.length };
      this.scroller.refresh();
      return;
    }
    const page = this.per * this.scroller.seen;
    const { caret, per } = this;
    const to = {
      ArrowLeft: caret - 1, ArrowRight: caret + 1, ArrowUp: caret - per, ArrowDown: caret + per,
      PageUp: caret - page, PageDown: caret + page, Home: 0, End: this.length - 1,
    }[event.key];
    if (to === undefined) return;
    event.preventDefault();
    this.#move(to, event.shiftKey);
    this.line.speak();
  }

  /** The byte of which the digits or the letter are under the pointer. */
  #byteAt(event) {
    const part = event.target.closest?.(".line > *");
    if (!part) return undefined;
    const row = this.scroller.top + [...part.parentNode.parentNode.children].indexOf(part.parentNode);
    const cell = [...part.parentNode.children].indexOf(part) - 1;
    if (part.className === "text") {
      return row * this.per + Math.floor((event.offsetX * this.per) / Math.max(1, part.offsetWidth));
    }
    return cell >= 0 && cell < this.per ? row * this.per + cell : undefined;
  }

  /** The button of a mouse begins to pick; a finger scrolls. */
  #pressed(event) {
    const at = this.#byteAt(event);
    this.drawn = false;
    const isPress = event.button === 0 && event.pointerType === "mouse" && !event.shiftKey;
    this.pressed = isPress && at < this.length ? at : undefined;
  }

  #pointed(event) {
    const at = this.#byteAt(event);
    const isDrawing = this.pressed !== undefined && (event.buttons & 1) > 0 && at < this.length;
    if (!isDrawing || (at === this.pressed && !this.drawn)) {
      this.#hover(at);
      return;
    }
    this.drawn = true;
    this.anchor = this.pressed;
    this.#move(at, true);
  }

  #hover(at) {
    if (at === undefined || at >= this.length || isIn(at, this.item)) return;
    this.#paint("item", false);
    this.#tell(at);
    this.#paint("item", true);
  }

  #clicked(event) {
    const at = this.#byteAt(event);
    if (at === undefined || at >= this.length || this.drawn) return;
    if (event.shiftKey || this.picked) {
      this.#move(at, event.shiftKey);
      return;
    }
    this.#cell(this.caret)?.classList.remove("caret");
    this.caret = at;
    this.anchor = at;
    this.#cell(at)?.classList.add("caret");
    this.#hover(at);
  }

  /** The element of a byte, where it is drawn. */
  #cell(at) {
    const line = this.scroller.layer.children[Math.floor(at / this.per) - this.scroller.top];
    return line?.children[1 + (at % this.per)];
  }

  #paint(name, is) {
    if (!this.item) return;
    const first = Math.max(this.item.from, this.scroller.top * this.per);
    for (let at = first; at < this.item.to; at++) {
      const cell = this.#cell(at);
      if (!cell) return;
      cell.classList.toggle(name, is);
    }
  }

  #fit() {
    const per = this.box.clientWidth < NARROW ? 8 : 16;
    if (per === this.per) return;
    const at = this.scroller.top * this.per;
    this.per = per;
    this.scroller.setCount(Math.ceil(this.length / per));
    this.scroller.go(at / per);
  }

  #draw(first, count) {
    let lines = "";
    for (let row = first; row < first + count; row++) lines += lineHtml(this, row);
    return lines;
  }
}
