// Back and forward through jumps: where one was before a row, a picture, a lead or a search led elsewhere. These places
// are of the file that is shown. The history of the browser has files, and is left as it is.

/** The most places that are kept. */
const MOST = 1000;

const isTyped = (target) => target instanceof Element && target.closest("input, select, textarea") !== null;

export class Jumps {
  /** `places.here()` is where one is, as a text that tells places apart; `places.go(here)` goes there. The buttons are
   * `back` and `forward`, and `told` says which place it is. */
  constructor({ back, forward, told }, places) {
    this.back = back;
    this.forward = forward;
    this.told = told;
    this.places = places;
    this.clear();
    back.addEventListener("click", () => this.#move(-1));
    forward.addEventListener("click", () => this.#move(1));
    addEventListener("keydown", (event) => this.#key(event));
  }

  /** Forgets all places, as for another file. */
  clear() {
    this.list = [];
    this.at = 0;
    this.#tell();
  }

  /** Goes elsewhere by a call, from where one is. */
  through(jump) {
    this.list[this.at] = this.places.here();
    jump();
    const here = this.places.here();
    if (here !== this.list[this.at]) {
      this.list.splice(this.at + 1);
      this.list.push(here);
      if (this.list.length > MOST) this.list.shift();
      this.at = this.list.length - 1;
    }
    this.#tell();
  }

  /** Goes so many places on, from wherever one is by now. */
  #move(by) {
    const to = this.list[this.at + by];
    if (to === undefined) return;
    this.list[this.at] = this.places.here();
    this.at += by;
    this.places.go(to);
    this.#tell();
  }

  #key(event) {
    if (event.key !== "Backspace" || event.ctrlKey || event.altKey || event.metaKey || isTyped(event.target)) return;
    event.preventDefault();
    this.#move(event.shiftKey ? 1 : -1);
  }

  /** A button that can't be pressed any more leaves the focus to the other one. */
  #tell() {
    const { list, at, back, forward } = this;
    const focused = document.activeElement;
    back.disabled = at === 0;
    forward.disabled = at >= list.length - 1;
    this.told.textContent = list.length > 1 ? `place ${at + 1} of ${list.length}` : "";
    if (focused === back && back.disabled) forward.focus();
    if (focused === forward && forward.disabled) back.focus();
  }
}
