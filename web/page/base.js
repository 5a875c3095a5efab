// The field of the address that memory is shown from.

import { hex, numberOf } from "./names.js";

export class BaseField {
  /** `changed()` is called for another address. What is none is told in `note`, and the address stays as it was. */
  constructor(field, note, changed) {
    this.field = field;
    this.note = note;
    this.set(field.value);
    field.addEventListener("input", () => numberOf(field.value) !== null && this.#mark(false));
    field.addEventListener("change", () => this.set(field.value) && changed());
  }

  /** Takes a text as the address, where it is one. */
  set(text) {
    this.field.value = text;
    const number = numberOf(text);
    this.#mark(number === null);
    if (number === null) return false;
    this.address = number;
    return true;
  }

  get text() {
    return hex(this.address);
  }

  #mark(isWrong) {
    if (isWrong) this.field.setAttribute("aria-invalid", "true");
    else this.field.removeAttribute("aria-invalid");
    this.note.textContent = isWrong ? "No address of up to 8 hexadecimal digits." : "";
  }
}
