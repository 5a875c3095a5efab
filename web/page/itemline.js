// The line beside a view of bytes that says what stands under the pointer or the caret, and leads to where its value
// points.

import { hex } from "./names.js";

const LONG = 4;
const part = (tag, text, name = "") =>
  Object.assign(document.createElement(tag), { textContent: text, className: name });

function textsOf({ from, to, where, name, says }, { bytes, start }) {
  const value = to - from <= LONG ? Array.from(bytes.subarray(from, to), (it) => hex(it, 2)).join("") : "";
  const texts = [
    part("span", hex(start + from), "at"),
    part("span", [where, name].filter(Boolean).join(": ")),
    part("code", value),
    part("span", says),
  ];
  return texts.filter((it) => it.textContent);
}

const isReached = ({ file, memory }) => file !== undefined || memory !== undefined;

export class ItemLine {
  /** `jump(target)` is called for a target that is followed. */
  constructor(box, jump) {
    box.classList.add("item-line");
    this.texts = part("p", "");
    this.leads = part("p", "");
    // What is under a pointer is seen, and is not spoken; what keys lead to is.
    this.spoken = part("p", "", "spoken");
    this.spoken.setAttribute("role", "status");
    box.append(this.texts, this.leads, this.spoken);
    this.jump = jump;
    this.targets = [];
  }

  /** Shows an item of a view, or nothing: a line of what it is, and one of what it leads to. */
  show(item, view) {
    this.view = view;
    const targets = (item?.targets ?? []).filter(Boolean);
    this.targets = targets.filter(isReached);
    const texts = item ? textsOf(item, view) : [];
    this.texts.replaceChildren(...texts);
    this.texts.title = texts.map((it) => it.textContent).join(" ");
    this.leads.replaceChildren(...targets.map((target) => this.#target(target)));
  }

  /** Has screen readers speak what is shown. */
  speak() {
    this.spoken.textContent = this.texts.title;
  }

  #target(target) {
    const text = `→ ${target.text}`;
    if (!isReached(target)) return part("span", text);
    const button = part("button", text);
    if (target === this.targets[0]) button.title = "Enter or a double click goes there, too";
    button.addEventListener("click", () => this.#lead(button, target));
    return button;
  }

  /** Goes to a target. Where the line is another one then, the focus is left to the view, and not lost with the
   * button. */
  #lead(button, target) {
    this.jump(target);
    if (!button.isConnected) this.view.box.focus({ preventScroll: true });
  }

  /** Goes where the value leads to. */
  follow() {
    if (this.targets.length > 0) this.jump(this.targets[0]);
  }
}
