// What is there before a file of one's own: a sentence, three examples that are described, and all others by their
// names.

import { fromHex } from "./link.js";
import { unpacked } from "./packed.js";
import { EXAMPLES } from "./data.js";

/** What is shown at once. */
export const FIRST = "sum";

export class Opening {
  /** `cards` are links to examples; `list` takes all of them. */
  constructor(cards, list) {
    this.cards = [...cards];
    this.list = list;
    this.texts = new Map();
  }

  async fill() {
    const groups = JSON.parse(new TextDecoder().decode(await unpacked(EXAMPLES)));
    for (const [label, examples] of groups) {
      const group = document.createElement("optgroup");
      group.label = label;
      for (const [name, digits] of examples) {
        group.append(new Option(name, name));
        this.texts.set(name, digits);
      }
      this.list.append(group);
    }
  }

  /** The bytes of an example; nothing where there is none of this name. */
  bytes(name) {
    return this.texts.has(name) ? fromHex(this.texts.get(name)) : null;
  }

  /** Marks the example that is shown. Where that is null, a file of one's own is shown, which takes the place of the
   * opening. */
  mark(name) {
    document.body.classList.toggle("has-own", name === null);
    this.list.value = name ?? "";
    for (const card of this.cards) {
      if (card.hash === `#example=${name}`) card.setAttribute("aria-current", "true");
      else card.removeAttribute("aria-current");
    }
  }
}

/** The title of the page follows what is shown. */
export function entitle(what) {
  document.title = `${what} - hunk files`;
}
