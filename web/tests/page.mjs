// The page as tests see it: opened in a browser, given files, and asked what it shows.

import { pathToFileURL } from "node:url";

/** The address that memory is shown from. */
export const BASE = "00021000";

/** How long a test waits for what is to be shown, in milliseconds: 13,000 files take minutes where others use the
 * machine. */
const MOST_TIME = 600000;

/** How many bytes of what is saved come in one answer. */
const PIECE = 1 << 18;

export class Page {
  constructor(browser, path) {
    this.browser = browser;
    this.url = pathToFileURL(path).href;
    this.links = 0;
  }

  in(body, ...values) {
    return this.browser.runIn(body, ...values);
  }

  /** Does what makes the page show something new, and waits for it. */
  async shows(doing) {
    const before = await this.in("return document.body.dataset.shows ?? '0'");
    await doing();
    await this.in(
      `for (const end = performance.now() + values[1]; (document.body.dataset.shows ?? "0") === values[0]; ) {
         if (performance.now() > end) throw new Error("nothing new is shown");
         await new Promise((done) => setTimeout(done, 5));
       }`,
      before,
      MOST_TIME,
    );
  }

  async open(hash = "", from = this.url) {
    await this.browser.go("about:blank");
    await this.browser.go(from + hash);
    await this.in(
      `for (let i = 0; !(document.body && "ready" in document.body.dataset); i++) {
         if (i > 600) throw new Error("the page does not open");
         await new Promise((done) => setTimeout(done, 5));
       }`,
    );
  }

  hex(digits) {
    return this.shows(() => this.in(`location.hash = values[0]`, `#hex=${digits}&base=${BASE}&link=${++this.links}`));
  }

  /** Drops files, [name, digits], as one that comes from the desktop would be. */
  drop(files) {
    return this.shows(() =>
      this.in(
        `const transfer = new DataTransfer();
         for (const [name, digits] of values[0]) {
           const bytes = Uint8Array.from(digits.match(/../g) ?? [], (it) => parseInt(it, 16));
           transfer.items.add(new File([bytes], name));
         }
         const init = { dataTransfer: transfer, bubbles: true, cancelable: true };
         document.body.dispatchEvent(new DragEvent("drop", init));`,
        files,
      ),
    );
  }

  /** What a button saves, as digits. They come in pieces, as Chromium's driver ends at an answer of several MB. */
  async saved(id) {
    const length = await this.in(
      `const was = URL.createObjectURL;
       let blob;
       URL.createObjectURL = (it) => { blob = it; return "#"; };
       HTMLAnchorElement.prototype.click = () => {};
       document.getElementById(values[0]).click();
       URL.createObjectURL = was;
       window.saved = new Uint8Array(await blob.arrayBuffer());
       return saved.length`,
      id,
    );
    const piece = `return Array.from(saved.subarray(...values), (it) => it.toString(16).padStart(2, "0")).join("")`;
    const pieces = [];
    for (let at = 0; at < length; at += PIECE) pieces.push(await this.in(piece, at, at + PIECE));
    return pieces.join("");
  }
}
