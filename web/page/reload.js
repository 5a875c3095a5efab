// A file that changes on disk while it is shown, as by a build: where the browser lets the page see that, a button
// reads it again.
//
// A handle gives the file as it is now, and so does an entry of a folder; Firefox reads the same file again, though its
// date stays. Chromium reads no file that was picked by a field once that has changed: then there is no button.

/** How often the date of a file is asked for. */
const BETWEEN = 1500;
/** The most bytes that are read to see whether they are others. */
const MOST = 2 ** 26;

const isSame = (one, other) => one.length === other.length && one.every((byte, i) => byte === other[i]);

export class Reload {
  /** `reload(found, table)` is called for the file as it is now, and the table that it is of. */
  constructor(button, reload) {
    this.button = button;
    this.reload = reload;
    this.watch(null);
    button.addEventListener("click", () => this.#read());
    addEventListener("focus", () => this.#look(true));
    document.addEventListener("visibilitychange", () => this.#look(true));
    setInterval(() => this.#look(false), BETWEEN);
  }

  /** Watches the file of a visit, or with null none. */
  watch(visit) {
    this.visit = visit;
    // Chromium asks the disk for them when they are first looked at.
    const { lastModified, size } = visit?.found.file ?? {};
    this.known = { lastModified, size };
    this.fresh = null;
    this.button.hidden = true;
  }

  /** Has the file read as it is by now: it may have been half written when it was seen to have changed. */
  async #read() {
    const { visit, fresh } = this;
    const file = (await visit.found.again?.().catch(() => null)) ?? fresh;
    if (visit === this.visit) this.reload({ ...visit.found, file }, visit.table);
  }

  /** Looks whether the file is another one now: by its bytes, or by its date and size alone. */
  async #look(isWhole) {
    const { visit } = this;
    if (!visit || this.fresh || document.hidden || !(visit.found.again || isWhole)) return;
    const file = await this.#changed(visit, isWhole).catch(() => null);
    if (!file || visit !== this.visit) return;
    this.fresh = file;
    this.button.hidden = false;
  }

  async #changed({ found: { file, again }, bytes }, isWhole) {
    const now = again ? await again() : file;
    if (now.lastModified !== this.known.lastModified || now.size !== this.known.size) return now;
    // The bytes of the first files of many are not kept.
    if (!isWhole || !bytes || bytes.length > MOST) return null;
    return isSame(new Uint8Array(await now.arrayBuffer()), bytes) ? null : now;
  }
}
