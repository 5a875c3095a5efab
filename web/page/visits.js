// What was shown, one after the other, in the history of the browser: Back and Forward show files of one's own again,
// for as long as the page is open. A link to an example, or with a file in it, is an address, and is kept by the
// browser itself.

/** This page as it is open now: its visits are gone when it is loaded again. */
const PAGE = `${performance.timeOrigin} ${Math.random()}`;
/** The most bytes of files that are kept; others are read again when they are shown again. */
const MOST_BYTES = 2 ** 28;

export class Visits {
  /** `go(visit)` is called where the browser goes to another place: with what was shown there, or null where its
   * address says it. */
  constructor(go) {
    this.visits = [];
    this.go = go;
    this.here = this.#key();
    // A browser tells of a change of the link by both.
    for (const name of ["popstate", "hashchange"]) addEventListener(name, () => this.#went());
  }

  /** What tells the places in the history apart. */
  #key() {
    return history.state?.page === PAGE ? `visit ${history.state.visit}` : location.hash;
  }

  #went() {
    const key = this.#key();
    if (key === this.here) return;
    this.here = key;
    this.go(history.state?.page === PAGE ? this.visits[history.state.visit] : null);
  }

  /** Counts what is shown now: {files, isPartial, found, bytes}. The address says nothing of it. */
  add(visit) {
    this.visits.push(visit);
    history.pushState({ page: PAGE, visit: this.visits.length - 1 }, "", location.href.replace(/#.*/s, ""));
    this.here = this.#key();
    this.#forget();
  }

  /** Has the address say what is shown, in its place. */
  rename(hash) {
    history.replaceState(history.state, "", hash);
    this.here = this.#key();
  }

  /** Lets go of the bytes of the first files, where all have too many. */
  #forget() {
    let sum = 0;
    for (const visit of this.visits.slice().reverse()) {
      sum += visit.bytes?.length ?? 0;
      if (sum > MOST_BYTES) visit.bytes = undefined;
    }
  }
}
