// Scrolling the page to what was gone to.

/** How far from the edges of the window it then stands, at least: above are the buttons of jumps.js. */
const ABOVE = 54;
const BELOW = 24;

/** Scrolls as little as needed for elements to be seen: all of them where there is room, else the first.
 * @param {Element[]} elements */
export function bringIntoSight(elements) {
  const boxes = elements.map((it) => it.getBoundingClientRect());
  if (boxes.length === 0) return;
  const edges = (some) => [Math.min(...some.map((it) => it.top)), Math.max(...some.map((it) => it.bottom))];
  const all = edges(boxes);
  const [top, bottom] = all[1] - all[0] > innerHeight - ABOVE - BELOW ? edges(boxes.slice(0, 1)) : all;
  const by = top < ABOVE ? top - ABOVE : Math.max(0, bottom - innerHeight + BELOW);
  if (by !== 0) scrollBy(0, by);
}
