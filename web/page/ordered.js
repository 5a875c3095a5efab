// Rows of a list in the order of a column.

/** Compares numbers, or texts as they are spelled but for capitals; nothing else comes into one column. */
const compared = (one, other) => (one < other ? -1 : one > other ? 1 : 0);
const keyed = (value) => (typeof value === "string" ? value.toLowerCase() : value);

/** The numbers of rows, rising by what `key(i)` gives of each, or falling with the direction -1. Those of one key stay
 * in their order. */
export function ordered(numbers, key, direction) {
  const given = Array.from(numbers);
  const keys = given.map((i) => keyed(key(i)));
  const places = Uint32Array.from(given.keys());
  places.sort((one, other) => direction * compared(keys[one], keys[other]) || one - other);
  return Array.from(places, (place) => given[place]);
}

/** How a head that is pressed sorts: by its column, or by the same one again in the other direction. */
export const sortedBy = (column, sorted) => ({ column, direction: sorted?.column === column ? -sorted.direction : 1 });
