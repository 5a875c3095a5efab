// What a file is by its first bytes, where it is no hunk file, by docs/foreign.tsv.

/** So many bytes are looked at. */
const FIRST = 1088;

/** Tab, line ends, form feed and escape, and what is printed of ASCII and ISO 8859-1. */
const isOfText = (byte) =>
  [9, 10, 12, 13, 27].includes(byte) || (byte >= 0x20 && byte < 0x7f) || byte >= 0xa0;

/** Whether the bytes have those of a row at its place: hexadecimal digits, with ?? for any byte. */
function fits(bytes, [place, digits]) {
  const wanted = digits.match(/../g);
  const isAt = (it, i) => it === "??" || parseInt(it, 16) === bytes[place + i];
  return bytes.length >= place + wanted.length && wanted.every(isAt);
}

/** What the bytes begin as, by the first row that fits: [place, digits, what]; null where that is not known, or there
 * are none. */
export function whatIs(bytes, rows) {
  const first = bytes.subarray(0, FIRST);
  const row = rows.find((it) => fits(first, it));
  if (row) return row[2];
  return first.length > 0 && first.every(isOfText) ? "text" : null;
}
