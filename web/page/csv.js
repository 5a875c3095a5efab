// Rows as CSV: commas between the cells, and quotes around one that has a comma, a quote or a line end.

const quoted = (cell) => (/[",\r\n]/.test(cell) ? `"${cell.replaceAll('"', '""')}"` : cell);

/** Rows of cells as text, a line for each. */
const lineOf = (cells) => `${cells.map((cell) => quoted(String(cell))).join(",")}\r\n`;
export const csvOf = (rows) => rows.map(lineOf).join("");
