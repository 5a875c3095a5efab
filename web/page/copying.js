// Copying: what has the focus gives the text, as rows with tabs between their cells or bytes as hexadecimal digits.

/** What gives a text, by the element that has the focus. */
const givers = new Map();

/** Has `give()` answer the text that is copied while an element has the focus; nothing leaves it to the browser. */
export function copiesFrom(box, give) {
  givers.set(box, give);
}

// A browser sends the event to what is selected, or to the page, so it is caught there.
document.addEventListener("copy", (event) => {
  if (!getSelection().isCollapsed) return;
  const text = givers.get(document.activeElement)?.();
  if (!text) return;
  event.clipboardData.setData("text/plain", text);
  event.preventDefault();
});

/** Copies a text for a button, and tells what came of it. */
export async function copyText(text, said, told) {
  try {
    await navigator.clipboard.writeText(text);
    told.textContent = said;
  } catch {
    told.textContent = "This browser lets no button copy. Select it, and press Ctrl and C.";
  }
}

/** The text of a cell of a grid. */
export const textOf = (cell) => String(cell.text ?? cell);
const cellText = (cell) => textOf(cell).replace(/[\t\r\n]/g, " ");

/** Rows of cells as text, a line for each. */
export const textOfRows = (rows) => rows.map((cells) => `${cells.map(cellText).join("\t")}\n`).join("");

const PER_LINE = 16;

/** Bytes as hexadecimal digits, 16 in a line. */
export function textOfBytes(bytes) {
  const digits = Array.from(bytes, (it) => it.toString(16).padStart(2, "0"));
  const lines = [];
  for (let i = 0; i < digits.length; i += PER_LINE) lines.push(`${digits.slice(i, i + PER_LINE).join(" ")}\n`);
  return lines.join("");
}
