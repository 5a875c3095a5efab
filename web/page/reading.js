// Reading what a drop or a field brought. What can't be read is told, and the rest is shown.

/** The most names that are told with one reason. */
const NAMED = 3;

/** What browsers read at once has fewer bytes. */
const MOST = 2 ** 31;

function whyNot(file, name, error) {
  if (name.includes("\ufffd")) return "the name is no UTF-8 text";
  if (file?.size >= MOST) return "too large for this browser";
  return error?.name === "NotFoundError" ? "no longer there" : "changed since, or without permission to read";
}

/** Its bytes, or why there are none. */
export async function bytesOf({ file, name, error }) {
  if (!file) return { why: whyNot(file, name, error) };
  try {
    return { bytes: new Uint8Array(await file.arrayBuffer()) };
  } catch (fault) {
    return { why: whyNot(file, name, fault) };
  }
}

/** How many could not be read, and which of them why: {name, why}. */
export function unreadText(unread) {
  if (unread.length === 0) return "";
  const told = [...new Set(unread.map(({ why }) => why))].map((why) => {
    const names = unread.filter((it) => it.why === why).map(({ name }) => name);
    const rest = names.length > NAMED ? ` and ${(names.length - NAMED).toLocaleString("en")} more` : "";
    return `${names.slice(0, NAMED).join(", ")}${rest} (${why})`;
  });
  return `${unread.length.toLocaleString("en")} could not be read: ${told.join("; ")}.`;
}

/** Of a folder in which a browser leaves names out. It says nowhere how many. */
export const PARTIAL =
  'Of a dropped folder this browser leaves out names with any of : * ? " < > | \\ and some others, ' +
  "and does not count them. Choose the folder to have them, too.";
