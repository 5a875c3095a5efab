// The link of what is shown: #example=NAME or #hex=DIGITS, &base=ADDRESS, and &at=BYTE. A file is put into one only
// when that is asked for: an address stays in the history of the browser. A link to a byte alone leads there in the
// file that is dropped next.

/** The longest file that is put into a link. */
const MOST = 4096;

const here = () => location.href.replace(/#.*/s, "");

export function readLink() {
  const said = new URLSearchParams(location.hash.slice(1));
  return { example: said.get("example"), hex: said.get("hex"), base: said.get("base"), at: said.get("at") };
}

/** What the address says of what is shown, with this base; nothing where it says nothing. */
export function linkAt(base) {
  const said = new URLSearchParams(location.hash.slice(1));
  if (!said.has("example") && !said.has("hex")) return null;
  said.set("base", base);
  return `#${said}`;
}

/** A link to an example, or with these bytes in it, and to a byte `at` of them. Where they are too many it is of the
 * byte alone, and null where there is none. */
export function linkOf({ example, bytes, base, at }) {
  const isTooLong = !example && bytes.length > MOST;
  if (isTooLong && !at) return null;
  const said = new URLSearchParams(isTooLong ? {} : example ? { example } : { hex: toHex(bytes) });
  if (base && !isTooLong) said.set("base", base);
  if (at) said.set("at", at);
  return `${here()}#${said}`.replaceAll("%3A", ":");
}

/** What a link has of a file of one's own. */
function heldText(link) {
  if (link.includes("#hex=")) return "Copied. The file itself is in the link.";
  const isByte = link.includes("#at=");
  return `Copied.${isByte ? " It leads to the byte, once the same file is dropped: too many bytes for a link." : ""}`;
}

/** Copies a link, and says what came of it. Where the browser lets nothing be copied, a field has the link. */
export async function copyLink(link, field, told) {
  field.hidden = true;
  if (!link) {
    told.textContent = `A link takes a file of ${MOST.toLocaleString("en")} bytes at most.`;
    return;
  }
  try {
    await navigator.clipboard.writeText(link);
    told.textContent = heldText(link);
  } catch {
    told.textContent = "This browser lets nothing be copied. The link is here:";
    field.value = link;
    field.hidden = false;
    field.select();
  }
}

const toHex = (bytes) => Array.from(bytes, (byte) => byte.toString(16).padStart(2, "0")).join("");

/** The bytes of digits, in any grouping; what is no digit is passed over. */
export function fromHex(text) {
  const digits = text.replace(/[^0-9a-f]/gi, "").match(/../g) ?? [];
  return Uint8Array.from(digits, (it) => parseInt(String(it), 16));
}
