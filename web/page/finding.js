// Going to an address, and finding bytes or a text, in a view of bytes.

/** What is said: an address as 21004, 0x21004 or $21004; bytes as `4e 75`; a text as `"dos.library"`, or one that is
 * neither. */
function meantBy(said) {
  const quoted = /^"(.*?)"?$/s.exec(said);
  if (quoted) return { text: quoted[1] };
  const address = /^(?:0x|\$)?([0-9a-f]{1,8})$/i.exec(said);
  if (address) return { address: parseInt(address[1], 16), digits: said.length % 2 === 0 ? said : "" };
  return /^([0-9a-f]{2}\s*)+$/i.test(said) ? { digits: said.replace(/\s/g, "") } : { text: said };
}

const bytesOfText = (text) => Uint8Array.from(Array.from(text, (it) => it.charCodeAt(0) & 255));
const bytesOfDigits = (digits) => Uint8Array.from((digits.match(/[0-9a-f]{2}/gi) ?? []).map((it) => parseInt(it, 16)));

/** The first place from `start` on at which bytes have others; -1 where there is none. */
function placeOf(bytes, wanted, start) {
  const last = bytes.length - wanted.length;
  for (let at = bytes.indexOf(wanted[0], start); at >= 0 && at <= last; at = bytes.indexOf(wanted[0], at + 1)) {
    if (wanted.every((it, i) => bytes[at + i] === it)) return at;
  }
  return -1;
}

/** Where bytes come next behind a place, or again from the front on. */
function nextOf(bytes, wanted, behind) {
  if (wanted.length === 0) return -1;
  const next = placeOf(bytes, wanted, behind + 1);
  return next >= 0 ? next : placeOf(bytes, wanted, 0);
}

/** The bytes of a view that are meant by what is said, {from, to}; null where there are none. */
export function found({ bytes, start, caret }, said) {
  const { address, digits = "", text } = meantBy(said.trim());
  const at = address === undefined ? -1 : (address - start) >>> 0;
  if (at >= 0 && at < bytes.length) return { from: at, to: Math.min(at + 4, bytes.length) };
  const wanted = text === undefined ? bytesOfDigits(digits) : bytesOfText(text);
  const from = nextOf(bytes, wanted, caret);
  return from < 0 ? null : { from, to: from + wanted.length };
}

/** A field above a view: Enter goes to what it says, and again to the next. `go(range)` shows it. */
export function addFinding(field, told, view, go) {
  field.addEventListener("input", () => (told.textContent = ""));
  field.addEventListener("keydown", (event) => {
    if (event.key !== "Enter" || field.value.trim() === "") return;
    const range = found(view, field.value);
    told.textContent = range ? "" : "It is not there.";
    if (range) go(range);
  });
}
