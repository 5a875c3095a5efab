// What web/build has packed: by deflate, and then as base64.

/** The bytes of a packed text. */
export async function unpacked(text) {
  if (!("DecompressionStream" in globalThis)) {
    throw new Error("this browser is too old to unpack it");
  }
  const bytes = Uint8Array.from(atob(text), (c) => c.charCodeAt(0));
  const stream = new Blob([bytes]).stream().pipeThrough(new DecompressionStream("deflate"));
  return new Uint8Array(await new Response(stream).arrayBuffer());
}
