// A caller that compiles by the types of the package alone, with none of a browser or of node.
import { type Block, entryKindName, HunkError, Hunk, type Input, KINDS, kindName, MEMORIES, nameOf, open } from "hunk-files";
import { BuildError, type FilePart, Part, partOf, PARTS, type Rows, type Warning, type WarningKind, warningName, WARNINGS } from "hunk-files";
import { open as openInline } from "hunk-files/inline";
import { Hunk as Plain, type Source, takesMemory64 } from "hunk-files/hunk.js";
import { type ElfInput, NoForm, program, relocatable } from "hunk-files/sections.js";

async function lists(hunk: Hunk, bytes: Uint8Array): Promise<string[]> {
  const input: Input = hunk.put(bytes);
  const { rows, hunks }: { rows: Rows<Block>; hunks: number } = hunk.blocks(input);
  const names = Array.from(rows, (it) => `${hunks} ${kindName(it.kind)} ${it.kind === KINDS.CODE}`);
  for (const it of hunk.entries(input.bytes).rows) names.push(entryKindName(it.kind) + nameOf(input, it));
  for (const it of hunk.table(bytes).rows.copy()) names.push(MEMORIES[it.memory] ?? "");
  const place: number = rows.get(0, "place");
  const kinds: Uint32Array | Float64Array = rows.column("kind");
  names.push(kindName(kinds[0] ?? place));
  const { text, bytes: end }: { text: Uint8Array; bytes: number } = hunk.front(input);
  names.push(...Array.from(hunk.blocks(text).rows, (it) => String(it.place < end)));
  const warned: Warning[] = [...hunk.warnings(bytes).rows];
  const odd: WarningKind = "OddOffset";
  names.push(...warned.map((it) => `${warningName(it.kind)} ${it.kind === WARNINGS[odd]} ${it.other}`));
  const parts: Part[] = [...hunk.parts(input).rows];
  names.push(...parts.map((it) => `${it.what === PARTS.GROUP} ${it.offsetCount}`));
  const listed: FilePart[] = parts.map((it) => partOf(input, it));
  names.push(String(hunk.build([...listed, Part.symbol("name", 0), { what: PARTS.UNIT }]).length));
  // @ts-expect-error: a part is no row
  hunk.build(parts);
  // @ts-expect-error: a row has no such field
  rows.get(place, "nothing");
  // @ts-expect-error: nor a column of it
  rows.column("nothing");
  // @ts-expect-error: a file is no text
  hunk.check("file");
  // @ts-expect-error: an address is no text
  hunk.loadPacked(bytes, "21000");
  // @ts-expect-error: a budget is a number
  hunk.table(bytes, 5n);
  hunk.put(input).free();
  // @ts-expect-error: a type of block that is not there
  names.push(String(KINDS.NOTHING));
  input.free();
  return names;
}

function loads(hunk: Hunk, bytes: Uint8Array, ram: Input): Uint8Array {
  const table = hunk.table(bytes);
  const loader = hunk.begin(table, new Uint32Array(table.rows.length));
  loader.feed(loader.buffer.subarray(0, loader.want().bytes));
  hunk.loadAt(bytes, [0x1000], 0x1000, ram);
  return hunk.wide(bytes, (plain) => hunk.loadPacked(plain, 0x21000).memory);
}

/** A file of ELF, of rows as the library lists them. */
function elfOf(hunk: Hunk, bytes: Uint8Array, base: number): Uint8Array {
  const symbols = Array.from(hunk.symbols(bytes).rows, (it) => ({ ...it, name: nameOf(bytes, it) }));
  const hunks = [{ bytes: 4, memory: "any" as const, kind: KINDS.CODE, content: bytes.subarray(32, 36) }];
  const file: ElfInput = { units: [], findings: [], hunks, symbols, relocations: [...hunk.relocations(bytes).rows], entries: [] };
  try {
    return relocatable(file);
  } catch (error) {
    return error instanceof NoForm && error.place > 0 ? bytes : program(file, base, [hunk.loadPacked(bytes, base).memory]);
  }
}

const told = (error: HunkError): string => `${error.place} ${error.reason} ${error.number} ${error.text}`;

export async function main(source: Source): Promise<void> {
  const hunk = takesMemory64() ? await open() : await openInline();
  const plain: Hunk = await Plain.open(source);
  await Plain.open(Promise.resolve(new Uint8Array()));
  const bytes = plain.strip(new Uint8Array()).text;
  try {
    await lists(hunk, loads(hunk, bytes, hunk.alloc(16)));
    elfOf(hunk, bytes, 0x21000);
  } catch (error) {
    if (error instanceof HunkError) told(error);
  }
}
