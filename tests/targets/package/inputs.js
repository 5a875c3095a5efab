// What docs/CALLING.md promises of the package, beside what the calls answer: node inputs.js FILE, a load file of one hunk with
// one symbol. It prints what is not so, and ends with status 1; else `as promised`.
import { readFile } from "node:fs/promises";
import { FLAGS, flagNames, Hunk, HunkError, KINDS, kindName, nameOf, open, takesMemory64 } from "hunk-files";
import { beside, fill, finish, hold, refuses, thrown } from "./held.js";

const text = (listed) => JSON.stringify([...listed.rows]);

/** The module that `open` takes. */
async function picked() {
  const { compile } = WebAssembly;
  let taken;
  WebAssembly.compile = (bytes) => {
    taken = bytes;
    return compile(bytes);
  };
  await open();
  WebAssembly.compile = compile;
  return taken;
}

async function holdModules(module) {
  const wanted = await beside(takesMemory64() ? "hunk.wasm" : "hunk32.wasm");
  hold("open takes the module that suits", wanted.equals(await picked()));
  hold("no module is no module", (await Hunk.open().catch((error) => error)) instanceof TypeError);
  const answer = (status, type) => new Response(module, { status, headers: { "content-type": type } });
  const lacks = await Hunk.open(answer(404, "application/wasm")).catch((error) => error.message);
  hold("an answer that is none is said", String(lacks).includes("404"));
  for (const type of ["application/wasm", "application/octet-stream"]) {
    hold(`an answer that is ${type}`, (await Hunk.open(Promise.resolve(answer(200, type)))).abi() === 1);
  }
}

/** A view is invalid once the memory has grown; rows and the Input go on. */
function holdGrowth(hunk, bytes) {
  const input = hunk.put(bytes);
  const { rows } = hunk.symbols(input);
  const view = input.bytes;
  hold("a view of the Input is its bytes", view.buffer === input.bytes.buffer && Buffer.compare(view, bytes) === 0);
  hold("a view goes to a call", text(hunk.blocks(view)) === text(hunk.blocks(bytes)));
  const more = hunk.alloc(1 << 24);
  hold("a view from before is empty", view.length === 0 && input.bytes.length === bytes.length);
  hold("no call takes it for an empty file", refuses(TypeError, () => hunk.check(view)));
  hold("no name is read in it", refuses(TypeError, () => nameOf(view, rows.at(0))));
  hold("rows and names go on", nameOf(input, rows.at(0)) === "_m" && rows.get(0, "value") === 0);
  hold("calls take the Input", text(hunk.blocks(input)) === text(hunk.blocks(bytes)));
  const copy = hunk.put(more.bytes.fill(7));
  hold("bytes of the memory are copied when it grows", copy.bytes.every((it) => it === 7) && copy.length === 1 << 24);
  copy.free();
  more.free();
  input.free();
}

/** A column has what the rows have, in memory of its own. */
function holdColumns(hunk, bytes) {
  const input = hunk.put(bytes);
  const { rows } = hunk.blocks(input);
  const [places, kinds] = [rows.column("place"), rows.column("kind")];
  hold("columns are of their rows", `${[...places]} ${[...kinds]}` === `24,36,56 ${[KINDS.CODE, KINDS.SYMBOL, KINDS.END]}`);
  hold("a column is a typed array", places instanceof Float64Array && kinds instanceof Uint32Array);
  const more = fill(hunk);
  const grown = hunk.alloc(1);
  hold("it goes on where the memory grows", String(rows.column("place")) === String(places) && places.length === 3);
  for (const it of [more, grown, input]) it.free();
  hold("it stays when its Input is freed", places[1] === 36);
  hold("and then no other is made", refuses(TypeError, () => rows.column("place")));
  hold("a column of no rows", hunk.relocations(bytes).rows.column("offset").length === 0);
}

/** A list of bases that makes the memory grow as it is read, and a view that it makes invalid by that. */
function holdLists(hunk, bytes) {
  const input = hunk.put(bytes);
  const view = input.bytes;
  const taken = [input];
  const grow = () => taken.push(fill(hunk), hunk.alloc(1));
  const bases = { length: 1, get 0() { return grow() && 0x21000; } };
  const { memory } = hunk.load(bytes, bases);
  hold("a list that makes the memory grow", Buffer.compare(memory, hunk.loadPacked(bytes, 0x21000).memory) === 0);
  hold("a list is read once", taken.length === 3);
  hold("no view from before is taken", view.length === 0 && refuses(TypeError, () => hunk.load(view, [0])));
  hold("nor one that the list makes invalid", refuses(TypeError, () => hunk.load(input.bytes, bases)));
  for (const it of taken) it.free();
}

function holdFree(hunk, bytes) {
  const input = hunk.put(bytes);
  const { rows } = hunk.blocks(input);
  const kept = rows.copy();
  const { length } = rows;
  const before = text({ rows });
  input.free();
  input.free();
  hold("rows end with their Input", refuses(TypeError, () => rows.at(0)) && length === 3);
  hold("a copy of them stays", text({ rows: kept }) === before);
  hold("it has no bytes", refuses(TypeError, () => input.bytes));
  hold("no call takes it", refuses(TypeError, () => hunk.check(input)));
  const size = () => {
    const it = hunk.alloc(1);
    const { byteLength } = it.bytes.buffer;
    it.free();
    return byteLength;
  };
  const again = hunk.put(bytes);
  input.free();
  hold("who frees once more frees nobody else's", text(hunk.blocks(again.bytes)) === before);
  const gone = () => hunk.wide(again, () => again.free() ?? hunk.check(new Uint8Array()));
  hold("nor is a place looked up in what was freed", refuses(TypeError, gone));
  const was = size();
  for (let i = 0; i < 2000; i++) {
    const [one, other] = [hunk.put(bytes), hunk.alloc(1000 + i)];
    hunk.blocks(one);
    hunk.strip(bytes);
    one.free();
    thrown(() => hunk.check(other));
    other.free();
  }
  hold("what is freed is taken again", size() === was);
}

/** An emulator whose memory is the module's. */
function holdMemory(hunk, bytes) {
  const [file, ram, own] = [hunk.put(bytes), hunk.put(new Uint8Array(64)), new Uint8Array(64)];
  hunk.loadAt(bytes, [0x1010], 0x1000, own);
  hunk.loadAt(file, [0x1010], 0x1000, ram);
  hold("the code lies there", own[16] === 0x4e && own[17] === 0x75);
  hold("an Input is loaded to", Buffer.compare(own, ram.bytes) === 0);
  hunk.loadAt(file, [0x1020], 0x1000, ram.bytes);
  hold("and a view of it", ram.bytes[32] === 0x4e);
  hold("not over the file", refuses(TypeError, () => hunk.loadAt(file, [0], 0, file)));
  hold("a length stays", refuses(TypeError, () => (ram.length = 1000)) && ram.bytes.length === 64);
  const view = ram.bytes;
  ram.free();
  hold("nor where an Input was freed", refuses(TypeError, () => hunk.loadAt(file, [0x1010], 0x1000, view)));
  hold("nor to all of the memory", refuses(TypeError, () => hunk.loadAt(bytes, [0], 0, new Uint8Array(view.buffer))));
  file.free();
}

function holdLoader(hunk, bytes) {
  const table = hunk.table(bytes);
  const loader = hunk.begin(table, [0x21000]);
  const { memory } = hunk.loadPacked(bytes, 0x21000);
  const view = loader.memory();
  const rest = bytes.subarray(table.header);
  loader.buffer.set(rest);
  hold("what stands in its buffer is fed", loader.feed(loader.buffer.subarray(0, rest.length)) === rest.length);
  hold("its memory is a view", loader.end().hunks === 1 && Buffer.compare(view, memory) === 0 && memory.length > 0);
}

/** A hunk of 64 bytes, with a longword of content, and a relocation of the one at byte 32. */
const RELOCATED = "000003f3 00000000 00000001 00000000 00000000 00000010 000003e9 00000001 4e714e75 " +
  "000003ec 00000001 00000000 00000020 00000000 000003f2";

/** What is fed of the loader's memory, where it loads to. */
function holdOwn(hunk) {
  const bytes = Buffer.from(RELOCATED.replaceAll(" ", ""), "hex");
  const table = hunk.table(bytes);
  const loader = hunk.begin(table, [0x21000]);
  const rest = bytes.subarray(table.header);
  loader.memory().set(rest);
  hold("what is fed is read before it is loaded over", loader.feed(loader.memory().subarray(0, rest.length)) === rest.length);
}

const bytes = await readFile(process.argv[2]);
const module = await beside("hunk32.wasm");
await holdModules(module);
for (const hunk of [await open(), await Hunk.open(module)]) {
  holdGrowth(hunk, bytes);
  holdColumns(hunk, bytes);
  holdLists(hunk, bytes);
  holdFree(hunk, bytes);
  holdMemory(hunk, bytes);
  holdLoader(hunk, bytes);
  holdOwn(hunk);
  const other = (await open()).put(bytes);
  hold("an Input is of its Hunk", refuses(TypeError, () => hunk.check(other)));
  hold("an Input has a length", refuses(RangeError, () => hunk.alloc(-1)) && refuses(RangeError, () => hunk.alloc(1.5)));
  hold("an empty file is refused", thrown(() => hunk.check(new Uint8Array())) instanceof HunkError);
  const gone = Uint8Array.from(bytes);
  structuredClone(gone.buffer, { transfer: [gone.buffer] });
  hold("bytes that were handed on are no file", refuses(TypeError, () => hunk.check(gone)));
  hold("a text is no file", refuses(TypeError, () => hunk.check("file")));
}
hold("names of kinds", kindName(0x3e9) === "CODE" && KINDS.CODE === 0x3e9 && kindName(1012) === "ADVISORY 1012");
hold("names of flags", flagNames(FLAGS.ADVISORY | FLAGS.FAST).join() === "advisory,fast");
finish();
