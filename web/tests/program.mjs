// A program as a linker leaves it, for tests and pictures: code, texts and tables in hunks of their own, with symbols.

const [HEADER, CODE, DATA, BSS, RELOC32, SYMBOL, END] = [0x3f3, 0x3e9, 0x3ea, 0x3eb, 0x3ec, 0x3f0, 0x3f2];
const CHIP = 0x40000000;
const FAST = 0x80000000;

/** Longwords that compiled code has often: of entering and leaving a function, of moves and branches. */
const USUAL = [
  0x4e55fff8, 0x48e73820, 0x246d0008, 0x7c006006, 0x200a6702, 0x4cdf041c, 0x4e5d4e75, 0x2f0a4eae, 0xff3a504f,
  0x52866dec,
];
/** JSR and LEA of an address, of which the longword is relocated. */
const CALL = 0x4e714eb9;
const TAKE = 0x4e7141f9;

const textOf = (text) => {
  const padded = text.padEnd(4 * Math.ceil(text.length / 4), "\0");
  return padded.match(/[^]{4}/g).map((it) => [...it].reduce((sum, c) => sum * 256 + c.charCodeAt(0), 0));
};

const TEXTS = [
  "usage: stars FILE\n", "can't open dos.library\n", "no memory for a screen\n", "dos.library", "graphics.library",
];

/** Its hunks: kind, memory, longwords, which hunks' addresses it has and how many of each, and symbols by their
 * offsets. */
const HUNKS = [
  { kind: CODE, longs: 96, targets: { 1: 9, 2: 3, 3: 4, 5: 1 }, symbols: { _start: 0, _main: 0x48, _usage: 0x120 } },
  {
    kind: CODE,
    longs: 148,
    targets: { 1: 4, 2: 8, 3: 5, 4: 2, 6: 2 },
    symbols: { _draw: 0, _blit: 0x5c, _wait_line: 0x104, _copper: 0x1d0 },
  },
  { kind: CODE, longs: 72, targets: { 3: 3, 5: 2 }, symbols: { _open: 0, _close: 0x60, _read_all: 0xa8 } },
  { kind: DATA, texts: TEXTS, symbols: { _messages: 0 } },
  { kind: DATA, memory: CHIP, longs: 64, symbols: { _copper_list: 0, _sprite: 0x90 } },
  { kind: DATA, longs: 24, targets: { 0: 2, 1: 4, 3: 5 }, symbols: { _table: 0 } },
  { kind: BSS, memory: CHIP, longs: 120, symbols: { _plane: 0 } },
  { kind: BSS, memory: FAST, longs: 40, symbols: { _buffer: 0 } },
];

/** The content of a hunk, and the offsets at which it has addresses: [[target, offset]]. */
function contentOf({ kind, longs, texts, targets = {} }, number) {
  const code = (_, i) => USUAL[(7 * i + 3 * number) % USUAL.length];
  const table = (_, i) => (i % 4 === 3 ? 0 : (0x01800111 * (i + number)) >>> 0);
  const content = texts ? texts.flatMap(textOf) : Array.from({ length: longs }, kind === CODE ? code : table);
  const wanted = Object.entries(targets).flatMap(([target, many]) => Array(many).fill(Number(target)));
  const step = wanted.length > 0 ? Math.floor((content.length - 2) / wanted.length) : 0;
  const places = wanted.map((target, i) => [target, 4 * (i * step + 1)]);
  for (const [i, [, offset]] of places.entries()) {
    if (kind === CODE) content[offset / 4 - 1] = i % 3 === 0 ? TAKE : CALL;
    content[offset / 4] = 4 * (i % 6);
  }
  return [content, places];
}

function relocationsOf(places) {
  if (places.length === 0) return [];
  const targets = [...new Set(places.map(([target]) => target))];
  const groups = targets.map((target) => places.filter(([it]) => it === target).map(([, offset]) => offset).reverse());
  return [RELOC32, ...groups.flatMap((group, i) => [group.length, targets[i], ...group]), 0];
}

function symbolsOf(symbols) {
  const entries = Object.entries(symbols).flatMap(([name, value]) => [textOf(name).length, ...textOf(name), value]);
  return [SYMBOL, ...entries, 0];
}

function program() {
  const all = HUNKS.map((hunk, i) => ({ ...hunk, made: hunk.kind === BSS ? [[], []] : contentOf(hunk, i) }));
  const sizes = all.map(({ kind, longs, made: [content] }) => (kind === BSS ? longs : content.length));
  const words = all.map(({ memory = 0 }, i) => (memory | sizes[i]) >>> 0);
  const header = [HEADER, 0, all.length, 0, all.length - 1, ...words];
  const hunks = all.flatMap(({ kind, made: [content, places], symbols }, i) =>
    [kind, sizes[i], ...content, ...relocationsOf(places), ...symbolsOf(symbols), END]);
  return [...header, ...hunks].map((it) => it.toString(16).padStart(8, "0")).join("");
}

export const PROGRAM = program();

/** The same, but for the first offset of the last relocations: at 94 of 96 bytes, where no longword fits. */
const OFFSET = PROGRAM.lastIndexOf("000003ec") + 3 * 8;
export const DAMAGED = `${PROGRAM.slice(0, OFFSET)}0000005e${PROGRAM.slice(OFFSET + 8)}`;
