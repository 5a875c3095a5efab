// The structs of hunk.h: where their fields are, and the objects that are made of them.

// Each field with its bytes, in their order. tests/targets holds them to what a C compiler makes.
const STRUCTS = {
  answer: "number 4 hunk 4 place 8 count 8",
  row: "word 4 extra 4 bytes 4 memory 4",
  place: "word 4 extra 4 base 4",
  loader:
    "start 8 fed 8 place 8 refused 4 refused_hunk 4 hunk 4 hunks 4 ahead 4 has_content 4 phase 4 part 4 owed 4 " +
    "pending 1 first 1 second 1 third 1 reserved 32",
  finding: "place 8 unit 8 hunk 8 offset 4 fault 4 reserved 8",
  unit: "place 8 name 8 name_bytes 8 hunks 8 reserved 8",
  block:
    "place 8 bytes 8 unit 8 hunk 8 content 8 content_bytes 8 memory 8 items 8 kind 4 flags 4 reserved 8",
  part: "what 4 word 4 value 4 reserved 4 content 8 content_bytes 8 offsets 8 offset_count 8",
  warning: "place 8 hunk 8 kind 4 offset 4 target 4 value 4 other 4 reserved 4",
  symbol: "place 8 unit 8 hunk 8 name 8 name_bytes 8 value 4 reserved 4",
  relocation: "place 8 unit 8 hunk 8 kind 4 width 4 target 4 offset 4 reserved 8",
  entry: "place 8 unit 8 hunk 8 name 8 name_bytes 8 references 8 value 4 kind 4 reserved 8",
  reference: "entry 8 place 8 offset 4 width 4 reserved 8",
  spelling: "bytes 8 short_blocks 8 ends 8 reserved 8",
};

/** What a struct is called in JavaScript: `name_bytes` is `nameBytes`. */
function camel(name) {
  return name.replace(/_(.)/g, (_, letter) => letter.toUpperCase());
}

/** The size of a struct, and of each of its fields where it is and how many bytes it has. */
function layout(text) {
  const words = text.split(" ");
  const fields = {};
  let size = 0;
  for (let i = 0; i < words.length; i += 2) {
    const bytes = Number(words[i + 1]);
    fields[camel(words[i])] = { at: size, bytes };
    size += bytes;
  }
  return { size, fields };
}

/** The structs of hunk.h as this package reads them. */
export const LAYOUTS = Object.fromEntries(Object.entries(STRUCTS).map(([name, text]) => [name, layout(text)]));

const four = (view, at) => view.getUint32(at, true);

/** A field of 8 bytes. Of two halves it is quicker than by a BigInt. */
function eight(view, at) {
  const high = four(view, at + 4);
  return high === 0 ? four(view, at) : four(view, at) + high * 2 ** 32;
}

/** A field of 4 or 8 bytes. */
export const number = (view, at, bytes) => (bytes === 8 ? eight(view, at) : four(view, at));

/** The objects of structs, each field by its name: made in a loop over the fields of a layout, they take five times as long. */
const MADE = {
  row: (v, at) => ({ word: four(v, at), extra: four(v, at + 4), bytes: four(v, at + 8), memory: four(v, at + 12) }),
  finding: (v, at) => ({
    place: eight(v, at), unit: eight(v, at + 8), hunk: eight(v, at + 16), offset: four(v, at + 24), fault: four(v, at + 28),
  }),
  unit: (v, at) => ({ place: eight(v, at), name: eight(v, at + 8), nameBytes: eight(v, at + 16), hunks: eight(v, at + 24) }),
  block: (v, at) => ({
    place: eight(v, at), bytes: eight(v, at + 8), unit: eight(v, at + 16), hunk: eight(v, at + 24), content: eight(v, at + 32),
    contentBytes: eight(v, at + 40), memory: eight(v, at + 48), items: eight(v, at + 56), kind: four(v, at + 64),
    flags: four(v, at + 68),
  }),
  part: (v, at) => ({
    what: four(v, at), word: four(v, at + 4), value: four(v, at + 8), content: eight(v, at + 16),
    contentBytes: eight(v, at + 24), offsets: eight(v, at + 32), offsetCount: eight(v, at + 40),
  }),
  warning: (v, at) => ({
    place: eight(v, at), hunk: eight(v, at + 8), kind: four(v, at + 16), offset: four(v, at + 20), target: four(v, at + 24),
    value: four(v, at + 28), other: four(v, at + 32),
  }),
  symbol: (v, at) => ({
    place: eight(v, at), unit: eight(v, at + 8), hunk: eight(v, at + 16), name: eight(v, at + 24), nameBytes: eight(v, at + 32),
    value: four(v, at + 40),
  }),
  relocation: (v, at) => ({
    place: eight(v, at), unit: eight(v, at + 8), hunk: eight(v, at + 16), kind: four(v, at + 24), width: four(v, at + 28),
    target: four(v, at + 32), offset: four(v, at + 36),
  }),
  entry: (v, at) => ({
    place: eight(v, at), unit: eight(v, at + 8), hunk: eight(v, at + 16), name: eight(v, at + 24), nameBytes: eight(v, at + 32),
    references: eight(v, at + 40), value: four(v, at + 48), kind: four(v, at + 52),
  }),
  reference: (v, at) => ({ entry: eight(v, at), place: eight(v, at + 8), offset: four(v, at + 16), width: four(v, at + 20) }),
  spelling: (v, at) => ({ bytes: eight(v, at), shortBlocks: eight(v, at + 8), ends: eight(v, at + 16) }),
};

/** What makes the object of a struct with this layout that stands at a place of a view. */
export const maker = (layout) => MADE[Object.keys(LAYOUTS).find((name) => LAYOUTS[name] === layout)];
