// Prints C that compiles where the structs of hunk.h are laid out as bindings/javascript/structs.js reads them.
import { LAYOUTS } from "../../bindings/javascript/structs.js";

const snake = (name) => name.replace(/[A-Z]/g, (letter) => `_${letter.toLowerCase()}`);
const lines = ['#include "hunk.h"', "#include <stddef.h>"];
const hold = (what, wanted) => lines.push(`_Static_assert(${what} == ${wanted}, "${what}");`);
for (const [name, { size, fields }] of Object.entries(LAYOUTS)) {
  hold(`sizeof(struct hunk_${name})`, size);
  for (const [field, { at, bytes }] of Object.entries(fields)) {
    hold(`offsetof(struct hunk_${name}, ${snake(field)})`, at);
    hold(`sizeof(((struct hunk_${name} *)0)->${snake(field)})`, bytes);
  }
}
console.log(lines.join("\n"));
