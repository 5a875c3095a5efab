// What the views of bytes are told of a file and of its memory: {mark, item, names}, as HexView says.
//
// They ask later, too, when another file may be shown: so each source keeps the file that it is of.

import { markAtFault } from "./front.js";
import { itemOfMemory } from "./inmemory.js";
import { itemOfFile } from "./items.js";
import { namesInFile } from "./labels.js";
import { blockColour, blockName, hunkColour, lastAt } from "./names.js";

const RELOCATED = 4;

function markOfBlock(file, place) {
  const at = file.inText(place);
  const block = lastAt(file.blockPlaces, at);
  if (block < 0 || at >= file.blockPlaces[block] + file.blocks.get(block, "bytes")) {
    return { colour: blockColour(null), title: "header" };
  }
  const row = file.blocks.at(block);
  return { colour: blockColour(row.kind), title: `${blockName(file.typeOf(row) ?? row.kind)}, hunk ${row.hunk}` };
}

function sourceOfRefused(file) {
  const mark = (at) => markAtFault(file, at) ?? (file.front ? markOfBlock(file, at) : null);
  const names = (from, to) => (file.front ? namesInFile(file, from, to) : []);
  return { mark, item: (at) => itemOfFile(file, at), names };
}

export function sourceOfFile(file) {
  if (file.about.refusal) return sourceOfRefused(file);
  const findings = file.findingPlaces();
  const warned = file.warned();
  const mark = (at) => {
    const finding = lastAt(findings, at);
    if (finding >= 0 && at < findings[finding] + 4) return { tone: "finding", title: "a finding" };
    const warning = warned.inFile(at);
    if (warning) return { tone: "warned", title: `a warning: ${warning}` };
    return at >= file.end ? { tone: "after", title: "after the file" } : markOfBlock(file, at);
  };
  return { mark, item: (at) => itemOfFile(file, at), names: (from, to) => namesInFile(file, from, to) };
}

export function sourceOfMemory(file, memory) {
  const { places, targets } = file.relocated();
  const labels = file.labels();
  const warned = file.warned();
  const mark = (at) => {
    const long = lastAt(places, at);
    const tone = labels.isAt(at) ? "symbol" : "";
    const warning = warned.inMemory(at);
    if (warning) return { tone: `warned relocated ${tone}`, title: `a warning: ${warning}` };
    if (long >= 0 && at < places[long] + RELOCATED) {
      const title = `the base of hunk ${targets[long]} is added`;
      return { colour: hunkColour(targets[long], 70), tone: `relocated ${tone}`, title };
    }
    const number = lastAt(file.starts, at);
    return { colour: hunkColour(number, 92), tone, title: `hunk ${number}` };
  };
  const names = (from, to, most) => labels.between(from, to, most);
  return { mark, item: (at) => itemOfMemory(file, memory, at), names };
}
