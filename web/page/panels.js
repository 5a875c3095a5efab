// A file that is shown: its pictures, its views of bytes, and its lists, which lead to each other.

import { arcsText } from "./arcs.js";
import { copyText } from "./copying.js";
import { addFinding } from "./finding.js";
import { HexView } from "./hexview.js";
import { ItemLine } from "./itemline.js";
import { Jumps } from "./jumps.js";
import { Lists } from "./lists.js";
import { HunkMap, mapLegend, mapScene } from "./map.js";
import { counted, whenPrinted } from "./names.js";
import { Picture } from "./picture.js";
import { fileLegend, fileScene, memoryScene } from "./pictures.js";
import { filePlace, memoryPlace, memoryRange } from "./places.js";
import { whyText } from "./reasons.js";
import { bringIntoSight } from "./sight.js";
import { byteText, rangeOf } from "./bytelink.js";
import { sourceOfFile, sourceOfMemory } from "./sources.js";
import { mapSvg } from "./svg.js";
import { meaningOf } from "./words.js";

/** @typedef {import("./places.js").Target} Target */

const LONG = 4;
const $ = (id) => document.getElementById(id);

const titleOf = (text) => text.split(", ").map(meaningOf).filter(Boolean).join(" ");
const chip = ([colour, text]) => `<span title="${titleOf(text)}"><i style="background:${colour}"></i>${text}</span>`;
const legendOf = (colours) => colours.map(chip).join("");

/** Why there is no memory to be shown. */
function noMemory(file, error) {
  if (file.isTooLarge) return "It declares more memory than this page shows.";
  return `Not loaded: ${error.reason}. ${whyText(error)}`;
}

export class Panels {
  constructor() {
    /** @param {Target} target */
    const jump = (target) => this.jump(target);
    /** @type {import("./file.js").Examined | null} */
    this.file = null;
    this.memory = null;
    const view = (id, name) =>
      new HexView($(`${id}-hex`), `${name}, as hexadecimal digits`, new ItemLine($(`${id}-item`), jump));
    this.memoryView = view("memory", "Memory");
    this.fileView = view("file", "File");
    this.mapPicture = new Picture($("map-picture"), "The hunks, and which base is added in which");
    this.memoryPicture = new Picture($("memory-picture"), "The memory, by hunks");
    this.filePicture = new Picture($("file-picture"), "The file, by blocks");
    this.lists = new Lists($("lists"), (target) => this.pick(target));
    whenPrinted(() => this.recolour());
    const [back, forward, told] = ["back", "forward", "told"].map((name) => $(`jump-${name}`));
    this.jumps = new Jumps({ back, forward, told }, { here: () => this.#here(), go: (here) => this.#return(here) });
    /** The view that was used last. */
    this.used = this.fileView;
    for (const [id, view] of Object.entries({ memory: this.memoryView, file: this.fileView })) {
      for (const type of ["focusin", "pointerdown"]) view.box.addEventListener(type, () => (this.used = view));
      this.#addCopying(id, view);
      addFinding($(`find-${id}`), $(`copied-${id}`), view, (range) => jump({ [id]: range }));
    }
  }

  /** A button that copies the bytes of a view that are picked. */
  #addCopying(id, view) {
    $(`copy-${id}`).addEventListener("click", () => {
      const { from, to } = view.picked ?? view.item ?? { from: 0, to: 0 };
      const text = view.copied(from, to);
      if (text) copyText(text, `${counted(to - from, "byte")} copied.`, $(`copied-${id}`));
      else $(`copied-${id}`).textContent = "There is nothing to copy, or too much.";
    });
  }

  /** Shows a file, loaded from the address that is its base.
   * @param {import("./file.js").Examined} file */
  show(file) {
    this.file = file;
    for (const id of ["copied-memory", "copied-file", "copied-list"]) $(id).textContent = "";
    const isListed = !file.about.refusal || file.front !== null;
    $("lists").hidden = !isListed;
    // Without memory beside it the view of the file has another height, in which a fault is to be seen.
    this.#showMemory();
    this.#showFile();
    this.#showMap();
    if (isListed) this.lists.show(file);
    this.used = this.fileView;
    this.jumps.clear();
  }

  close() {
    this.file = null;
    this.memory = null;
  }

  /** Shows the memory from another base. All stays at its place. */
  rebase() {
    this.#load();
    if (this.memory) this.memoryView.renew(this.memory, this.file.base, sourceOfMemory(this.file, this.memory));
    this.fileView.retell();
    this.lists.refresh();
  }

  /** Draws all anew, as after a change of the colours. */
  recolour() {
    if (!this.file) return;
    for (const picture of [this.mapPicture, this.memoryPicture, this.filePicture]) picture.draw();
    for (const view of [this.memoryView, this.fileView]) view.refresh();
    this.#tellLegends();
    this.lists.refresh();
  }

  #showFile() {
    const { file } = this;
    const { fault, input } = file;
    const length = fault === undefined ? input.length : Math.max(input.length, fault + LONG);
    this.fileView.show(input, 0, length, sourceOfFile(file));
    if (fault !== undefined) this.fileView.pick(fault, fault + LONG);
    const go = (at) => this.jump({ file: { from: filePlace(at), to: filePlace(at + LONG) } });
    this.filePicture.show(file.hasBlocks ? fileScene(file, go) : null);
    this.#tellLegends();
  }

  /** The map of the hunks, where the blocks are listed. */
  #showMap() {
    const { file } = this;
    const began = performance.now();
    const isDrawn = !file.about.refusal && file.hasBlocks && file.contents().count > 0;
    $("hunks").hidden = !isDrawn;
    this.map = isDrawn ? new HunkMap(file) : null;
    const go = (number) => this.jump(file.contents().target(number));
    this.mapPicture.show(this.map && mapScene(this.map, $("map-picture"), go));
    $("map-arcs").textContent = this.map ? arcsText(this.map) : "";
    $("map-arcs").hidden = $("map-arcs").textContent === "";
    this.#tellLegends();
    performance.measure("the map of hunks", { start: began });
  }

  /** The map as a picture of its own. */
  mapSvg() {
    return mapSvg(this.map, $("map-picture"), `${this.file.name}: its hunks`);
  }

  #tellLegends() {
    $("file-legend").innerHTML = this.file.hasBlocks ? legendOf(fileLegend(this.file)) : "";
    $("map-legend").innerHTML = this.map ? legendOf(mapLegend(this.map)) : "";
  }

  #load() {
    const { file } = this;
    $("memory").hidden = !file.isLoadable;
    this.memory = null;
    if (!file.isLoadable) return;
    const [loaded, error] = file.isTooLarge ? [null, null] : file.load(file.base);
    this.memory = loaded;
    $("memory-note").textContent = loaded ? "" : noMemory(file, error);
    for (const id of ["memory-legend", "memory-hex", "memory-item", "save-loaded"]) $(id).hidden = !loaded;
    const go = (at) => this.jump({ memory: memoryRange(memoryPlace(at), LONG) });
    this.memoryPicture.show(loaded ? memoryScene(file, loaded, go) : null);
  }

  #showMemory() {
    this.#load();
    const { file, memory } = this;
    if (memory) this.memoryView.show(memory, file.base, memory.length, sourceOfMemory(file, memory));
  }

  /** Shows where a target stands, in both views, from where one comes back.
   * @param {Target} target */
  jump(target) {
    this.jumps.through(() => this.#show(target));
  }

  /** Shows the bytes of a row, and in a view that has none of them no others.
   * @param {Target} target */
  pick(target) {
    this.jumps.through(() => {
      this.fileView.unpick();
      this.memoryView.unpick();
      this.#show(target);
    });
  }

  /** @param {Target} target */
  #show({ file, memory }) {
    if (file) this.fileView.pick(file.from, file.to);
    if (this.memory && memory) this.memoryView.pick(memory.from, memory.to);
    const views = [file && this.fileView, this.memory && memory && this.memoryView].filter(Boolean);
    if (views.length > 0) this.used = views[0];
    bringIntoSight(views.map((it) => it.caretLine).filter(Boolean));
  }

  #here() {
    return JSON.stringify([this.fileView, this.memoryView].map((view) => view.place));
  }

  #return(here) {
    const views = [this.fileView, this.memoryView];
    for (const [i, place] of JSON.parse(here).entries()) views[i].place = place;
    const shown = views.filter((it) => it.picked && (this.memory || it === this.fileView));
    bringIntoSight((shown.length > 0 ? shown : [this.fileView]).map((it) => it.caretLine).filter(Boolean));
  }

  /** The byte at which one is, as a link says it; nothing before the first of a file. */
  get byte() {
    const isInMemory = this.memory && this.used === this.memoryView;
    return byteText(this.file, isInMemory ? { memory: this.memoryView.caret } : { file: this.fileView.caret });
  }

  /** Goes to a byte that a link says; whether there is one. */
  goToByte(said) {
    const target = rangeOf(this.file, said);
    if (target) this.jump(target);
    return target !== null;
  }
}
