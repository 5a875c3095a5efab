// The page: what is dropped, picked or linked is shown.

import { BaseField } from "./base.js";
import { Compared } from "./compared.js";
import { listenToDrops, pickByHandles, pickedFiles } from "./dropped.js";
import { Examined } from "./file.js";
import { copyLink, fromHex, linkAt, linkOf, readLink } from "./link.js";
import { Many } from "./many.js";
import { openModule } from "./module.js";
import { counted, whenSchemeChanges } from "./names.js";
import { FIRST, Opening, entitle } from "./opening.js";
import { Panels } from "./panels.js";
import { bytesOf, PARTIAL, unreadText } from "./reading.js";
import { Reload } from "./reload.js";
import { listenToSaving, save, showSaving } from "./saving.js";
import { showVerdict, tellNone } from "./verdict.js";
import { Visits } from "./visits.js";
import { tellWords } from "./words.js";

/** @type {(id: string) => any} */
const $ = (id) => document.getElementById(id);

let hunk;
let file = null;
let example = null;
let shows = 0;
let run = 0;
/** The byte that a link says of a file that is still to come. */
let awaited = null;

const panels = new Panels();
const opening = new Opening(document.querySelectorAll("#examples a"), $("example"));
const many = new Many($("many"), (found) => openFile(found, many.visit));
const compared = new Compared($("compare"));
const base = new BaseField($("base"), $("base-note"), rebase);
const visits = new Visits(revisit);
const reload = new Reload($("reload"), (found, table) => openFile(found, table, panels.byte));

// ---- What is shown.

/** Tells a test that what it waits for is there. */
function tellShown() {
  document.body.dataset.shows = String(++shows);
}

/** Shows bytes; `which` of their readings, where that is said. */
function show(bytes, name, which = undefined) {
  try {
    showWhole(bytes, name, which);
  } catch (error) {
    closeFile(`${name} can't be shown here: ${error.message}`);
    throw error;
  }
}

function showWhole(bytes, name, which) {
  const began = performance.now();
  file = new Examined(hunk, bytes, name, which);
  file.base = base.address;
  document.body.classList.add("has-file");
  compared.close();
  reload.watch(null);
  opening.mark(example);
  entitle(name);
  showVerdict(file, (other) => show(file.input, file.name, other));
  panels.show(file);
  showSaving(file);
  $("copied").textContent = "";
  $("link").hidden = true;
  if (awaited) goToByte(awaited);
  $("time").textContent = `${(performance.now() - began).toFixed(0)} ms.`;
  tellShown();
}

function goToByte(said) {
  awaited = null;
  if (!panels.goToByte(said)) $("copied").textContent = `The link leads to a byte that is not there: ${said}.`;
}

/** Shows the memory from another address. */
function rebase() {
  const link = linkAt(base.text);
  if (link) visits.rename(link);
  if (!file) return;
  file.base = base.address;
  panels.rebase();
  tellShown();
}

/** Shows no file any more, and says why. */
function closeFile(text) {
  file = null;
  panels.close();
  document.body.classList.remove("has-file");
  tellNone(text);
}

/** Says why no file is shown. */
function showNone(text, title) {
  compared.close();
  reload.watch(null);
  opening.mark(null);
  entitle(title);
  closeFile(text);
}

// ---- Files of one's own. Reading takes time, so each counts as a run: what another has overtaken is not shown any
// more.

/** Reads a file that was found, unless it was read before, and shows it. `visit` counts where it is shown. */
async function readFile(visit) {
  const ownRun = ++run;
  const { name } = visit.found;
  const { bytes, why } = visit.bytes ? { bytes: visit.bytes, why: "" } : await bytesOf(visit.found);
  if (ownRun !== run) return false;
  example = null;
  visit.bytes = bytes;
  if (bytes) {
    show(bytes, name);
    reload.watch(visit);
  } else {
    showNone(unreadText([{ name, why }]), name);
    tellShown();
  }
  return true;
}

/** Shows a file that was found: alone, or below the table of those that were found with it; at a byte that a link would
 * say, where that is there. */
async function openFile(found, table = null, at = "") {
  const visit = { table, found };
  if (!(await readFile(visit))) return;
  visits.add(visit);
  if (file && at) panels.goToByte(at);
}

/** Shows a table: what is in it is looked at anew, unless it is the last that was shown. */
async function openTable(table) {
  example = null;
  run += 1;
  const { files, isPartial } = table;
  const none = `There is no file in it. ${isPartial ? PARTIAL : ""}`;
  showNone(files.length > 0 ? "" : none, counted(files.length, "file"));
  await showMany(table);
  tellShown();
}

async function showMany(table) {
  $("many").hidden = !table || table.files.length === 0;
  if (!table || many.visit === table) return;
  many.visit = table;
  await many.show(hunk, table.files, table.isPartial ? PARTIAL : "");
}

/** One file is shown, of many a table. */
async function openAll({ files, isPartial }) {
  if (files.length === 1 && !isPartial) {
    $("many").hidden = true;
    await openFile(files[0]);
    return;
  }
  const table = { files, isPartial };
  visits.add({ table });
  await openTable(table);
}

/** Reads two files, and shows them beside each other. */
async function readPair(visit) {
  const ownRun = ++run;
  const read = await Promise.all(visit.pair.map((found) => bytesOf(found)));
  if (ownRun !== run) return;
  example = null;
  const names = visit.pair.map(({ name }) => name);
  const unread = read.map(({ why }, i) => ({ name: names[i], why })).filter(({ why }) => why);
  showNone(unreadText(unread), names.join(" and "));
  if (unread.length === 0) compared.show(read.map(({ bytes }, i) => new Examined(hunk, bytes, names[i])));
  tellShown();
}

async function openPair(pair, table = null) {
  const visit = { table, pair };
  visits.add(visit);
  showMany(table);
  await readPair(visit);
}

/** What is shown, as a file that was found. */
const shownFile = () => ({ file: new File([file.input], file.name), name: file.name });

/** Shows the two of the table that are chosen beside each other. */
function openTwo() {
  const pair = many.pair();
  if (pair) openPair(pair, many.visit);
  else many.tellPair();
}

/** The field is empty afterwards, so that the same file can be picked again, as after a change of it. */
async function openPicked(field) {
  const files = pickedFiles(field);
  field.value = "";
  await openAll({ files, isPartial: false });
}

/** Shows again what was shown at a place of the history, or what the address says there. */
async function revisit(visit) {
  if (!visit) openLink();
  else if (visit.pair) {
    showMany(visit.table);
    await readPair(visit);
  } else if (!visit.found) await openTable(visit.table);
  else {
    showMany(visit.table);
    await readFile(visit);
  }
}

// ---- Examples and links.

function openExample(name) {
  const bytes = opening.bytes(name);
  if (!bytes) {
    showNone(`There is no example with the name ${name}.`, "no example");
    tellShown();
    return;
  }
  example = name;
  show(bytes, name);
}

/** Goes to the byte of a link that says no file: in that of one's own which is shown, or else the next. */
function openByte(said) {
  if (!file || example) openExample(FIRST);
  else goToByte(said);
  if (example) {
    awaited = said;
    $("copied").textContent = `The link leads to byte ${said} of a file: drop it, and it is shown there.`;
  }
  tellShown();
}

function openLink() {
  const said = readLink();
  run += 1;
  awaited = null;
  if (said.at && !said.example && said.hex === null) {
    openByte(said.at);
    return;
  }
  awaited = said.at;
  $("many").hidden = true;
  if (said.base) base.set(said.base);
  if (said.hex !== null) {
    example = null;
    show(fromHex(said.hex), "from the link");
  } else openExample(said.example || FIRST);
}

function listen() {
  for (const id of ["pick", "pick-folder"]) $(id).addEventListener("change", () => openPicked($(id)));
  $("example").addEventListener("change", () => {
    if ($("example").value) location.hash = `#${new URLSearchParams({ example: $("example").value })}`;
  });
  $("copy-link").addEventListener("click", () => {
    const shown = { example, bytes: file.input, base: file.table && base.text, at: panels.byte };
    copyLink(linkOf(shown), $("link"), $("copied"));
  });
  listenToSaving(panels);
  pickByHandles($("pick"), (files) => openAll({ files, isPartial: false }));
  $("compare-two").addEventListener("click", openTwo);
  $("pick-other").addEventListener("change", () => {
    const [other] = pickedFiles($("pick-other"));
    $("pick-other").value = "";
    if (other) openPair([shownFile(), other]);
  });
  $("save-csv").addEventListener("click", () => save(many.csv(), "hunks.csv", "text/csv"));
  whenSchemeChanges(() => {
    panels.recolour();
    tellShown();
  });
  listenToDrops($("drop"), openAll);
}

async function start() {
  try {
    hunk = await openModule($("module"));
    await opening.fill();
  } catch (error) {
    tellNone(`The library can't be run here: ${error.message}.`);
    $("verdict").className = "bad";
    return;
  }
  listen();
  tellWords(document.querySelector("#words dl"));
  openLink();
  document.body.dataset.ready = "";
}

start();
