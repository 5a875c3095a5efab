// The files that are dropped or picked, of folders all that is in them: {file, name, again}, or {name, error} of what
// the browser does not give. `again()` gives the file as it is on disk by then, where the browser lets it be asked for.

// A folder comes as an entry or as a handle. Entries have every name, and Firefox has no handles. But to a page that
// was opened from a disk, Chromium gives entries that can't be read, and its handles leave out names that not every
// system takes.

/** Chromium gives no name to what has one that is no UTF-8 text. */
const below = (folder, name) => `${folder}/${name || "\ufffd"}`;

async function walkHandle(handle, name, found) {
  try {
    if (handle.kind === "file") found.push({ file: await handle.getFile(), name, again: () => handle.getFile() });
    else for await (const it of handle.values()) await walkHandle(it, below(name, it.name), found);
  } catch (error) {
    found.push({ name, error });
  }
}

function entriesOf(folder) {
  const reader = folder.createReader();
  const found = [];
  return new Promise((done, fail) => {
    const next = () =>
      reader.readEntries((some) => {
        found.push(...some);
        if (some.length > 0) next();
        else done(found);
      }, fail);
    next();
  });
}

const fileOf = (entry) => new Promise((done, fail) => entry.file(done, fail));

async function walkEntry(entry, name, found) {
  try {
    // An entry without a name would be its own folder again.
    if (!entry.name) found.push({ name });
    else if (entry.isFile) found.push({ file: await fileOf(entry), name, again: () => fileOf(entry) });
    else await walkEntries(await entriesOf(entry), name, found);
  } catch (error) {
    found.push({ name, error });
  }
}

async function walkEntries(entries, name, found) {
  for (const it of entries) await walkEntry(it, below(name, it.name), found);
}

/** All that is in a folder. Answers whether names may be left out. */
async function walkFolder(entry, handle, found) {
  const entries = entry && (await entriesOf(entry).catch(() => null));
  if (entries) await walkEntries(entries, entry.name, found);
  else if (handle) await walkHandle(handle, handle.name, found);
  else found.push({ name: entry.name });
  return !entries && Boolean(handle);
}

const COLLATOR = new Intl.Collator("en", { numeric: true });
/** Whether a name comes before another: as people sort them, with numbers by their size. */
export const inOrder = (one, other) => COLLATOR.compare(one, other);
const byName = (one, other) => inOrder(one.name, other.name);

/** What a drop brought, folders by name, and whether the browser may have left names out. */
async function droppedFiles(transfer) {
  // All of it is there only until the event is over, so it is taken before the first wait.
  const items = [...transfer.items].filter((item) => item.kind === "file");
  const entries = items.map((item) => item.webkitGetAsEntry?.() ?? null);
  const handles = items.map((item) => item.getAsFileSystemHandle?.().catch(() => null));
  const files = [...transfer.files];
  const found = [];
  const inFolders = [];
  let isPartial = false;
  for (const [i, entry] of entries.entries()) {
    const handle = await handles[i];
    const isFolder = entry?.isDirectory || handle?.kind === "directory";
    if (isFolder) isPartial = (await walkFolder(entry, handle, inFolders)) || isPartial;
    else if (files[i]) {
      const again = handle ? () => handle.getFile() : undefined;
      found.push({ file: files[i], name: files[i].name, again });
    }
  }
  return { files: found.concat(inFolders.sort(byName)), isPartial };
}

/** Has the page take what is dropped on it, whatever is below the pointer; the box shows that. `take(files)` is called
 * for that. */
export function listenToDrops(box, take) {
  addEventListener("dragover", (event) => {
    event.preventDefault();
    box.classList.add("over");
  });
  addEventListener("dragleave", () => box.classList.remove("over"));
  addEventListener("drop", async (event) => {
    event.preventDefault();
    box.classList.remove("over");
    await take(await droppedFiles(event.dataTransfer));
  });
}

/** Has a field for files ask by handles, where the browser has them. `take(files)` is called for what is picked by
 * them. */
export function pickByHandles(field, take) {
  let isRefused = !("showOpenFilePicker" in window);
  field.addEventListener("click", async (event) => {
    if (isRefused) return;
    event.preventDefault();
    try {
      const handles = await window.showOpenFilePicker({ multiple: field.multiple });
      const found = [];
      for (const it of handles) await walkHandle(it, it.name, found);
      take(found);
    } catch (error) {
      if (error.name === "AbortError") return;
      isRefused = true;
      field.click();
    }
  });
}

/** What a field for files brought, a folder by name. */
export function pickedFiles(field) {
  const found = [...field.files].map((file) => ({ file, name: file.webkitRelativePath || file.name }));
  return field.webkitdirectory ? found.sort(byName) : found;
}
