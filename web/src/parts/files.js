// The files of a drop, those in dropped folders too, and their digest.

/** @param {DataTransfer|null} data @returns {Promise<File[]>} */
export async function droppedFiles(data) {
  const items = [...(data?.items ?? [])].filter(i => i.kind === 'file'), files = [...(data?.files ?? [])];
  // All at once: the list is empty after the event. Chromium lets a page that was opened as a file read folders by handles alone; other browsers have
  // entries alone.
  const entries = items.map(i => i.webkitGetAsEntry?.() ?? null);
  if (!entries.some(e => e?.isDirectory)) return files;
  const handles = items.map(i => /** @type {any} */ (i).getAsFileSystemHandle?.());
  /** @type {File[]} */ const out = [];
  if (handles.every(Boolean)) for (const h of handles) await walk(await h, out);
  else for (const e of entries) if (e) await collect(e, out);
  return out.filter(isFlight);
}

/** @param {any} handle of a file or a folder @param {File[]} out */
async function walk(handle, out) {
  if (handle.kind === 'file') { out.push(await handle.getFile()); return; }
  for await (const h of handle.values()) await walk(h, out);
}

/** Of a folder only files with the ending of flights are taken.
 *  @param {File} f */
export const isFlight = f => /\.igc$/i.test(f.name);

/** @param {FileSystemEntry} entry @param {File[]} out */
async function collect(entry, out) {
  if (entry.isFile) { out.push(await new Promise((done, failed) => /** @type {FileSystemFileEntry} */ (entry).file(done, failed))); return; }
  const reader = /** @type {FileSystemDirectoryEntry} */ (entry).createReader();
  for (;;) { // a reader hands out some entries at a time
    /** @type {FileSystemEntry[]} */ const some = await new Promise((done, failed) => reader.readEntries(done, failed));
    if (some.length === 0) return;
    for (const e of some) await collect(e, out);
  }
}

/** The sha256 of a file by the browser's own function, or null where it has none: a page that came by plain http has not.
 *  @param {Blob} file */
export async function sha256(file) {
  if (!globalThis.crypto?.subtle) return null;
  const sum = new Uint8Array(await crypto.subtle.digest('SHA-256', await file.arrayBuffer()));
  return [...sum].map(b => b.toString(16).padStart(2, '0')).join('');
}
