// The worker: it reads the file that it is handed and answers each message with one. Nothing of it reaches the network: the page's policy holds here too.
import { Hive } from '../library/hive.js';
import { LARGEST } from '../library/numbers.js';
import { writeTrack } from './export.js';
import { readColumn, readFlight, readRow } from './flight.js';
import { mergeCopies, readCopy } from './merge.js';
import { changeShelf, takeOut } from './shelf.js';

const LARGE = 24 << 20; // an instance that holds more is dropped afterwards, since its memory never shrinks
/** @type {WebAssembly.Module|null} */ let module = null;
/** @type {Hive|null} */ let hive = null;

/** One byte past the limit is enough for the library to say TOO_LONG.
 *  @param {Blob} file */
const load = async file => new Uint8Array(await file.slice(0, LARGEST + 1).arrayBuffer());

/** @param {any} value an answer that may hold bytes @returns {[any, Transferable[]]} */
const handed = value => [value, value.bytes ? [value.bytes.buffer] : []];

/** The errands by name. Each gives its answer, and what of it is handed over and not copied.
 *  @type {Record<string, (hive:Hive, m:any)=>Promise<[any, Transferable[]]>>} */
const ERRANDS = {
  row: async (h, m) => [readRow(h, await load(m.file)), []],
  flight: async (h, m) => {
    const t0 = performance.now(), bytes = await load(m.file), t1 = performance.now(), f = readFlight(h, bytes),
      times = { load: t1 - t0, read: performance.now() - t1 };
    if (!f.track || !f.strips) return [{ ...f, times }, []];
    const arrays = [...Object.values(f.track).filter(v => ArrayBuffer.isView(v)), ...f.strips.map(s => s.values)];
    return [{ ...f, times }, arrays.map(a => /** @type {ArrayBuffer} */ (/** @type {Float64Array} */ (a).buffer))];
  },
  column: async (h, m) => { const c = readColumn(h, await load(m.file), m.code); return [c, [/** @type {ArrayBuffer} */ (c.values.buffer)]]; },
  csv: async (h, m) => [writeTrack(h, await load(m.file), 'csv'), []],
  gpx: async (h, m) => [writeTrack(h, await load(m.file), 'gpx'), []],
  copy: async (h, m) => [readCopy(h, await load(m.file)), []],
  merge: async (h, m) => handed(mergeCopies(h, await load(m.a), await load(m.b))),
  shelf: async (h, m) => handed(changeShelf(h, await load(m.shelf), m.file ? { ...m.deed, bytes: await load(m.file) } : m.deed)),
  body: async (h, m) => handed(takeOut(h, await load(m.shelf), m.number)),
};

/** @param {any} m @returns {Promise<[any, Transferable[]]>} */
async function answer(m) {
  if (m.op === 'start') {
    module = await WebAssembly.compile(m.wasm);
    return [null, []];
  }
  if (!module) throw new Error('not started');
  hive ??= new Hive(module);
  hive.reset();
  return ERRANDS[m.op](hive, m);
}

/** @type {Promise<void>} */
let last = Promise.resolve(); // one errand after the other: they share the instance
onmessage = e => {
  last = last.then(async () => {
    try {
      const [value, give] = await answer(e.data);
      postMessage({ id: e.data.id, value }, { transfer: give });
    } catch (error) {
      hive = null; // a trap leaves an instance in no known state
      postMessage({ id: e.data.id, error: String(error) });
    }
    if (hive && hive.held > LARGE) hive = null;
  });
};
