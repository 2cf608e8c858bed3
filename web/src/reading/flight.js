// What the page shows of one file, put together from the answers of the proved library. Runs in the worker.
import { HiveFile } from '../library/file.js';
import { Hive, HiveFault } from '../library/hive.js';
import { KIND } from '../library/numbers.js';
import { readTrack } from './track.js';

const SHOWN = 500; // H lines and notes shown at most; all are counted
const AT_ONCE = ['ENL', 'MOP']; // columns that are read with the flight, others when they are asked for

// A column with its values; words: how many fixes have no number there; sample: the text of the first such.
/** @typedef {import('../library/file.js').Column & {values:Float64Array, words:number, sample:string}} Strip */
/** @typedef {{line:number, code:string, text:string}} Header */

/** One row of a table of flights.
 *  @param {Hive} hive @param {Uint8Array} bytes */
export function readRow(hive, bytes) {
  const f = new HiveFile(hive, bytes), c = f.check();
  return 'refusal' in c ? { refusal: c.refusal } : { ok: c.ok, summary: f.summary() };
}

/** The lines of a kind, by number.
 *  @param {Uint8Array} kinds @param {number} kind @param {number} [most] */
export function linesOf(kinds, kind, most = Infinity) {
  /** @type {number[]} */ const out = [];
  let count = 0;
  for (let n = kinds.indexOf(kind); n >= 0; n = kinds.indexOf(kind, n + 1)) if (count++ < most) out.push(n + 1);
  return { lines: out, count };
}

/** The evening notes of a file: how many, and the texts of the first.
 *  @param {HiveFile} f @param {Uint8Array} kinds */
export function notesOf(f, kinds) {
  const { lines, count } = linesOf(kinds, KIND.NOTE, SHOWN);
  return { count, texts: lines.map(n => f.lineText(n, 1)) };
}

/** @param {Hive} hive @param {Uint8Array} bytes */
export function readFlight(hive, bytes) {
  const f = new HiveFile(hive, bytes), c = f.check();
  if ('refusal' in c) return { refusal: c.refusal };
  const strict = f.strict(), summary = f.summary(), kinds = f.kinds();
  const heads = linesOf(kinds, KIND.H, SHOWN), layout = kinds.indexOf(KIND.I) + 1;
  const columns = layout > 0 ? f.columnsOf(layout) : [];
  const declaration = f.declaration(linesOf(kinds, KIND.C, 0).count);
  const recorder = f.lineText(kinds.indexOf(KIND.A) + 1, 1);
  const headers = heads.lines.map(n => f.header(n)), notes = notesOf(f, kinds), inside = linesOf(kinds, KIND.L, 0).count;
  f.track();
  const track = readTrack(f);
  const strips = readStrips(f, columns.filter(k => AT_ONCE.includes(k.code)), layout, track.line);
  return { ok: c.ok, strict, summary, track, headers, headerCount: heads.count, recorder, columns, strips, declaration, notes, inside, held: hive.held };
}

/** Columns with their values, and what stands there where it is no number.
 *  @param {HiveFile} f @param {import('../library/file.js').Column[]} columns @param {number} layout @param {ArrayLike<number>} line of each fix
 *  @returns {Strip[]} */
function readStrips(f, columns, layout, line) {
  return f.columns(columns.map(c => c.code)).map((values, k) => {
    let words = 0, first = -1;
    for (let i = 0; i < values.length; i++) if (values[i] !== values[i] && words++ === 0) first = i;
    return { ...columns[k], values, words, sample: first < 0 ? '' : f.columnText(line[first], layout, columns[k].code) };
  });
}

/** One more column, when it is asked for.
 *  @param {Hive} hive @param {Uint8Array} bytes @param {string} code @returns {Strip} */
export function readColumn(hive, bytes, code) {
  const f = new HiveFile(hive, bytes);
  if ('refusal' in f.check()) throw new HiveFault('the file has changed');
  f.strict();
  const kinds = f.kinds(), layout = kinds.indexOf(KIND.I) + 1;
  const column = f.columnsOf(layout).filter(c => c.code === code);
  return readStrips(f, column, layout, linesOf(kinds, KIND.B).lines)[0];
}
