// Two copies of a file: the notes of each, and what the library merges of them. Runs in the worker.
import { HiveFile, merge } from '../library/file.js';
import { Hive, HiveFault } from '../library/hive.js';
import { notesOf } from './flight.js';

/** One copy: its date and fixes, and its notes; or why the strict check refuses it.
 *  @param {Hive} hive @param {Uint8Array} bytes */
export function readCopy(hive, bytes) {
  const f = new HiveFile(hive, bytes), c = f.check();
  if ('refusal' in c) return { refusal: c.refusal };
  const strict = f.strict();
  return strict ? { refusal: strict } : { ok: c.ok, notes: notesOf(f, f.kinds()) };
}

/** @param {Hive} hive @param {Uint8Array} a @param {Uint8Array} b */
export function mergeCopies(hive, a, b) {
  const merged = merge(new HiveFile(hive, a), new HiveFile(hive, b));
  if ('refusal' in merged) return merged;
  hive.reset();
  const copy = readCopy(hive, merged.bytes);
  if ('refusal' in copy) throw new HiveFault('a merged file that is refused');
  return { ...copy, bytes: merged.bytes };
}
