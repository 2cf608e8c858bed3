// A shelf of flights: what it holds, and what each change leaves. Runs in the worker.
import { Hive } from '../library/hive.js';
import { HiveShelf } from '../library/shelf.js';
import { readRow } from './flight.js';

/** @typedef {{deed:'list'}|{deed:'pack'}|{deed:'remove', number:number}|{deed:'add', number:number, bytes:Uint8Array}} Deed */

/** A deed done to a shelf: its bytes afterwards, and its flights; or why it is refused, and then nothing is changed.
 *  @param {Hive} hive @param {Uint8Array} bytes @param {Deed} deed */
export function changeShelf(hive, bytes, deed) {
  let shelf = new HiveShelf(hive, bytes);
  const unsound = shelf.refusal();
  if (unsound) return { refusal: unsound };
  const refusal = deed.deed === 'add' ? shelf.add(deed.number,
    deed.bytes) : deed.deed === 'remove' ? shelf.remove(deed.number) : deed.deed === 'pack' ? shelf.pack() : null;
  if (refusal) return { refusal };
  const flights = shelf.numbers().map(number => {
    const body = shelf.ask(number);
    if ('refusal' in body) return { number, refusal: body.refusal };
    const mark = hive.top, row = readRow(hive, shelf.body(body));
    hive.top = mark;
    return { number, ...body, ...row };
  });
  return { bytes: shelf.bytes(), flights };
}

/** The body of one flight.
 *  @param {Hive} hive @param {Uint8Array} bytes @param {number} number */
export function takeOut(hive, bytes, number) {
  const shelf = new HiveShelf(hive, bytes), body = shelf.ask(number);
  return 'refusal' in body ? body : { bytes: shelf.body(body) };
}
