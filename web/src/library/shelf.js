// The calls of the library on a lent shelf. Of the shelf's bytes only the flight numbers of its table of contents are read here, at the places that
// c/hivebasket.h gives them: no call lists them.
import { Hive } from './hive.js';
import { NOT_FOUND, SHELF_ENTRY, SHELF_FLIGHTS } from './numbers.js';

/** @typedef {import('./hive.js').Refusal} Refusal */

export class HiveShelf {
  /** @param {Hive} hive @param {Uint8Array} bytes */
  constructor(hive, bytes) {
    this.hive = hive;
    this.at = hive.lend(bytes);
    this.length = bytes.length;
    this.big = BigInt(bytes.length);
  }

  /** Why the buffer is no sound shelf; null where it is one. Flight number 0 is never held, so that asking for it tests the shelf alone. */
  refusal() {
    const refused = this.hive.call('hive_shelf_ask', this.at, this.big, 0);
    return refused === NOT_FOUND ? null : this.hive.refusal(refused);
  }

  /** The flight numbers of a sound shelf, in the order of its table of contents. */
  numbers() {
    const table = new DataView(this.hive.x.memory.buffer, this.at, SHELF_ENTRY * SHELF_FLIGHTS);
    return Array.from({ length: SHELF_FLIGHTS }, (_, n) => table.getUint32(SHELF_ENTRY * n, true)).filter(n => n !== 0);
  }

  /** hive_shelf_ask: where the body of a flight stands.
   *  @param {number} number */
  ask(number) {
    const refused = this.hive.call('hive_shelf_ask', this.at, this.big, number);
    return refused === 0 ? { start: this.hive.answer(2), length: this.hive.answer(3) } : { refusal: this.hive.refusal(refused) };
  }

  /** hive_shelf_add; null where the file was put on the shelf.
   *  @param {number} number @param {Uint8Array} file @returns {Refusal|null} */
  add(number, file) {
    const at = this.hive.lend(file), refused = this.hive.call('hive_shelf_add', this.at, this.big, number, at, BigInt(file.length));
    return refused === 0 ? null : this.hive.refusal(refused, at, file.length);
  }

  /** hive_shelf_remove.
   *  @param {number} number @returns {Refusal|null} */
  remove(number) {
    const refused = this.hive.call('hive_shelf_remove', this.at, this.big, number);
    return refused === 0 ? null : this.hive.refusal(refused);
  }

  /** hive_shelf_pack. @returns {Refusal|null} */
  pack() {
    const refused = this.hive.call('hive_shelf_pack', this.at, this.big);
    return refused === 0 ? null : this.hive.refusal(refused);
  }

  /** The shelf's bytes as they are now. */
  bytes() { return this.hive.bytes().slice(this.at, this.at + this.length); }

  /** The body of a flight.
   *  @param {{start:number, length:number}} body */
  body({ start, length }) { return this.hive.bytes().slice(this.at + start, this.at + start + length); }
}
