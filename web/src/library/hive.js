// The proved library as a WebAssembly instance: its memory, what is lent to it, its answers, a refusal in words. It looks at no byte of a file.
// Pointers are numbers; size_t and uint64_t are i64, which JavaScript passes as BigInt.
import { ANSWER, ENTRIES, HEIGHTS, LISTED_CODES, WORDS } from './numbers.js';

/** @typedef {{number:number, name:string, line:number, byte:number, text:string}} Refusal  text: what hive_explain says */

const PAGE = 65536;
const n2 = 2n, n16 = BigInt(ANSWER), nWords = BigInt(WORDS);

/** The library answered something that its header excludes, or was called wrongly: a fault of this page, not of a file. */
export class HiveFault extends Error {}

const decoder = new TextDecoder('latin1');
/** Bytes as the text that they stand for: an accepted line has printable characters of ASCII alone.
 *  @param {Uint8Array} bytes */
export const asText = bytes => decoder.decode(bytes);

export class Hive {
  /** @param {WebAssembly.Module} module */
  constructor(module) {
    /** @type {any} */ this.x = new WebAssembly.Instance(module, {}).exports;
    // What is lent begins where the module's own memory ends.
    this.top = (Number(this.x.__heap_base.value) + 15) & ~15;
    /** @type {ArrayBuffer} */ this.seen = new ArrayBuffer(0);
    this.view = new Uint8Array(0);
    this.answerAt = this.alloc(8 * ANSWER);
    this.entriesAt = this.alloc(8 * ENTRIES);
    this.heightsAt = this.alloc(4 * HEIGHTS);
    this.degreesAt = this.alloc(16);
    this.wordsAt = this.alloc(WORDS);
    this.floor = this.top;
    this.listed = Array.from({ length: LISTED_CODES }, (_, n) => this.listedCode(n));
  }

  /** Forget all that was lent but the fixed places above. */
  reset() { this.top = this.floor; }

  /** Bytes of memory that the instance holds; it never gives any back, so that a large one is better dropped. */
  get held() { return this.x.memory.buffer.byteLength; }

  /** So many bytes, aligned to 16. Views that were made before may be of a detached buffer afterwards.
   *  @param {number} bytes */
  alloc(bytes) {
    const at = this.top, end = at + ((bytes + 15) & ~15), have = this.x.memory.buffer.byteLength;
    if (end > have) this.x.memory.grow(Math.ceil((end - have) / PAGE));
    this.top = end;
    return at;
  }

  bytes() {
    if (this.seen !== this.x.memory.buffer) {
      this.seen = this.x.memory.buffer;
      this.view = new Uint8Array(this.seen);
    }
    return this.view;
  }

  /** Bytes put into memory that is lent.
   *  @param {Uint8Array} bytes */
  lend(bytes) {
    const at = this.alloc(bytes.length);
    this.bytes().set(bytes, at);
    return at;
  }

  /** So many bytes from a place on, as text.
   *  @param {number} at @param {number} length */
  text(at, length) { return asText(this.bytes().slice(at, at + length)); }

  /** Value k of the last answer, as a number: each is far below 2^53.
   *  @param {number} k */
  answer(k) { return Number(new BigUint64Array(this.x.memory.buffer, this.answerAt, ANSWER)[k]); }

  /** A call of the library: its pointers, lengths and values, then the answer, which every one has last.
   *  @param {string} name @param {...(number|bigint)} words */
  call(name, ...words) { return /** @type {number} */ (this.x[name](...words, this.answerAt, n16)); }

  /** A call that the library may not refuse here.
   *  @param {string} name @param {...(number|bigint)} words */
  must(name, ...words) {
    const refused = this.call(name, ...words);
    if (refused !== 0) throw new HiveFault(`${name}: ${refused}`);
  }

  /** hive_listed.
   *  @param {number} n */
  listedCode(n) {
    this.must('hive_listed', n);
    return String.fromCharCode(this.answer(2), this.answer(3), this.answer(4));
  }

  /** hive_name.
   *  @param {number} number */
  name(number) { return this.call('hive_name', number, this.wordsAt, nWords) === 0 ? this.text(this.wordsAt, this.answer(2)) : ''; }

  /** The refusal that the last answer tells, in the words of hive_explain. A refusal without a line needs no file.
   *  @param {number} number @param {number} [at] @param {number} [length] @returns {Refusal} */
  refusal(number, at = 0, length = 0) {
    const line = this.answer(0), byte = this.answer(1);
    this.must('hive_explain', at, BigInt(length), number, line, byte, this.wordsAt, nWords);
    const text = this.text(this.wordsAt, this.answer(2));
    return { number, name: this.name(number), line, byte, text };
  }

  /** hive_degrees.
   *  @param {bigint} lat @param {number} latLetter @param {number} latDecimals @param {bigint} lon @param {number} lonLetter
   *  @param {number} lonDecimals @returns {[number, number]} */
  degrees(lat, latLetter, latDecimals, lon, lonLetter, lonDecimals) {
    const refused = this.x.hive_degrees(lat, latLetter, latDecimals, lon, lonLetter, lonDecimals, this.degreesAt, n2);
    if (refused !== 0) throw new HiveFault(`hive_degrees: ${refused}`);
    const d = new Float64Array(this.x.memory.buffer, this.degreesAt, 2);
    return [d[0], d[1]];
  }
}
