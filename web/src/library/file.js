// The calls of the library on one lent file: check, lines and their kinds, track, columns, declaration, summary. One method a call.
import { Hive, HiveFault } from './hive.js';
import { ENTRIES, HEIGHTS, KIND, POINT, RECORD, RUN, TOLD } from './numbers.js';

/** @typedef {import('./hive.js').Refusal} Refusal */
/** @typedef {{day:number, month:number, year:number, lines:number, fixes:number, kLines:number, nLines:number, bLength:number, signed:boolean}} Checked */
/** @typedef {{start:number, length:number}} Line */
/** @typedef {{code:string, number:number}} Column  number: that of a listed code, 0 to 14, or -1 */
/** @typedef {{lat:number, latLetter:number, lon:number, lonLetter:number, text:string, degrees:[number, number]}} Point */
/** @typedef {{day:number, month:number, year:number, seconds:number, flightDay:number, flightMonth:number, flightYear:number}} Dates  declared, and of the flight */
/** @typedef {Dates & {task:number, turnPoints:number, text:string, points:Point[]}} Declaration */

export class HiveFile {
  /** @param {Hive} hive @param {Uint8Array} bytes */
  constructor(hive, bytes) {
    this.hive = hive;
    this.at = hive.lend(bytes);
    this.length = bytes.length;
    this.big = BigInt(bytes.length);
    this.lines = 0;
    this.table = 0; // of offsets, where tabled() was called
    this.kindsAt = 0;
    this.records = 0;
    this.fixes = 0;
    this.bLength = 0;
  }

  /** @param {number} number */
  refusal(number) { return this.hive.refusal(number, this.at, this.length); }

  /** hive_count: the usual check.
   *  @returns {{ok:Checked}|{refusal:Refusal}} */
  check() {
    const h = this.hive, refused = h.call('hive_count', this.at, this.big);
    if (refused !== 0) return { refusal: this.refusal(refused) };
    const a = (/** @type {number} */ k) => h.answer(k);
    this.lines = a(5);
    this.fixes = a(6);
    this.bLength = a(8);
    return { ok: { day: a(2), month: a(3), year: a(4), lines: a(5), fixes: a(6), kLines: a(7), bLength: a(8), nLines: a(10), signed: a(12) === 1 } };
  }

  /** hive_check_strict, which also puts the offsets of all lines into the table; null where it is good. The file has passed check().
   *  @returns {Refusal|null} */
  strict() {
    const h = this.hive;
    this.table = h.alloc(4 * this.lines);
    const refused = h.call('hive_check_strict', this.at, this.big, this.table, BigInt(this.lines));
    return refused === 0 ? null : this.refusal(refused);
  }

  /** hive_kinds: the letter of each line, line 1 first. */
  kinds() {
    const h = this.hive;
    this.kindsAt = h.alloc(this.lines);
    h.must('hive_kinds', this.at, this.big, this.kindsAt, BigInt(this.lines));
    return h.bytes().slice(this.kindsAt, this.kindsAt + this.lines);
  }

  /** hive_line, by the table of strict().
   *  @param {number} n counted from 1 @returns {Line} */
  line(n) {
    const h = this.hive;
    h.must('hive_line', this.at, this.big, this.table, BigInt(this.lines), BigInt(n));
    return { start: h.answer(2), length: h.answer(3) };
  }

  /** The text of a line, behind so many of its bytes.
   *  @param {number} n @param {number} [behind] */
  lineText(n, behind = 0) {
    const l = this.line(n);
    return this.hive.text(this.at + l.start + behind, l.length - behind);
  }

  /** hive_header: an H line taken apart.
   *  @param {number} n */
  header(n) {
    const h = this.hive, l = this.line(n);
    h.must('hive_header', this.at + l.start, BigInt(l.length));
    const code = String.fromCharCode(h.answer(3), h.answer(4), h.answer(5));
    return { line: n, code, text: h.text(this.at + l.start + h.answer(6), h.answer(7)) };
  }

  /** hive_summary made afresh: the twelve numbers of the whole flight. */
  summary() {
    const h = this.hive, mark = h.top, size = TOLD + TOLD * Math.ceil(this.fixes / RUN), list = h.alloc(4 * size);
    h.must('hive_summary', this.at, this.big, 0, list, BigInt(size));
    const t = new Int32Array(h.x.memory.buffer.slice(list, list + 4 * TOLD));
    h.top = mark;
    return {
      fixes: t[0], firstDay: t[1], firstSeconds: t[2], lastDay: t[3], lastSeconds: t[4], highest: t[5], lowest: t[6],
      hasPosition: t[7] === 1, south: t[8], north: t[9], west: t[10], east: t[11],
    };
  }

  /** hive_track: all fixes as records of 64 bytes, in memory until the next reset. */
  track() {
    const h = this.hive;
    this.records = h.alloc(RECORD * this.fixes);
    h.must('hive_track', this.at, this.big, this.records, BigInt(this.fixes));
  }

  /** The records as numbers of four widths over the same bytes; good until the next alloc. */
  recordsView() {
    const b = this.hive.x.memory.buffer, n = this.fixes;
    return {
      u32: new Uint32Array(b, this.records, 16 * n), i32: new Int32Array(b, this.records, 16 * n),
      u64: new BigUint64Array(b, this.records, 8 * n), u8: new Uint8Array(b, this.records, RECORD * n),
    };
  }

  /** hive_column_at: the columns that the I line names, in its order.
   *  @param {number} n the I line @returns {Column[]} */
  columnsOf(n) {
    const h = this.hive, l = this.line(n);
    /** @type {Column[]} */ const out = [];
    for (let k = 1n; k <= 13n; k++) {
      if (h.call('hive_column_at', this.at + l.start, BigInt(l.length), k) !== 0) break;
      const code = String.fromCharCode(h.answer(2), h.answer(3), h.answer(4));
      out.push({ code, number: h.listed.indexOf(code) });
    }
    return out;
  }

  /** hive_columns: columns of all fixes as numbers, NaN where a column's text is none.
   *  @param {string[]} codes @returns {Float64Array[]} */
  columns(codes) {
    const h = this.hive, n = this.fixes, wide = codes.length;
    if (n === 0 || wide === 0) return codes.map(() => new Float64Array(0));
    const mark = h.top, named = h.lend(Uint8Array.from(codes.join(''), c => c.charCodeAt(0))), list = h.alloc(8 * n * wide);
    h.must('hive_columns', this.at, this.big, KIND.B, named, BigInt(3 * wide), list, BigInt(n * wide));
    const low = new Uint32Array(h.x.memory.buffer, list, 2 * n * wide), high = new Int32Array(h.x.memory.buffer, list, 2 * n * wide);
    const out = codes.map((_, c) => {
      const values = new Float64Array(n);
      for (let i = 0, k = 2 * c; i < n; i++, k += 2 * wide) values[i] = high[k + 1] === -2147483648 && low[k] === 0 ? NaN : high[k + 1] * 4294967296 + low[k];
      return values;
    });
    h.top = mark;
    return out;
  }

  /** The text of a column of one B line, by hive_fix and hive_look.
   *  @param {number} n the B line @param {number} layout the I line @param {string} code */
  columnText(n, layout, code) {
    const h = this.hive, l = this.line(n), i = this.line(layout), [c0, c1, c2] = [0, 1, 2].map(k => code.charCodeAt(k)), length = BigInt(l.length),
      entries = BigInt(ENTRIES);
    const refused = h.x.hive_fix(this.at + l.start, length, this.at + i.start, BigInt(i.length), h.answerAt, 16n, h.heightsAt, BigInt(HEIGHTS),
      h.entriesAt, entries);
    if (refused !== 0) throw new HiveFault(`hive_fix: ${refused}`);
    h.must('hive_look', this.at + l.start, length, h.entriesAt, entries, c0, c1, c2);
    return h.text(this.at + l.start + h.answer(2), h.answer(3));
  }

  /** hive_declaration, with the place of each point by hive_degrees; null where the file has none.
   *  @param {number} lines how many C lines there are @returns {Declaration|null} */
  declaration(lines) {
    const h = this.hive, mark = h.top, list = h.alloc(8 * POINT * lines);
    h.must('hive_declaration', this.at, this.big, list, BigInt(POINT * lines));
    const a = Array.from({ length: 16 }, (_, k) => h.answer(k));
    const numbers = new BigUint64Array(h.x.memory.buffer.slice(list, list + 8 * POINT * a[11]));
    h.top = mark;
    if (a[12] === 0) return null;
    const points = Array.from({ length: a[11] }, (_, k) => {
      const p = numbers.subarray(POINT * k, POINT * k + POINT), latLetter = Number(p[1]), lonLetter = Number(p[3]);
      return { lat: Number(p[0]), latLetter, lon: Number(p[2]), lonLetter, text: h.text(this.at + Number(p[4]), Number(p[5])),
        degrees: h.degrees(p[0], latLetter, 0, p[2], lonLetter, 0) };
    });
    return { day: a[2], month: a[3], year: a[4], seconds: a[5], flightDay: a[6], flightMonth: a[7], flightYear: a[8], task: a[9], turnPoints: a[10],
      text: h.text(this.at + a[13], a[14]), points };
  }
}

/** hive_merge: two lent files as one; the bytes, or the refusal and whose it is.
 *  @param {HiveFile} first @param {HiveFile} second @returns {{bytes:Uint8Array}|{refusal:Refusal, whose:number}} */
export function merge(first, second) {
  const h = first.hive, room = first.length + second.length, out = h.alloc(room);
  const refused = h.call('hive_merge', first.at, first.big, second.at, second.big, out, BigInt(room));
  if (refused === 0) return { bytes: h.bytes().slice(out, out + h.answer(2)) };
  const whose = h.answer(3);
  return { refusal: (whose === 2 ? second : first).refusal(refused), whose };
}
