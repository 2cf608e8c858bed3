// The fields of a table of flights: what each shows and is sorted by; the table as CSV; which rows a search finds.
import { clock, dateText, duration } from '../parts/clock.js';
import { count, moment } from '../parts/format.js';
import { t } from '../texts/texts.js';
import { firstWords, lasted } from './verdict.js';

/** @typedef {{file:File, turn:number, refusal?:import('../library/hive.js').Refusal, ok?:import('../library/file.js').Checked, summary?:any, error?:string}} Row */
/** @typedef {{key:string, title:string, num?:boolean, value:(r:Row)=>string|number, text:(r:Row)=>string}} Field */
/** @typedef {'all'|'good'|'bad'|'unsigned'} Which */

/** @param {Row} r */
const flew = r => Boolean(r.ok && r.summary.fixes > 0);
/** @param {Row} r @param {(s:any)=>number} f */
const numberOf = (r, f) => (flew(r) ? f(r.summary) : -Infinity);
/** @param {Row} r @param {(s:any)=>string} f */
const textOf = (r, f) => (flew(r) ? f(r.summary) : '–');
/** @param {Row} r */
const signedText = r => t(r.ok?.signed ? 'signedWord' : 'notSignedWord');

/** What became of a file, in the library's own words where it is refused.
 *  @param {Row} r */
export const fate = r => (r.error ? t('notRead', { why: r.error }) : r.refusal ? firstWords(r.refusal) : t('acceptedWord'));

/** @type {Field[]} */
export const FIELDS = [
  { key: 'file', title: t('colFile'), value: r => r.file.name.toLowerCase(), text: r => r.file.name },
  { key: 'date', title: t('colDate'), value: r => (r.ok ? dateText(r.ok) : ''), text: r => (r.ok ? dateText(r.ok) : '–') },
  { key: 'first', title: t('colFirst'), num: true, value: r => numberOf(r, s => s.firstDay * 86400 + s.firstSeconds),
    text: r => textOf(r, s => moment(s.firstDay, s.firstSeconds)) },
  { key: 'last', title: t('colLast'), num: true, value: r => numberOf(r, s => s.lastDay * 86400 + s.lastSeconds),
    text: r => textOf(r, s => moment(s.lastDay, s.lastSeconds)) },
  { key: 'duration', title: t('colDuration'), num: true, value: r => numberOf(r, lasted), text: r => textOf(r, s => duration(lasted(s))) },
  { key: 'highest', title: t('colHighest'), num: true, value: r => numberOf(r, s => s.highest), text: r => textOf(r, s => String(s.highest)) },
  { key: 'lowest', title: t('colLowest'), num: true, value: r => numberOf(r, s => s.lowest), text: r => textOf(r, s => String(s.lowest)) },
  { key: 'fixes', title: t('colFixes'), num: true, value: r => (r.ok ? r.ok.fixes : -1), text: r => (r.ok ? count(r.ok.fixes) : '–') },
  { key: 'signed', title: t('colSigned'), value: r => (r.ok ? (r.ok.signed ? 2 : 1) : 0), text: r => (r.ok ? signedText(r) : '–') },
  { key: 'fate', title: t('colCheck'), value: r => (r.ok ? '' : fate(r)), text: fate },
];

/** Rows in the order of a field; equal ones keep the order in which the files came.
 *  @param {Row[]} rows @param {string} key @param {boolean} down */
export function sortRows(rows, key, down) {
  const f = /** @type {Field} */ (FIELDS.find(x => x.key === key)), sign = down ? -1 : 1;
  const keyed = rows.map(r => ({ r, v: f.value(r) }));
  keyed.sort((a, b) => (a.v < b.v ? -sign : a.v > b.v ? sign : a.r.turn - b.r.turn));
  return keyed.map(k => k.r);
}

/** @param {Row} r @param {Which} which */
const isOf = (r, which) => which === 'all' || (which === 'good' ? Boolean(r.ok) : which === 'bad' ? !r.ok : Boolean(r.ok && !r.ok.signed));

/** The rows of a kind in which every word of a search stands.
 *  @param {Row[]} rows @param {string} search @param {Which} which */
export function findRows(rows, search, which) {
  const words = search.toLowerCase().split(/\s+/).filter(Boolean);
  return rows.filter(r => {
    if (!isOf(r, which)) return false;
    const text = words.length ? FIELDS.map(f => f.text(r)).join(' ').toLowerCase() : '';
    return words.every(w => text.includes(w));
  });
}

/** A field of CSV. A name that a spreadsheet would take for a formula gets an apostrophe first.
 *  @param {string|number} v */
function csv(v) {
  const s = typeof v === 'string' && /^[=+\-@\t\r]/.test(v) ? `'${v}` : String(v);
  return /[",\r\n]/.test(s) ? `"${s.replace(/"/g, '""')}"` : s;
}

/** The table for other programs: its words are English in every language.
 *  @param {Row[]} rows */
export function tableCsv(rows) {
  const out = ['file,check,date,first_fix_utc,last_fix_utc,duration_s,highest_m,lowest_m,fixes,signed'];
  for (const r of rows) {
    const ok = r.ok, s = r.summary, check = r.error ? `could not be read: ${r.error}` : r.refusal ? firstWords(r.refusal) : 'accepted';
    const at = (/** @type {number} */ day, /** @type {number} */ seconds) => (ok ? `${dateText(ok, day)}T${clock(seconds)}Z` : '');
    const told = flew(r) ? [at(s.firstDay, s.firstSeconds), at(s.lastDay, s.lastSeconds), lasted(s), s.highest, s.lowest] : ['', '', '', '', ''];
    out.push([csv(r.file.name), csv(check), ok ? dateText(ok) : '', ...told, ok ? ok.fixes : '', ok ? (ok.signed ? 'signed' : 'not signed') : ''].join(','));
  }
  return out.join('\r\n') + '\r\n';
}
