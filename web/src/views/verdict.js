// The verdict on a file: refused, with the library's own words, or accepted, with the facts of the flight.
import { clock, dateText, duration } from '../parts/clock.js';
import { button, el, fact } from '../parts/dom.js';
import { count, metres, moment } from '../parts/format.js';
import { meaning, t } from '../texts/texts.js';

/** @typedef {import('../library/hive.js').Refusal} Refusal */

/** A refusal's number and name.
 *  @param {Refusal} r */
export const ruleText = r => `${r.number} ${r.name}`;

/** The first line of what the library says of a refusal.
 *  @param {Refusal} r */
export const firstWords = r => r.text.split('\n')[0];

/** A heading with its mark.
 *  @param {string} id @param {boolean} good @param {string} words */
const heading = (id, good, words) => el('h2', { id, tabindex: '-1' }, el('span', { class: 'mark', 'aria-hidden': 'true' }, good ? '✓' : '✕'), words);

/** @param {Refusal} r @param {string} name @param {string} [id] */
export function refused(r, name, id = 'verdict-title') {
  const lines = r.text.replace(/\n$/, '').split('\n'), means = meaning(r.number);
  return el('section', { class: 'card verdict bad', 'aria-labelledby': id },
    heading(id, false, t('refused')),
    el('p', { class: 'filename' }, name),
    el('dl', { class: 'facts' }, fact(t('rule'), ruleText(r)), r.line ? fact(t('line'), String(r.line)) : null,
      r.byte ? fact(t('byte'), String(r.byte)) : null),
    means ? el('p', { class: 'means' }, means) : null,
    el('p', { class: 'meaning', lang: 'en' }, lines[0]),
    lines.length > 1 ? el('pre', { class: 'quote', tabindex: '0', role: 'img', 'aria-label': `${t('quoteLabel')}: ${lines[1]}` },
      lines.slice(1).join('\n')) : null,
    el('p', { class: 'small' }, t('refusedEnd')));
}

/** A file that could not be read at all.
 *  @param {string} name @param {unknown} why */
export const unreadable = (name, why) => el('section', { class: 'card verdict bad', 'aria-labelledby': 'verdict-title' },
  heading('verdict-title', false, t('notReadable')), el('p', { class: 'filename' }, name), el('p', null, String(why)));

/** Good news, with a heading and buttons beside it.
 *  @param {string} id @param {string} words @param {Node[]} beside @param {...(Node|null)} below */
export const good = (id, words, beside, ...below) => el('section', { class: 'card verdict good', 'aria-labelledby': id },
  el('div', { class: 'verdict-row' }, heading(id, true, words), ...beside), ...below);

/** @param {any} f an accepted flight @param {string} name @param {{sheet:()=>void, csv:()=>void, gpx:()=>void}} acts */
export function accepted(f, name, acts) {
  const signed = f.strict === null;
  return good('verdict-title', t('accepted'), [
    el('span', { class: `chip ${signed ? 'yes' : 'no'}`, id: 'signed' }, t(signed ? 'signed' : 'notSigned')), el('span', { class: 'spacer' }),
    el('div', { class: 'tools noprint' }, button(t('sheet'), acts.sheet, 'main', 'print-sheet'), button(t('trackCsv'), acts.csv, '', 'save-csv'),
      button(t('trackGpx'), acts.gpx, '', 'save-gpx')),
  ],
  el('p', { class: 'filename' }, name),
  el('p', { class: 'small noprint', id: 'strict' }, signed ? t('signedMeans') : t('notSignedMeans', { words: firstWords(f.strict) })),
  facts(f));
}

/** Seconds from the first fix to the last, by their plain times.
 *  @param {{firstDay:number, firstSeconds:number, lastDay:number, lastSeconds:number}} s */
export const lasted = s => s.lastDay * 86400 + s.lastSeconds - s.firstDay * 86400 - s.firstSeconds;

/** @param {any} f */
function facts(f) {
  const s = f.summary, some = f.ok.fixes > 0, none = '–', notA = f.ok.fixes - f.track.marked;
  return el('dl', { class: 'facts' },
    fact(t('date'), dateText(f.ok), 'f-date'),
    fact(t('firstFix'), some ? moment(s.firstDay, s.firstSeconds) : none, 'f-first'),
      fact(t('lastFix'), some ? moment(s.lastDay, s.lastSeconds) : none, 'f-last'),
    fact(t('duration'), some ? duration(lasted(s)) : none, 'f-duration'),
    fact(t('highest'), some ? metres(s.highest) : none, 'f-highest'), fact(t('lowest'), some ? metres(s.lowest) : none, 'f-lowest'),
    fact(t('highestGnss'), f.track.marked ? metres(f.track.gnssHigh) : none, 'f-gnss'),
    fact(t('fixes'), count(f.ok.fixes) + (notA ? ` (${count(notA)} V)` : ''), 'f-fixes'));
}

/** What a screen reader says of the barogram.
 *  @param {any} s a summary */
export const barogramWords = s => (s.fixes > 0 ? t('barogramLabel',
  { from: clock(s.firstSeconds), to: clock(s.lastSeconds), low: s.lowest, high: s.highest }) : t('barogramEmpty'));
