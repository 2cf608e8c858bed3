// The claim sheet: what stands on paper alone. The cards of the flight are laid out for one A4 by style/sheet.css; here are its head and its foot.
import { dateText } from '../parts/clock.js';
import { el, fact } from '../parts/dom.js';
import { bytesText } from '../parts/format.js';
import { t } from '../texts/texts.js';
import { pointsLeftOut } from './declaration.js';
import { notesLeftOut } from './notes.js';
import { firstWords } from './verdict.js';

/** @param {any} f an accepted flight @param {File} file */
export const sheetHead = (f, file) => el('header', { class: 'onlyprint sheet-head wide', id: 'sheet-head' },
  el('h2', null, t('sheetTitle', { date: dateText(f.ok) })),
  el('dl', { class: 'lines' },
    fact(t('sheetFile'), el('span', { class: 'carried' }, `${file.name.slice(0, 120)} (${bytesText(file.size)})`)),
    fact(t('sha'), el('span', { class: 'carried sum' })),
    fact(t('sheetStrict'), el('span', { class: 'strict-words' }, f.strict ? firstWords(f.strict) : t('sheetStrictGood')))),
  el('p', { class: 'unverified' }, el('strong', null, t('sheetG')), ` ${t('sheetWhat')}`));

/** @param {any} f */
export function sheetFoot(f) {
  const points = pointsLeftOut(f), notes = notesLeftOut(f.notes);
  const left = [points ? t('sheetPoints', { n: points }) : '', notes ? t('sheetNotes', { n: notes }) : ''].filter(Boolean).join(', ');
  const line = (/** @type {string} */ words) => el('div', { class: 'sign-line' }, el('span'), el('small', null, words));
  return el('footer', { class: 'onlyprint sheet-foot wide', id: 'sheet-foot' },
    left ? el('p', { class: 'small' }, t('sheetMore', { what: left })) : null,
    el('div', { class: 'sign' }, line(t('sheetRemarks'))),
    el('div', { class: 'sign' }, line(t('sheetSeen')), line(t('sheetNumber')), line(t('sheetDate')), line(t('sheetSignature'))));
}
