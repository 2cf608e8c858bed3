// The header lines of a file, as hive_header takes them apart: pilot and glider first, the others folded away. Their texts stand as they are,
// whatever they say.
import { el } from '../parts/dom.js';
import { count } from '../parts/format.js';
import { codeName, t } from '../texts/texts.js';

const FIRST = ['PLT', 'CM2', 'GTY', 'GID', 'CID', 'CCL'];
const ON_PAPER = 6; // lines that the claim sheet has room for

/** @param {{code:string, text:string}} h @param {boolean} [paper] */
const row = (h, paper = true) => el('div', { class: paper ? null : 'noprint' }, el('dt', null, codeName(h.code)),
  el('dd', { class: 'carried' }, h.text || '–'));

/** @param {any} f an accepted flight */
export function headersCard(f) {
  /** @type {import('../reading/flight.js').Header[]} */ const lines = f.headers.slice(1); // the first is the date
  const rank = (/** @type {string} */ c) => (FIRST.indexOf(c) + FIRST.length + 1) % (FIRST.length + 1);
  const main = lines.filter(h => FIRST.includes(h.code)).sort((a, b) => rank(a.code) - rank(b.code) || a.line - b.line),
    rest = lines.filter(h => !FIRST.includes(h.code));
  const more = f.headerCount - f.headers.length;
  return el('section', { class: 'card', 'aria-labelledby': 'heads-title', id: 'heads' }, el('h2', { id: 'heads-title' }, t('heads')),
    el('p', { class: 'small noprint' }, t('headsHint')),
    main.length ? el('dl', { class: 'lines' }, ...main.map((h, k) => row(h, k < ON_PAPER))) : el('p', null, t('headsNone')),
    el('dl', { class: 'lines onlyprint' }, el('div', null, el('dt', null, t('recorder')), el('dd', { class: 'carried' }, f.recorder)),
      ...rest.filter(h => h.code === 'FTY').slice(0, 1).map(h => row(h))),
    el('details', { class: 'noprint', 'aria-label': t('headsMore', { n: count(rest.length + more) }) },
      el('summary', null, t('headsMore', { n: count(rest.length + more) })),
      el('dl', { class: 'lines' }, el('div', null, el('dt', null, t('recorder')), el('dd', { class: 'carried', id: 'recorder' }, f.recorder)),
        ...rest.map(h => row(h))),
      more > 0 ? el('p', { class: 'small' }, t('furtherLines', { n: count(more) })) : null));
}
