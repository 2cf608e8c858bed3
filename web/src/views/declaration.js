// The declaration of a file, as hive_declaration tells it.
import { clock, dateText } from '../parts/clock.js';
import { el, fact } from '../parts/dom.js';
import { angle } from '../parts/format.js';
import { t } from '../texts/texts.js';

const ON_PAPER = 8; // points that the claim sheet has room for

/** What point k of n is: the order of the lines gives it.
 *  @param {number} k @param {number} n */
export function roleOf(k, n) {
  if (k < 2) return t(k === 0 ? 'takeOff' : 'start');
  return k < n - 2 ? t('turnPoint', { n: k - 1 }) : t(k === n - 2 ? 'finish' : 'landing');
}

/** A point at 0° 0° is a recorder's way to say that it has none.
 *  @param {{lat:number, lon:number}} p */
export const isNowhere = p => p.lat === 0 && p.lon === 0;

/** How many points the claim sheet leaves out.
 *  @param {any} f */
export const pointsLeftOut = f => Math.max(0, (f.declaration?.points.length ?? 0) - ON_PAPER);

/** @param {any} f an accepted flight */
export function declarationCard(f) {
  const box = el('section', { class: 'card', 'aria-labelledby': 'declaration-title', id: 'declaration' },
    el('h2', { id: 'declaration-title' }, t('declaration')));
  /** @type {import('../library/file.js').Declaration|null} */ const d = f.declaration;
  if (!d) { box.append(el('p', null, t('noDeclaration'))); return box; }
  box.append(el('dl', { class: 'facts slim' },
    fact(t('declared'), `${dateText(d)} ${clock(d.seconds)}`),
      fact(t('forFlight'), d.flightDay === 0 ? t('notGiven') : dateText({ day: d.flightDay, month: d.flightMonth, year: d.flightYear })),
    fact(t('task'), String(d.task)), fact(t('turnPoints'), String(d.turnPoints))));
  if (d.text) box.append(el('p', { class: 'carried' }, d.text));
  const rows = d.points.map((p, k) => el('tr', { class: k < ON_PAPER ? null : 'noprint' }, el('th', { scope: 'row' }, roleOf(k, d.points.length)),
    el('td', { class: 'carried' }, p.text || '–'),
    el('td', { class: 'num' }, `${angle(p.lat, p.latLetter, 2)} ${angle(p.lon, p.lonLetter, 3)}`,
      isNowhere(p) ? el('span', { class: 'small' }, ` ${t('notDrawn')}`) : null)));
  const heads = [t('point'), t('pointText'), t('place')].map(h => el('th', { scope: 'col' }, h));
  box.append(el('div', { class: 'scroll' },
    el('table', { id: 'points', 'aria-label': t('declaration') }, el('thead', null, el('tr', null, ...heads)), el('tbody', null, ...rows))));
  return box;
}
