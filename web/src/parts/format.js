// Numbers of the library as texts in the page's language. No byte of a file comes here.
import { t } from '../texts/texts.js';
import { fineClock, pad } from './clock.js';

const THIN = '\u202f'; // a narrow space that does not break

/** A time with its day, counted from the file's date.
 *  @param {number} day @param {number} count @param {number} [decimals] */
export const moment = (day, count, decimals = 0) => fineClock(count, decimals) + (day > 0 ? t('nextDay', { n: day }).replace(/(\d) /, `$1${THIN}`) : '');

/** @param {number} n */
export const count = n => String(n).replace(/\B(?=(\d{3})+$)/g, THIN);

/** @param {number} n @param {number} digits */
export const decimal = (n, digits) => n.toFixed(digits).replace('.', t('decimal'));

/** @param {number} m */
export const metres = m => `${m < 0 ? '\u2212' : ''}${Math.abs(m)}${THIN}m`;

/** A distance: below 10 km in metres, else in kilometres with two decimals.
 *  @param {number} m */
export const distanceText = m => (m < 9999.5 ? `${Math.round(m)}${THIN}m` : `${decimal(m / 1000, 2)}${THIN}km`);

/** A plain count of thousandths of a minute.
 *  @param {number} c @param {number} letter @param {number} digits of the degrees */
export function angle(c, letter, digits) {
  const minutes = ((c % 60000) / 1000).toFixed(3).padStart(6, '0');
  return `${pad(Math.floor(c / 60000), digits)}°${minutes}′${String.fromCharCode(letter)}`;
}

/** @param {number} n */
export const bytesText = n => (n < 10000 ? t('bytes', { n }) : n < 1048576 ? t('kib', { n: Math.round(n / 1024) }) : t('mib',
  { n: decimal(n / 1048576, n % 1048576 === 0 ? 0 : 1) }));
