// The gain of height between two fixes, the low point and the high point, and the greatest that a flight has.
import { distance } from './sphere.js';

/** @typedef {{low:number, high:number, pressure:number, gnss:number|null, seconds:number, metres:number|null, noise:number|null, inOrder:boolean}} Gain */

/** What lies between two fixes. GNSS altitudes and places count only where both fixes are marked A; noise is the greatest ENL between them.
 *  @param {import('../reading/track.js').Track} t @param {number} low @param {number} high @param {ArrayLike<number>} [enl] @returns {Gain} */
export function gainBetween(t, low, high, enl) {
  const sure = t.valid[low] === 1 && t.valid[high] === 1;
  let noise = -Infinity;
  if (enl) for (let i = Math.min(low, high); i <= Math.max(low, high); i++) if (enl[i] > noise) noise = enl[i];
  return {
    low, high, pressure: t.pressure[high] - t.pressure[low], gnss: sure ? t.gnss[high] - t.gnss[low] : null, seconds: t.time[high] - t.time[low],
    metres: sure ? distance(t.lat[low], t.lon[low], t.lat[high], t.lon[high]) : null, noise: noise === -Infinity ? null : noise, inOrder: low < high,
  };
}

/** The two fixes of the greatest gain between two places of a list of heights, the low one first. Of equal gains the first is taken.
 *  @param {ArrayLike<number>} heights @param {number} from @param {number} to behind the last @returns {[number, number]|null} */
export function greatestGain(heights, from, to) {
  let lowest = from, best = 0;
  /** @type {[number, number]|null} */ let marks = null;
  for (let i = from; i < to; i++) {
    const h = heights[i];
    if (h !== h) continue;
    if (!(heights[lowest] <= h)) lowest = i;
    if (h - heights[lowest] > best) { best = h - heights[lowest]; marks = [lowest, i]; }
  }
  return marks;
}
