// Dates and times as texts that are the same in every language.

/** @param {number} n @param {number} [w] */
export const pad = (n, w = 2) => String(n).padStart(w, '0');

/** A date, so many days on.
 *  @param {{day:number, month:number, year:number}} d @param {number} [days] */
export function dateText(d, days = 0) {
  if (days === 0) return `${pad(d.year, 4)}-${pad(d.month)}-${pad(d.day)}`;
  return new Date(Date.UTC(d.year, d.month - 1, d.day + days)).toISOString().slice(0, 10);
}

/** Seconds of the day; 86,400 is the leap second.
 *  @param {number} s */
export const clock = s => (s === 86400 ? '23:59:60' : `${pad(Math.floor(s / 3600))}:${pad(Math.floor(s / 60) % 60)}:${pad(s % 60)}`);

/** A count of seconds with its decimals.
 *  @param {number} count @param {number} decimals */
export function fineClock(count, decimals) {
  if (decimals === 0) return clock(count);
  const ten = 10 ** decimals, s = Math.floor(count / ten);
  return `${clock(s)}.${pad(count - s * ten, decimals)}`;
}

/** So many seconds as hours, minutes and seconds.
 *  @param {number} s */
export const duration = s => `${Math.floor(s / 3600)}:${pad(Math.floor(s / 60) % 60)}:${pad(Math.floor(s % 60))}`;
