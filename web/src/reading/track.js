// The records of hive_track as one array for each value, for the pictures. Runs in the worker.
import { HiveFault } from '../library/hive.js';
import { VALID } from '../library/numbers.js';

/** @typedef {ReturnType<typeof readTrack>} Track */

/** Degrees are those of hive_degrees; mx, my are those on a Mercator map of side 1, for drawing.
 *  @param {import('../library/file.js').HiveFile} f */
export function readTrack(f) {
  const n = f.fixes, { u32, i32, u64, u8 } = f.recordsView();
  const line = new Uint32Array(n), day = new Uint32Array(n), count = new Uint32Array(n), decimals = new Uint8Array(n), time = new Float64Array(n);
  const pressure = new Float64Array(n), gnss = new Float64Array(n), lat = new Float64Array(n), lon = new Float64Array(n), mx = new Float64Array(n),
    my = new Float64Array(n), valid = new Uint8Array(n);
  const x = f.hive.x, at = f.hive.degreesAt, degrees = new Float64Array(x.memory.buffer, at, 2);
  let marked = 0, gnssHigh = -Infinity, gnssLow = Infinity, turn = 0, before = NaN;
  for (let i = 0; i < n; i++) {
    const w = 16 * i, o = 64 * i;
    line[i] = u32[w];
    day[i] = u32[w + 1];
    count[i] = u32[w + 2];
    decimals[i] = u8[o + 12];
    time[i] = day[i] * 86400 + count[i] / 10 ** decimals[i];
    pressure[i] = i32[w + 13];
    gnss[i] = i32[w + 14];
    valid[i] = u8[o + 48] === VALID ? 1 : 0;
    if (x.hive_degrees(u64[8 * i + 2], u8[o + 24], u8[o + 25], u64[8 * i + 4], u8[o + 40], u8[o + 41], at, 2n) !== 0) throw new HiveFault('hive_degrees');
    lat[i] = degrees[0];
    lon[i] = degrees[1];
    if (!valid[i]) continue;
    marked++;
    if (gnss[i] > gnssHigh) gnssHigh = gnss[i];
    if (gnss[i] < gnssLow) gnssLow = gnss[i];
    if (lon[i] - before > 180) turn--; else if (lon[i] - before < -180) turn++; // over the date line and on
    before = lon[i];
    [mx[i], my[i]] = mercator(lat[i], lon[i] + 360 * turn);
  }
  return { line, day, count, decimals, time, pressure, gnss, lat, lon, mx, my, valid, marked, gnssHigh, gnssLow };
}

/** @param {number} lat @param {number} lon @returns {[number, number]} */
export function mercator(lat, lon) {
  const s = Math.sin(Math.max(-85.0511287798, Math.min(85.0511287798, lat)) * Math.PI / 180);
  return [lon / 360 + 0.5, 0.5 - Math.log((1 + s) / (1 - s)) / (4 * Math.PI)];
}
