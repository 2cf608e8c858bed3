// The track as CSV or GPX, in the form of the crates csv and gpx, from the numbers of hive_track and hive_degrees. Runs in the worker.
import { HiveFile } from '../library/file.js';
import { Hive, HiveFault } from '../library/hive.js';
import { dateText, fineClock } from '../parts/clock.js';

const PIECE = 1 << 20; // characters that are put together before they are handed to the blob
const OPEN = { csv: 'time,latitude,longitude,validity,pressure,gnss\n',
  gpx: '<?xml version="1.0" encoding="UTF-8"?>\n<gpx version="1.1" creator="Hivebasket" xmlns="http://www.topografix.com/GPX/1/1">\n<trk><trkseg>\n' };
const SHUT = { csv: '', gpx: '</trkseg></trk></gpx>\n' };
const TYPE = { csv: 'text/csv', gpx: 'application/gpx+xml' };

/** @param {Hive} hive @param {Uint8Array} bytes @param {'csv'|'gpx'} form */
export function writeTrack(hive, bytes, form) {
  const f = new HiveFile(hive, bytes), c = f.check();
  if ('refusal' in c) throw new HiveFault('the file has changed');
  f.track();
  const { u32, i32, u64, u8 } = f.recordsView(), x = hive.x, at = hive.degreesAt, d = new Float64Array(x.memory.buffer, at, 2);
  /** @type {string[]} */ const parts = [];
  let out = OPEN[form];
  for (let i = 0; i < f.fixes; i++) {
    const w = 16 * i, o = 64 * i;
    if (x.hive_degrees(u64[8 * i + 2], u8[o + 24], u8[o + 25], u64[8 * i + 4], u8[o + 40], u8[o + 41], at, 2n) !== 0) throw new HiveFault('hive_degrees');
    const moment = `${dateText(c.ok, u32[w + 1])}T${fineClock(u32[w + 2], u8[o + 12])}Z`, lat = d[0].toFixed(6 + u8[o + 25]),
      lon = d[1].toFixed(6 + u8[o + 41]);
    out += form === 'csv' ? `${moment},${lat},${lon},${String.fromCharCode(u8[o + 48])},${i32[w + 13]},${i32[w + 14]}\n`
      : `<trkpt lat="${lat}" lon="${lon}"><ele>${i32[w + 14]}</ele><time>${moment}</time></trkpt>\n`;
    if (out.length > PIECE) { parts.push(out); out = ''; }
  }
  parts.push(out + SHUT[form]);
  return new Blob(parts, { type: TYPE[form] });
}
