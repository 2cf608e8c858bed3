// The great-circle distance on the sphere of the FAI, whose radius is 6,371 km. docs/PAGE.md has the formula and worked values.

export const RADIUS = 6371000; // metres

/** Metres between two places in degrees. The angle is taken by its tangent, which is exact enough for near and for opposite places alike.
 *  @param {number} lat1 @param {number} lon1 @param {number} lat2 @param {number} lon2 */
export function distance(lat1, lon1, lat2, lon2) {
  const rad = Math.PI / 180, a = lat1 * rad, b = lat2 * rad, l = (lon2 - lon1) * rad;
  const east = Math.cos(b) * Math.sin(l), north = Math.cos(a) * Math.sin(b) - Math.sin(a) * Math.cos(b) * Math.cos(l);
  const along = Math.sin(a) * Math.sin(b) + Math.cos(a) * Math.cos(b) * Math.cos(l);
  return RADIUS * Math.atan2(Math.hypot(east, north), along);
}
