// The track on a map without tiles: north up, Web Mercator, drawn on one canvas; Leaflet does the moving, the scale bar and the points.
import * as L from 'leaflet';
import { colour, el, printing } from './dom.js';
import { metres } from './format.js';
import { t as words } from '../texts/texts.js';

// Viridis, which people with any of the common kinds of colour blindness can tell apart, without the end that is lost on the ground colour.
const LIGHT = ['#440154', '#482475', '#414487', '#355f8d', '#2a788e', '#21918c', '#22a884', '#44bf70', '#7ad151', '#a5c81c'];
const DARK = ['#7a63c7', '#6f7fd6', '#5b97d6', '#3fa9c9', '#2fb8b4', '#35c69a', '#5ad37a', '#8ee05a', '#c4e93c', '#fde725'];
export const heights = () => (colour('--scheme') === 'dark' ? DARK : LIGHT);

export class TrackMap {
  /** @param {HTMLElement} box @param {any} flight an accepted one @param {{label:string, degrees:[number, number]}[]} points */
  constructor(box, flight, points) {
    this.box = box;
    this.track = flight.track;
    this.points = points;
    const s = flight.summary;
    this.by = s.highest === 0 && s.lowest === 0 && this.track.marked > 0 ? 'gnss' : 'pressure';
    this.low = this.by === 'gnss' ? this.track.gnssLow : s.lowest;
    this.high = this.by === 'gnss' ? this.track.gnssHigh : s.highest;
    this.cursor = -1;
    /** @type {(number|null)[]} */ this.marks = [null, null];
    this.frame = 0;
    this.map = L.map(box, { attributionControl: false, zoomAnimation: false, fadeAnimation: false, zoomSnap: 0.1, zoomDelta: 0.75,
      scrollWheelZoom: false, dragging: !L.Browser.mobile, preferCanvas: true, zoomControl: false, maxZoom: 19, minZoom: 1 });
    L.control.zoom({ zoomInTitle: words('zoomIn'), zoomOutTitle: words('zoomOut') }).addTo(this.map);
    L.control.scale({ imperial: false, maxWidth: 160 }).addTo(this.map);
    this.canvas = el('canvas', { class: 'track', 'aria-hidden': 'true' });
    this.map.getPanes().overlayPane.append(this.canvas);

    const middle = (s.west + s.east) / 120000;
    /** @type {[number, number][]} */
    const spots = points.map(p => [p.degrees[0], p.degrees[1] + 360 * Math.round((middle - p.degrees[1]) / 360)]);
    // The box is the summary's own; where a track crosses the date line that box spans the world, and the drawn track is taken instead.
    /** @type {[number, number][]} */
    let corners = s.hasPosition ? [[s.south / 60000, s.west / 60000], [s.north / 60000, s.east / 60000]] : [];
    if (s.hasPosition && s.east - s.west > 10800000) corners = this.drawnBox();
    this.bounds = L.latLngBounds([...corners, ...spots]);
    if (!this.bounds.isValid()) this.bounds = L.latLngBounds([[-1, -1], [1, 1]]);
    this.fit();
    this.route = spots.length > 1 ? L.polyline(spots, { weight: 1.5, dashArray: '6 5', interactive: false }).addTo(this.map) : null;
    /** @type {any[]} */ this.rings = [];
    /** @type {Map<string, string>} */ const labels = new Map();
    spots.forEach((p, k) => {
      const there = labels.get(p.join()), label = points[k].label;
      labels.set(p.join(), there === undefined || there.split(', ').includes(label) ? there ?? label : `${there}, ${label}`);
    });
    for (const [place, label] of labels) {
      const content = el('span', null, label);
      const ring = L.circleMarker(/** @type {any} */ (place.split(',').map(Number)), { radius: 7, weight: 3, fill: false });
      this.rings.push(ring);
      ring.bindTooltip(/** @type {any} */ (content), { permanent: labels.size <= 8, direction: 'right', offset: [8, 0], className: 'spot' }).addTo(this.map);
    }
    this.paint();
    this.size = new ResizeObserver(() => { this.map.invalidateSize({ animate: false }); this.later(); });
    this.size.observe(box);
    this.map.on('move zoom resize viewreset', () => this.later());
    this.draw();
  }

  /** @returns {[number, number][]} */
  drawnBox() {
    const t = this.track;
    let w = Infinity, e = -Infinity, n = Infinity, s = -Infinity;
    for (let i = 0; i < t.mx.length; i++) if (t.valid[i]) { w = Math.min(w, t.mx[i]); e = Math.max(e, t.mx[i]); n = Math.min(n,
      t.my[i]); s = Math.max(s, t.my[i]); }
    const lat = (/** @type {number} */ y) => Math.atan(Math.sinh(Math.PI * (1 - 2 * y))) * 180 / Math.PI;
    return [[lat(s), (w - 0.5) * 360], [lat(n), (e - 0.5) * 360]];
  }

  fit() { // on the screen the zoom buttons stand to the left; labels stand to the right
    const left = printing() ? 24 : 60, right = this.points.length ? 130 : 40;
    this.map.fitBounds(this.bounds, { paddingTopLeft: [left, 30], paddingBottomRight: [right, 40], maxZoom: 16, animate: false });
  }
  later() { if (!this.frame) this.frame = requestAnimationFrame(() => { this.frame = 0; this.draw(); }); }
  resize() { this.map.invalidateSize({ animate: false }); this.paint(); this.draw(); }
  paint() { this.route?.setStyle({ color: colour('--ink2') }); for (const r of this.rings) r.setStyle({ color: colour('--point') }); }
  /** @param {number} i */
  point(i) { this.cursor = i; this.later(); }
  /** @param {(number|null)[]} marks */
  setMarks(marks) { this.marks = marks; this.later(); }

  draw() {
    const t = this.track, size = this.map.getSize(), ratio = printing() ? 3 : Math.max(1, window.devicePixelRatio || 1), c = this.canvas;
    if (size.x === 0) return;
    c.width = Math.round(size.x * ratio);
    c.height = Math.round(size.y * ratio);
    c.style.width = `${size.x}px`;
    c.style.height = `${size.y}px`;
    L.DomUtil.setPosition(c, this.map.containerPointToLayerPoint([0, 0]));
    const g = /** @type {CanvasRenderingContext2D} */ (c.getContext('2d'));
    g.scale(ratio, ratio);
    g.lineWidth = 2.2;
    g.lineJoin = g.lineCap = 'round';
    const min = /** @type {any} */ (this.map.getPixelBounds().min), S = 256 * 2 ** this.map.getZoom();
    const colours = heights(), steps = colours.length, scale = steps / Math.max(1, this.high - this.low), h = t[this.by];
    let drawn = 0, px = NaN, py = NaN, open = -1, top = 0;
    const W = size.x + 20, H = size.y + 20;
    for (let i = 0; i < t.mx.length; i++) {
      if (!t.valid[i]) { if (open >= 0) g.stroke(); open = -1; px = NaN; continue; }
      const x = t.mx[i] * S - min.x, y = t.my[i] * S - min.y;
      if (h[i] > h[top]) top = i;
      if (Math.abs(x - px) + Math.abs(y - py) < 1) continue; // within the pixel that was drawn last
      const out = (x < -20 && px < -20) || (y < -20 && py < -20) || (x > W && px > W) || (y > H && py > H);
      const bin = Math.max(0, Math.min(steps - 1, Math.floor((h[i] - this.low) * scale)));
      if (px !== px) { px = x; py = y; drawn++; continue; }
      if (!out) {
        if (open !== bin) {
          if (open >= 0) g.stroke();
          g.beginPath();
          g.strokeStyle = colours[bin];
          g.moveTo(px, py);
          open = bin;
        }
        g.lineTo(x, y);
        drawn++;
      } else if (open >= 0) { g.stroke(); open = -1; }
      px = x; py = y;
    }
    if (open >= 0) g.stroke();
    const ends = [t.valid.indexOf(1), t.valid.lastIndexOf(1)];
    if (ends[0] >= 0) {
      this.sign(g, ends[0], S, min, words('firstFixMap'), 'square');
      this.sign(g, ends[1], S, min, words('lastFixMap'), 'diamond');
    }
    this.marks.forEach((i, k) => {
      if (i !== null && t.valid[i]) this.sign(g, i, S, min, k === 0 ? '▼' : '▲', 'dot', colour(k === 0 ? '--low' : '--high'));
    });
    if (this.cursor >= 0 && t.valid[this.cursor] && !printing()) this.sign(g, this.cursor, S, min, '', 'dot');
    this.box.dataset.points = String(drawn);
  }

  /** @param {CanvasRenderingContext2D} g @param {number} i @param {number} S @param {{x:number, y:number}} min @param {string} label
   * @param {'square'|'diamond'|'dot'} form @param {string} [paint] */
  sign(g, i, S, min, label, form, paint) {
    const x = this.track.mx[i] * S - min.x, y = this.track.my[i] * S - min.y;
    g.save();
    g.translate(x, y);
    g.lineWidth = 3;
    g.strokeStyle = colour('--paper');
    g.fillStyle = colour('--ink');
    g.beginPath();
    if (form === 'dot') g.arc(0, 0, 6, 0, 7);
    else { if (form === 'diamond') g.rotate(Math.PI / 4); g.rect(-5, -5, 10, 10); }
    g.stroke();
    if (form === 'dot') g.fillStyle = paint ?? colour('--cursor');
    g.fill();
    g.restore();
    if (!label) return;
    g.font = '600 12px system-ui, sans-serif';
    g.lineWidth = 4;
    g.strokeStyle = colour('--paper');
    g.fillStyle = colour('--ink');
    g.textAlign = 'right';
    const dx = paint ? 20 : -9, dy = paint ? 5 : form === 'square' ? 16 : -8; // of a mark to the right, of the ends to the left
    g.strokeText(label, x + dx, y + dy);
    g.fillText(label, x + dx, y + dy);
  }

  legend() {
    const bar = el('span', { class: 'ramp', 'aria-hidden': 'true' });
    bar.style.background = `linear-gradient(to right, ${heights().join(',')})`;
    return el('p', { class: 'legend' }, `${words(this.by === 'gnss' ? 'legendGnss' : 'legendPressure')} `, metres(this.low), bar, metres(this.high));
  }

  destroy() { this.size.disconnect(); if (this.frame) cancelAnimationFrame(this.frame); this.map.remove(); }
}
