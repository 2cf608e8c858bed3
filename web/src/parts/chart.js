// The barogram and the strips below it: one time axis, thinned to the pixels at hand, drawn by Dygraphs; the cursor, and the marks of a low and a high point.
import Dygraph from 'dygraphs';
import { colour, el, printing } from './dom.js';
import { pad } from './clock.js';
import { nearest, thin } from './thin.js';

/** @typedef {{box:HTMLElement, line:HTMLElement, g:any, marks:HTMLElement[], series:ArrayLike<number>[], rows:(at:number[])=>any[], options:()=>any}} Chart */

// The legend plugin writes style attributes, which the page's policy refuses; the page has a legend of its own.
Dygraph.PLUGINS = Dygraph.PLUGINS.filter((/** @type {any} */ p) => p !== Dygraph.Plugins.Legend);
const { mousedown, dblclick } = Dygraph.defaultInteractionModel;
// By mouse a drag zooms. A finger that moves up or down scrolls the page; one that taps, or moves along, brings the cursor (touch, below).
const interactionModel = { mousedown, dblclick, willDestroyContextMyself: true };

export class Charts {
  /** @param {Float64Array} time seconds, rising @param {(i:number)=>void} pointed */
  constructor(time, pointed) {
    this.time = time;
    this.pointed = pointed;
    /** @type {Chart[]} */ this.charts = [];
    const first = time[0] ?? 0, last = time[time.length - 1] ?? 0;
    this.whole = /** @type {[number, number]} */ (last > first ? [first, last] : [first - 30, last + 30]);
    /** @type {[number, number]} */ this.range = [...this.whole];
    this.cursor = 0;
    /** @type {(number|null)[]} */ this.marks = [null, null]; // low point, high point
  }

  /** @param {HTMLElement} box @param {string[]} labels @param {ArrayLike<number>[]} series @param {()=>any} look options that go by the theme */
  add(box, labels, series, look) {
    const time = this.time;
    const rows = (/** @type {number[]} */ at) => at.map(i => [time[i] * 1000, ...series.map(s => (s[i] === s[i] ? s[i] : null))]);
    const line = el('div', { class: 'cursor', 'aria-hidden': 'true' });
    const options = () => ({
      labels: ['time', ...labels], legend: 'never', showLabelsOnHighlight: false, highlightCircleSize: 0, strokeWidth: 1.4, labelsUTC: true, xRangePad: 0,
      gridLineColor: colour('--grid'), gridLineWidth: printing() ? 0.5 : 1, axisLineColor: colour('--line'), interactionModel,
        dateWindow: this.range.map(t => t * 1000),
      ...look(),
      axes: {
        x: { ticker: Dygraph.dateTicker, axisLabelFormatter: (/** @type {number|Date} */ v) => axisTime(Number(v) / 1000,
          this.range[1] - this.range[0]), axisLabelWidth: 64, pixelsPerLabel: 80, ...look().x },
        y: { axisLabelWidth: 52, pixelsPerLabel: 34, ...look().y },
      },
      drawCallback: () => { if (chart.g) this.mark(chart); },
      zoomCallback: (/** @type {number} */ a, /** @type {number} */ b) => this.show(a / 1000, b / 1000),
      highlightCallback: (/** @type {any} */ _e, /** @type {number} */ x) => this.pointed(nearest(time, x / 1000)),
    });
    const marks = ['low', 'high'].map(kind => el('div', { class: `mark-line ${kind}`, 'aria-hidden': 'true' }, kind === 'low' ? '▼' : '▲'));
    /** @type {Chart} */ const chart = { box, line, marks, g: null, series, rows, options };
    this.charts.push(chart);
    const at = this.places(chart);
    chart.g = new Dygraph(box, rows(at), options());
    box.append(line, ...marks);
    this.touch(chart);
    box.dataset.points = String(at.length);
    this.mark(chart);
  }

  /** @param {Chart} c */
  places(c) { return thin(this.time, c.series, this.range[0], this.range[1], Math.max(100, c.box.clientWidth - 60)); }

  /** @param {number} from @param {number} to */
  show(from, to) {
    const least = 10, [a, b] = this.whole;
    const width = Math.min(b - a, Math.max(least, to - from));
    const start = Math.max(a, Math.min(b - width, from + (to - from - width) / 2));
    this.range = [start, start + width];
    this.redraw();
  }

  /** @param {number} factor */
  zoom(factor) {
    const [a, b] = this.range, c = this.time[this.cursor], middle = c >= a && c <= b ? c : (a + b) / 2;
    this.show(middle - (middle - a) * factor, middle + (b - middle) * factor);
  }

  /** @param {number} part of what is seen */
  pan(part) { const [a, b] = this.range, d = (b - a) * part; this.show(a + d, b + d); }

  /** Everything anew: another range, another width, another theme. */
  redraw() {
    const pixelRatio = printing() ? 3 : null;
    for (const c of this.charts) {
      c.g.updateOptions({ pixelRatio }, true);
      c.g.resize();
      const at = this.places(c);
      c.g.updateOptions({ ...c.options(), file: c.rows(at), valueRange: c.options().valueRange ?? null });
      c.box.dataset.points = String(at.length);
      this.mark(c);
    }
  }

  /** @param {number} i */
  point(i) { this.cursor = i; for (const c of this.charts) this.mark(c); }

  /** The low and the high point set, or taken away by null.
   *  @param {(number|null)[]} marks */
  setMarks(marks) { this.marks = marks; for (const c of this.charts) this.mark(c); }

  /** @param {Chart} c */
  mark(c) {
    this.stand(c, c.line, this.cursor);
    c.marks.forEach((e, k) => this.stand(c, e, this.marks[k]));
  }

  /** An upright line put at a fix.
   *  @param {Chart} c @param {HTMLElement} e @param {number|null} i */
  stand(c, e, i) {
    if (i === null) { e.hidden = true; return; }
    const x = c.g.toDomXCoord(this.time[i] * 1000), area = c.g.getArea();
    e.style.left = `${x}px`;
    e.style.top = `${area.y}px`;
    e.style.height = `${area.h}px`;
    e.hidden = !(x >= area.x - 1 && x <= area.x + area.w + 1);
  }

  /** A finger on the chart: the browser keeps the ways up and down for scrolling (touch-action in the style), so that what comes here is a tap or a
   *  way along the time.
   *  @param {Chart} c */
  touch(c) {
    const to = (/** @type {PointerEvent} */ e) => {
      if (e.pointerType === 'mouse') return;
      this.pointed(nearest(this.time, c.g.toDataXCoord(e.clientX - c.box.getBoundingClientRect().left) / 1000));
    };
    c.box.addEventListener('pointermove', to);
    c.box.addEventListener('pointerup', to);
  }

  destroy() { for (const c of this.charts) c.g.destroy(); this.charts = []; }
}

/** @param {number} t @param {number} span */
function axisTime(t, span) {
  const day = Math.floor(t / 86400), s = Math.round(t - day * 86400);
  const text = `${pad(Math.floor(s / 3600))}:${pad(Math.floor(s / 60) % 60)}${span < 600 ? `:${pad(s % 60)}` : ''}`;
  return day > 0 ? `${text} +${day}` : text;
}
