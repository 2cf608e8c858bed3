// The card of the barogram: the heights, strips of columns below them, the cursor by slider, and the gain of height.
import { Charts } from '../parts/chart.js';
import { button, byId, colour, el, say } from '../parts/dom.js';
import { count, metres, moment } from '../parts/format.js';
import { codeName, t } from '../texts/texts.js';
import { GainBox } from './gain.js';
import { barogramWords } from './verdict.js';

const AT_ONCE = ['ENL', 'MOP']; // three digits each, 0 to 999

/** @param {{code:string, number:number}} c */
const columnName = c => (c.number >= 0 ? `${codeName(c.code)} (${c.code})` : c.code);

export class Barogram {
  /** @param {any} f an accepted flight @param {{column:(code:string)=>Promise<any>, pointed:(i:number)=>void, marked:(marks:(number|null)[])=>void}} page */
  constructor(f, page) {
    this.flight = f;
    this.page = page;
    this.chart = el('div', { class: 'chart tall', role: 'img', id: 'baro', 'aria-label': barogramWords(f.summary) });
    this.strips = el('div', { id: 'strips' });
    this.slider = el('input', { type: 'range', id: 'cursor', min: '0', max: String(Math.max(0, f.ok.fixes - 1)), value: '0',
      'aria-label': t('cursor'), class: 'noprint' });
    this.readout = el('output', { id: 'readout', for: 'cursor' });
    /** @type {Charts|null} */ this.charts = null;
    this.gain = new GainBox(f, { cursor: () => this.charts?.cursor ?? 0, range: () => this.charts?.range ?? [0, 0],
      changed: marks => { this.charts?.setMarks(marks); page.marked(marks); } });
    this.box = el('section', { class: 'card wide', 'aria-labelledby': 'baro-title', id: 'baro-card' },
      el('div', { class: 'card-head' }, el('h2', { id: 'baro-title' }, t('barogram')),
        el('p', { class: 'keys' }, el('span', { class: 'key pressure' }), t('pressureAltitude'), el('span', { class: 'key gnss' }),
          t('gnssAltitude'), el('span', { class: 'small' }, ` ${t('units')}`)),
        el('span', { class: 'spacer' }), this.tools()),
      this.chart, this.strips, this.noNoise(), this.slider, this.readout, this.columns(), this.gain.box);
  }

  tools() {
    /** @param {string} sign @param {string} label @param {(c:Charts)=>void} act @param {string} id */
    const tool = (sign, label, act, id) => button(sign, () => { if (this.charts) act(this.charts); }, 'tool', id, label);
    return el('div', { class: 'tools noprint', role: 'group', 'aria-label': t('part') },
      tool('−', t('showMore'), c => c.zoom(2), 'zoom-out'), tool('+', t('showLess'), c => c.zoom(0.5), 'zoom-in'),
      tool('◀', t('earlier'), c => c.pan(-0.5), 'pan-back'), tool('▶', t('later'), c => c.pan(0.5), 'pan-on'),
      tool(t('wholeFlight'), t('wholeFlight'), c => c.show(...c.whole), 'zoom-all'));
  }

  /** What the claim sheet says where there is no engine noise to show. */
  noNoise() { return this.flight.columns.some((/** @type {any} */ c) => c.code === 'ENL') ? '' : el('p', { class: 'onlyprint small' }, t('noEngineNoise')); }

  /** For the claim sheet the strips of engine noise are shown, also where they were put away, until the function that is returned is called. */
  forSheet() {
    const away = [...this.strips.children].filter(e => e.hasAttribute('hidden') && AT_ONCE.includes(/** @type {HTMLElement} */ (e).dataset.code ?? ''));
    for (const e of away) e.removeAttribute('hidden');
    return () => { for (const e of away) e.setAttribute('hidden', ''); };
  }

  /** The pictures, when the card stands on the page. */
  draw() {
    const k = this.flight.track, all = k.marked === this.flight.ok.fixes;
    // A fix marked V has no GNSS height to speak of: a gap, not a fall to 0.
    const gnss = all ? k.gnss : k.gnss.map((/** @type {number} */ v, /** @type {number} */ i) => (k.valid[i] ? v : NaN));
    this.charts = new Charts(k.time, i => this.page.pointed(i));
    this.charts.add(this.chart, ['pressure', 'GNSS'], [k.pressure, gnss],
      () => ({ colors: [colour('--pressure'), colour('--gnss')], yRangePad: 12, series: { GNSS: { strokePattern: [7, 4] }, pressure: { strokeWidth: 1.8 } } }));
    for (const c of this.flight.strips) this.strip(c);
    this.slider.addEventListener('input', () => this.page.pointed(Number(this.slider.value)));
  }

  /** The cursor put at a fix.
   *  @param {number} i */
  point(i) {
    const k = this.flight.track;
    const text = t('cursorText', { time: moment(k.day[i], k.count[i], k.decimals[i]), pressure: metres(k.pressure[i]), gnss: metres(k.gnss[i]),
      lat: k.lat[i].toFixed(5), lon: k.lon[i].toFixed(5), valid: k.valid[i] ? 'A' : 'V', line: k.line[i] });
    this.slider.value = String(i);
    this.slider.setAttribute('aria-valuetext', text);
    this.readout.textContent = text;
    this.charts?.point(i);
  }

  /** @param {import('../reading/flight.js').Strip} c a column with its values */
  strip(c) {
    const name = columnName(c), card = el('div', { class: 'strip', 'data-code': c.code }, el('h3', null, name));
    this.strips.append(card);
    if (c.words > 0) card.append(el('p', { class: 'small' }, t('noNumber', { n: count(c.words), all: count(c.values.length) }), el('code', null, c.sample)));
    if (c.values.length === c.words) return;
    const box = el('div', { class: 'chart short', role: 'img', 'aria-label': t('overTime', { name }) }), fixed = AT_ONCE.includes(c.code);
    card.append(box);
    const heights = fixed ? { valueRange: [0, 1005] } : { yRangePad: 6 };
    this.charts?.add(box, [c.code], [c.values],
      () => ({ colors: [colour('--noise')], fillGraph: fixed, fillAlpha: 0.25, ...heights, x: { drawAxis: false }, y: { pixelsPerLabel: 24 } }));
  }

  columns() {
    const all = this.flight.columns, box = el('div', { class: 'columns noprint', role: 'group', 'aria-label': t('columns') },
      el('span', { class: 'small' }, t(all.length ? 'columnsHere' : 'columnsNone')));
    for (const c of all) {
      const b = button(c.code, () => this.toggle(c, b), 'toggle');
      b.setAttribute('aria-pressed', String(AT_ONCE.includes(c.code)));
      b.setAttribute('aria-label', columnName(c));
      box.append(b);
    }
    return box;
  }

  /** @param {{code:string, number:number}} c @param {HTMLButtonElement} b */
  async toggle(c, b) {
    const there = [...this.strips.children].find(e => /** @type {HTMLElement} */ (e).dataset.code === c.code);
    if (there) {
      there.toggleAttribute('hidden');
      b.setAttribute('aria-pressed', String(!there.hasAttribute('hidden')));
      this.charts?.redraw();
      return;
    }
    b.disabled = true;
    try {
      this.strip(await this.page.column(c.code));
      b.setAttribute('aria-pressed', 'true');
    } catch (e) { say(String(e)); }
    b.disabled = false;
    b.focus();
  }

  redraw() { this.charts?.redraw(); }
  destroy() { this.charts?.destroy(); this.charts = null; }
}

/** The fix where the cursor starts: the highest by pressure.
 *  @param {any} f */
export const highestFix = f => Math.max(0, f.track.pressure.indexOf(f.summary.highest));
