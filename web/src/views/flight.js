// One flight: what the library says of a file, and pictures of it. All texts of the file go through textContent.
import { button, byId, download, el, painted, say, stem } from '../parts/dom.js';
import { sha256 } from '../parts/files.js';
import { bytesText, count } from '../parts/format.js';
import { TrackMap } from '../parts/map.js';
import { forPaper } from '../parts/paper.js';
import { t } from '../texts/texts.js';
import { Barogram, highestFix } from './barogram.js';
import { declarationCard, isNowhere, roleOf } from './declaration.js';
import { headersCard } from './headers.js';
import { notesCard } from './notes.js';
import { sheetFoot, sheetHead } from './sheet.js';
import { accepted, refused, ruleText, unreadable } from './verdict.js';

const SHEET = 1036; // pixels that an A4 has between its margins, with some to spare

/** @typedef {{pool: import('../parts/pool.js').Pool}} App */

export class FlightView {
  /** @param {App} app */
  constructor(app) {
    this.app = app;
    this.box = byId('flight');
    /** @type {Barogram|null} */ this.barogram = null;
    /** @type {TrackMap|null} */ this.map = null;
    this.turn = 0;
    this.printed = () => {};
  }

  clear() {
    this.barogram?.destroy();
    this.map?.destroy();
    this.barogram = this.map = null;
    this.box.replaceChildren();
  }

  /** @param {File} file */
  async open(file) {
    const turn = ++this.turn, start = performance.now();
    say(t('reading', { name: file.name }));
    this.box.setAttribute('aria-busy', 'true');
    /** @type {any} */ let f;
    try { f = await this.app.pool.ask({ op: 'flight', file }); } catch (e) { f = { error: e }; }
    if (turn !== this.turn) return; // another file was opened meanwhile
    this.clear();
    if (f.error) {
      this.box.append(unreadable(file.name, f.error));
      say(t('notReadableSaid', { name: file.name }));
    } else if (f.refusal) {
      this.box.append(refused(f.refusal, file.name));
      say(t('saidRefused', { name: file.name, rule: ruleText(f.refusal) }));
    } else {
      this.show(f, file);
      say(t('saidAccepted', { name: file.name, signed: t(f.ok.signed ? 'signedWord' : 'notSignedWord'), n: count(f.ok.fixes) }));
    }
    this.box.removeAttribute('aria-busy');
    byId('verdict-title')?.focus({ preventScroll: true });
    await painted();
    const took = (performance.now() - start).toFixed(0), timing = byId('timing');
    if (timing) timing.textContent = t('drawnIn', { ms: took });
    Object.assign(this.box.dataset, { ms: took, read: JSON.stringify(f.times), held: String(f.held ?? 0) });
  }

  /** @param {any} f @param {File} file */
  show(f, file) {
    const some = f.ok.fixes > 0, barogram = new Barogram(f, {
      column: code => this.app.pool.ask({ op: 'column', file, code }),
      pointed: i => { this.barogram?.point(i); this.map?.point(i); },
      marked: marks => this.map?.setMarks(marks),
    });
    const place = el('div', { class: 'map', id: 'map', 'aria-label': t('mapLabel'), role: 'application' });
    const map = el('section', { class: 'card', 'aria-labelledby': 'map-title', id: 'map-card' },
      el('div', { class: 'card-head' }, el('h2', { id: 'map-title' }, t('track')), el('span', { class: 'spacer' }),
        button(t('fit'), () => this.map?.fit(), 'tool noprint', 'fit', t('fitHint'))),
      el('div', { class: 'map-frame' }, place,
        el('div', { class: 'north', 'aria-label': t('north'), role: 'img' }, el('span', { 'aria-hidden': 'true' }, '▲'), el('span', { 'aria-hidden': 'true' }, 'N'))));
    const acts = { sheet: () => print(), csv: () => this.save(file, 'csv'), gpx: () => this.save(file, 'gpx') };
    this.box.append(sheetHead(f, file), accepted(f, file.name, acts), barogram.box,
      el('div', { class: 'col' }, map, notesCard(f)), el('div', { class: 'col' }, declarationCard(f), headersCard(f)),
      sheetFoot(f), this.smallPrint(f, file));
    this.digest(file);
    if (!some) { barogram.box.hidden = map.hidden = true; return; }

    this.barogram = barogram;
    barogram.draw();
    /** @type {import('../library/file.js').Point[]} */ const points = f.declaration?.points ?? [];
    const shown = points.map((p, k) => ({ label: p.text || roleOf(k, points.length), degrees: p.degrees, drawn: !isNowhere(p) })).filter(p => p.drawn);
    this.map = new TrackMap(place, f, shown);
    map.append(this.map.legend(), el('p', { class: 'small noprint' }, `${t('onlyA')} ${shown.length ? t('rings') : ''}`));
    barogram.page.pointed(highestFix(f));
  }

  /** @param {any} f @param {File} file */
  smallPrint(f, file) {
    return el('div', { class: 'small wide noprint', id: 'small-print' },
      el('p', null, `${t('fileFacts', { bytes: bytesText(file.size), lines: count(f.ok.lines), k: count(f.ok.kLines), n: count(f.ok.nLines) })} `,
        el('span', { id: 'timing' })),
      el('p', null, `${t('sha')}: `, el('span', { class: 'carried sum', id: 'sha' })));
  }

  /** The file's digest, when the browser has made it.
   *  @param {File} file */
  async digest(file) {
    const turn = this.turn, sum = await sha256(file).catch(() => null);
    if (turn === this.turn) for (const e of this.box.querySelectorAll('.sum')) e.textContent = sum ?? t('shaNone');
  }

  /** @param {File} file @param {'csv'|'gpx'} form */
  async save(file, form) {
    const words = form.toUpperCase();
    say(t('writing', { form: words }));
    try {
      download(await this.app.pool.ask({ op: form, file }), `${stem(file.name)}.${form}`);
      say(t('written', { form: words }));
    } catch (e) { say(String(e)); }
  }

  redraw() {
    this.barogram?.redraw();
    if (this.map) { this.map.resize(); byId('map-card').querySelector('.legend')?.replaceWith(this.map.legend()); }
  }

  /** For the claim sheet the pictures show the whole flight, and all of it is made as small as one A4 asks for. */
  print() {
    const charts = this.barogram?.charts, range = charts?.range;
    if (charts) charts.range = [...charts.whole];
    const putAway = this.barogram?.forSheet();
    this.redraw();
    this.map?.fit();
    this.map?.draw();
    const restore = forPaper(this.box.querySelectorAll('canvas'));
    const style = this.box.style;
    style.setProperty('zoom', String(Math.min(1, SHEET / this.box.scrollHeight)));
    this.printed = () => {
      restore();
      putAway?.();
      style.removeProperty('zoom');
      if (charts && range) charts.range = range;
      this.printed = () => {};
    };
  }
}
