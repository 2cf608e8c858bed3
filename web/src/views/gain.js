// The gain of height between two marks on the barogram, a low point and then a high point: what a badge asks for. Both are fixes of the file.
import { duration } from '../parts/clock.js';
import { button, byId, el, fact, say } from '../parts/dom.js';
import { distanceText, metres, moment } from '../parts/format.js';
import { gainBetween, greatestGain } from '../parts/gain.js';
import { lowerBound } from '../parts/thin.js';
import { t } from '../texts/texts.js';

export class GainBox {
  /** @param {any} f an accepted flight @param {{cursor:()=>number, range:()=>[number, number], changed:(marks:(number|null)[])=>void}} page */
  constructor(f, page) {
    this.track = /** @type {import('../reading/track.js').Track} */ (f.track);
    /** @type {ArrayLike<number>|undefined} */ this.noise = f.strips.find((/** @type {any} */ s) => s.code === 'ENL')?.values;
    this.heights = f.summary.highest === 0 && f.summary.lowest === 0 ? this.track.gnss : this.track.pressure; // a recorder without a sensor writes 0 throughout
    this.page = page;
    /** @type {(number|null)[]} */ this.marks = [null, null];
    this.answer = el('div', { id: 'gain-answer' });
    this.box = el('section', { class: 'gain', 'aria-labelledby': 'gain-title', id: 'gain' },
      el('div', { class: 'card-head' }, el('h3', { id: 'gain-title' }, t('gain')),
        el('div', { class: 'tools noprint' }, button(t('setLow'), () => this.set(0, page.cursor()), '', 'set-low'),
          button(t('setHigh'), () => this.set(1, page.cursor()), '', 'set-high'),
          button(t('findGain'), () => this.find(), '', 'find-gain'), button(t('clearMarks'), () => this.mark([null, null]), '', 'clear-marks'))),
      el('p', { class: 'small noprint' }, t('gainHint')), this.answer);
    this.show();
  }

  /** @param {number} k @param {number} i */
  set(k, i) {
    const marks = [...this.marks];
    marks[k] = i;
    this.mark(marks);
  }

  /** The greatest gain in the part of the flight that is shown. */
  find() {
    const [from, to] = this.page.range(), time = this.track.time;
    const marks = greatestGain(this.heights, lowerBound(time, from), lowerBound(time, to + 1e-6));
    if (marks) this.mark(marks); else say(t('gainNone'));
  }

  /** @param {(number|null)[]} marks */
  mark(marks) {
    this.marks = marks;
    this.show();
    this.page.changed(marks);
  }

  /** @param {number|null} i */
  placed(i) {
    const k = this.track;
    return i === null ? '–' : `${moment(k.day[i], k.count[i], k.decimals[i])} · ${metres(k.pressure[i])} · GNSS ${metres(k.gnss[i])}`;
  }

  show() {
    const [low, high] = this.marks;
    this.box.classList.toggle('noprint', low === null || high === null);
    if (low === null && high === null) { this.answer.replaceChildren(); return; }
    const set = [fact(t('lowPoint'), this.placed(low), 'g-low'), fact(t('highPoint'), this.placed(high), 'g-high')];
    const points = el('dl', { class: 'facts slim points' }, ...set);
    if (low === null || high === null) { this.answer.replaceChildren(points); return; }
    const g = gainBetween(this.track, low, high, this.noise), none = t('notMarkedA');
    this.answer.replaceChildren(points, el('dl', { class: 'facts slim' },
      fact(t('gainPressure'), metres(g.pressure), 'g-pressure'), fact(t('gainGnss'), g.gnss === null ? none : metres(g.gnss), 'g-gnss'),
      fact(t('between'), `${g.seconds < 0 ? '\u2212' : ''}${duration(Math.abs(g.seconds))}`, 'g-time'),
        fact(t('apart'), g.metres === null ? none : distanceText(g.metres), 'g-distance'),
      g.noise === null ? null : fact(t('loudest'), String(g.noise), 'g-noise')),
    el('p', { class: 'small', id: 'g-words' }, g.inOrder ? `${t('gainTow')} ${t('sphere')}` : t('gainOrder')));
    say(g.inOrder ? t('saidGain', { gain: metres(g.pressure) }) : t('gainOrder'));
  }

  focus() { byId('set-low').focus(); }
}
