// Two copies of one file: the notes of each side by side, then merged by the library, and the result saved. A merge may be called off.
import { dateText } from '../parts/clock.js';
import { button, byId, download, el, say, stem } from '../parts/dom.js';
import { bytesText, count } from '../parts/format.js';
import { CalledOff } from '../parts/pool.js';
import { t } from '../texts/texts.js';
import { noteList } from './notes.js';
import { firstWords, good, refused, ruleText } from './verdict.js';

export class MergeView {
  /** @param {import('./flight.js').App} app */
  constructor(app) {
    this.app = app;
    /** @type {(File|null)[]} */ this.files = [null, null];
    this.box = byId('merged');
    this.turns = [0, 0];
    this.group = {};
    [0, 1].forEach(k => byId(`copy${k + 1}`).addEventListener('change', e => {
      const input = /** @type {HTMLInputElement} */ (e.target), f = input.files?.[0];
      if (f) this.take(k, f);
      input.value = '';
    }));
  }

  /** Dropped files: two fill both places, one the first that is free.
   *  @param {File[]} files */
  open(files) {
    if (files.length === 1) { this.take(this.files[0] && !this.files[1] ? 1 : 0, files[0]); return; }
    this.take(0, files[0]);
    this.take(1, files[1]);
  }

  /** A copy taken, and its notes shown.
   *  @param {number} k @param {File} file */
  async take(k, file) {
    const turn = ++this.turns[k], side = byId(`copy${k + 1}-notes`);
    this.app.pool.callOff(this.group);
    this.files[k] = file;
    byId(`copy${k + 1}-name`).textContent = `${file.name}, ${bytesText(file.size)}`;
    side.replaceChildren();
    this.box.replaceChildren();
    /** @type {any} */ let c;
    try { c = await this.app.pool.ask({ op: 'copy', file }); } catch (e) { c = { error: String(e) }; }
    if (turn !== this.turns[k]) return;
    side.append(c.error ? el('p', { class: 'bad-words' }, c.error) : c.refusal ? el('p', { class: 'bad-words' }, firstWords(c.refusal))
      : el('div', null, el('p', { class: 'small' }, t('copyOf', { date: dateText(c.ok), n: count(c.ok.fixes) })),
        el('h3', null, t('copyNotes', { n: count(c.notes.count) })), noteList(c.notes)));
    this.offer();
  }

  /** The button, once both copies are there. */
  offer() {
    if (!this.files[0] || !this.files[1]) return;
    this.box.replaceChildren(el('div', { class: 'wide offer' }, button(t('mergeNow'), () => this.merge(), 'main', 'merge-now')));
  }

  async merge() {
    const [a, b] = this.files, group = this.group = {};
    if (!a || !b) return;
    say(t('merging'));
    const stop = button(t('callOff'), () => this.app.pool.callOff(group), '', 'call-off');
    this.box.replaceChildren(el('div', { class: 'wide offer' }, el('progress', { 'aria-label': t('merging') }), el('span', null, t('merging')), stop));
    stop.focus();
    /** @type {any} */ let r;
    try { r = await this.app.pool.ask({ op: 'merge', a, b }, group); } catch (e) { this.failed(e, group); return; }
    if (group !== this.group) return;
    this.box.replaceChildren(r.refusal ? this.notMerged(r, a, b) : this.merged(r, a));
    this.box.querySelector('h2')?.focus({ preventScroll: true });
  }

  /** @param {unknown} e @param {object} group */
  failed(e, group) {
    if (group !== this.group) return;
    this.offer();
    say(e instanceof CalledOff ? t('calledOff') : String(e));
    byId('merge-now')?.focus();
  }

  /** @param {any} r @param {File} a @param {File} b */
  notMerged(r, a, b) {
    say(t('notMerged', { rule: ruleText(r.refusal) }));
    return refused(r.refusal, r.whose === 1 ? `${t('copy1')}, ${a.name}` : r.whose === 2 ? `${t('copy2')}, ${b.name}` : `${a.name} / ${b.name}`,
      'verdict-title-m');
  }

  /** @param {any} r @param {File} a */
  merged(r, a) {
    say(t('mergedSaid', { n: r.notes.count }));
    const save = button(t('saveMerged'), () => download(new Blob([r.bytes], { type: 'application/octet-stream' }), `${stem(a.name)}-merged.igc`),
      'main', 'save-merged');
    return good('verdict-title-m', t('merged'), [el('span', { class: 'spacer' }), save],
      el('p', null, t('mergedFacts', { date: dateText(r.ok), n: count(r.ok.fixes), bytes: bytesText(r.bytes.length) })),
      el('h3', null, t('mergedNotes', { n: count(r.notes.count) })), noteList(r.notes));
  }
}
