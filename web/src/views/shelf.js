// A shelf: one file that keeps up to 64 flights, each under a number. It is held here as bytes; every change is a call of the library, and nothing is
// written until it is saved.
import { dateText } from '../parts/clock.js';
import { button, byId, download, el, say, stem } from '../parts/dom.js';
import { bytesText, count } from '../parts/format.js';
import { t } from '../texts/texts.js';
import { fate } from './rows.js';
import { refused, ruleText } from './verdict.js';

const SIZES = [1 << 20, 4 << 20, 16 << 20];
const MIDDLE = 1;

export class ShelfView {
  /** @param {import('./flight.js').App} app @param {(f:File)=>void} openOne */
  constructor(app, openOne) {
    this.app = app;
    this.openOne = openOne;
    this.box = byId('shelf');
    /** @type {Blob|null} */ this.shelf = null;
    this.name = 'flights.shelf';
    /** @type {any[]} */ this.flights = [];
    this.unsaved = false;
    this.busy = Promise.resolve(); // one change after the other
    const size = byId('shelf-size');
    SIZES.forEach((s, k) => size.append(el('option', { value: s, selected: k === MIDDLE }, bytesText(s))));
    const empty = () => new File([new Uint8Array(Number(/** @type {HTMLSelectElement} */ (size).value))], 'flights.shelf');
    byId('new-shelf').addEventListener('click', () => this.open(empty()));
    const pick = /** @type {HTMLInputElement} */ (byId('pick-shelf'));
    pick.addEventListener('change', () => { const f = pick.files?.[0]; if (f) this.open(f); pick.value = ''; });
    addEventListener('beforeunload', e => { if (this.unsaved) e.preventDefault(); });
    this.show();
  }

  /** Files that were dropped: flights are added, anything else is taken for a shelf.
   *  @param {File[]} files */
  async take(files) {
    for (const f of files) await (/\.igc$/i.test(f.name) && this.shelf ? this.add(f) : this.open(f));
  }

  /** A shelf opened in place of the one that is open; one that is refused changes nothing.
   *  @param {File} file */
  async open(file) {
    if (this.unsaved && !confirm(t('dropChanges'))) return;
    const r = await this.ask(file, { deed: 'list' });
    if (!r) return;
    if (r.refusal) {
      this.show(refused(r.refusal, file.name, 'verdict-title-s'));
      say(t('saidRefused', { name: file.name, rule: ruleText(r.refusal) }));
      return;
    }
    this.name = file.name;
    this.keep(r, false);
    say(t('shelfRead', { n: this.flights.length }));
  }

  /** @param {any} r @param {boolean} unsaved */
  keep(r, unsaved) {
    this.shelf = new Blob([r.bytes]);
    this.flights = r.flights;
    this.unsaved = unsaved;
    this.show();
  }

  /** @param {Blob} shelf @param {any} deed @param {File} [file] @returns {Promise<any>} */
  async ask(shelf, deed, file) {
    try { return await this.app.pool.ask({ op: 'shelf', shelf, deed, file }); } catch (e) { say(String(e)); return null; }
  }

  /** A change, and what is said of it where it was done.
   *  @param {any} deed @param {string} words @param {File} [file] */
  change(deed, words, file) {
    this.busy = this.busy.then(async () => {
      if (!this.shelf) return;
      const r = await this.ask(this.shelf, deed, file);
      if (!r) return;
      if (r.refusal) {
        this.show(refused(r.refusal, file?.name ?? this.name, 'verdict-title-s'));
        say(t('notDone', { rule: ruleText(r.refusal) }));
      } else {
        this.keep(r, true);
        say(words);
      }
    });
    return this.busy;
  }

  /** @param {File} file */
  add(file) {
    const number = Number(/** @type {HTMLInputElement} */ (byId('shelf-number')).value) >>> 0;
    return this.change({ deed: 'add', number }, t('added', { name: file.name, n: number }), file);
  }

  /** The least number that no flight has. */
  free() {
    const held = new Set(this.flights.map(f => f.number));
    let n = 1;
    while (held.has(n)) n++;
    return n;
  }

  /** @param {number} number @param {(f:File)=>void} use */
  async body(number, use) {
    if (!this.shelf) return;
    try {
      const r = await this.app.pool.ask({ op: 'body', shelf: this.shelf, number });
      if (r.bytes) use(new File([r.bytes], `${stem(this.name)}-${number}.igc`));
    } catch (e) { say(String(e)); }
  }

  /** @param {HTMLElement} [refusal] */
  show(refusal) {
    if (!this.shelf) { this.box.replaceChildren(refusal ?? el('p', { class: 'wide' }, t('shelfNone'))); return; }
    const used = this.flights.reduce((sum, f) => sum + f.length, 0);
    const pick = el('input', { type: 'file', id: 'add-flight', multiple: true, accept: '.igc,.IGC', 'aria-label': t('addFlight') });
    pick.addEventListener('change', async () => { for (const f of [...(pick.files ?? [])]) await this.add(f); });
    const tools = el('div', { class: 'tools' },
      el('label', { class: 'small numbered' }, t('addNumber'),
        el('input', { type: 'number', id: 'shelf-number', min: '1', max: '4294967295', value: this.free() })),
      el('label', { class: 'file plain' }, pick, el('span', { 'aria-hidden': 'true' }, t('addFlight'))),
      button(t('pack'), () => this.change({ deed: 'pack' }, t('packed')), '', 'pack-shelf'), button(t('saveShelf'), () => this.save(), 'main', 'save-shelf'));
    this.box.replaceChildren(...(refusal ? [refusal] : []), el('section', { class: 'card wide', 'aria-labelledby': 'shelf-title' },
      el('div', { class: 'card-head' }, el('h2', { id: 'shelf-title', tabindex: '-1', class: 'filename' }, this.name),
        el('p', { class: 'small', id: 'shelf-facts' },
          t('shelfFacts', { n: this.flights.length, used: bytesText(used), size: bytesText(this.shelf.size) }),
          this.unsaved ? ` ${t('unsaved')}` : ''), el('span', { class: 'spacer' }), tools),
      this.flights.length ? this.table() : el('p', null, t('shelfEmpty'))));
  }

  table() {
    const words = [t('shelfNumber'), t('colDate'), t('colFixes'), t('colSigned'), t('colCheck'), t('shelfStart'), t('shelfBytes'), t('acts')];
    const heads = words.map((h, k) => el('th', { scope: 'col', class: [2, 5, 6].includes(k) ? 'num' : '' }, h));
    return el('div', { class: 'scroll', tabindex: '0', role: 'region', 'aria-label': t('shelfTable') },
      el('table', { id: 'shelf-table', 'aria-label': t('shelfTable') },
        el('thead', null, el('tr', null, ...heads)), el('tbody', null, ...this.flights.map(f => this.row(f)))));
  }

  /** @param {any} f */
  row(f) {
    const ok = f.ok, n = f.number, cell = (/** @type {string} */ cls, /** @type {string} */ text) => el('td', { class: cls }, text);
    const act = (/** @type {'open'|'takeOut'|'remove'} */ key, /** @type {()=>void} */ deed) =>
      button(t(key), deed, 'tool', undefined, t('flightNumber', { what: t(key), n }));
    return el('tr', { class: ok ? '' : 'bad' }, el('th', { scope: 'row' }, String(n)),
      cell('keep', ok ? dateText(ok) : '–'), cell('num', ok ? count(ok.fixes) : '–'), cell('keep', ok ? t(ok.signed ? 'signedWord' : 'notSignedWord') : '–'),
      cell('fate', fate({ ...f, file: null, turn: 0 })), cell('num', String(f.start)), cell('num', count(f.length)),
      el('td', { class: 'acts' },
        act('open', () => this.body(n, file => this.openOne(file))),
        act('takeOut', () => this.body(n, file => download(file, file.name))),
        act('remove', () => this.change({ deed: 'remove', number: n }, t('removed', { n })))));
  }

  save() {
    if (!this.shelf) return;
    download(this.shelf, this.name);
    this.unsaved = false;
    this.show();
  }
}
