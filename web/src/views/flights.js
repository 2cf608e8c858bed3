// Many flights: one row a file, sorted and searched, as CSV. Of each file only its row is kept, so that thousands take little memory; the reading may
// be stopped.
import { button, byId, download, el, say, stem } from '../parts/dom.js';
import { CalledOff } from '../parts/pool.js';
import { t } from '../texts/texts.js';
import { fate, FIELDS, findRows, sortRows, tableCsv } from './rows.js';

/** @typedef {import('./rows.js').Row} Row */
/** @typedef {import('./rows.js').Which} Which */

const AT_FIRST = 200; // rows drawn before more are asked for
const MOST = 20000; // files taken at once
const FORMS = /** @type {const} */ (['csv', 'gpx']);
/** @type {[Which, 'whichAll'|'whichGood'|'whichBad'|'whichUnsigned'][]} */
const WHICH = [['all', 'whichAll'], ['good', 'whichGood'], ['bad', 'whichBad'], ['unsigned', 'whichUnsigned']];

export class FlightsView {
  /** @param {import('./flight.js').App} app @param {(f:File)=>void} openOne */
  constructor(app, openOne) {
    this.app = app;
    this.openOne = openOne;
    /** @type {Row[]} */ this.rows = [];
    this.by = 'file';
    this.down = false;
    this.search = '';
    /** @type {Which} */ this.which = 'all';
    this.most = AT_FIRST;
    this.group = {}; // what the errands of one reading are called off by
    this.box = byId('flights');
    this.progress = byId('progress');
  }

  /** @param {File[]} given */
  async open(given) {
    this.app.pool.callOff(this.group);
    const group = this.group = {}, start = performance.now(), files = given.slice(0, MOST), n = files.length;
    Object.assign(this, { rows: [], search: '', which: 'all', most: AT_FIRST });
    this.box.replaceChildren();
    const bar = el('progress', { max: String(n), value: '0', 'aria-label': t('filesRead') }), words = el('span', null, t('ofFiles', { done: 0, n }));
    this.progress.replaceChildren(bar, words, button(t('stop'), () => this.app.pool.callOff(group), '', 'stop'));
    say(given.length > n ? t('tooMany', { n: given.length, most: n }) : t('readingFiles', { n }));
    let off = false;
    await Promise.all(files.map(async (file, turn) => {
      const row = await this.read(file, turn, group);
      if (row === null) off = true;
      if (row === null || group !== this.group) return;
      this.rows.push(row);
      bar.value = this.rows.length;
      words.textContent = t('ofFiles', { done: this.rows.length, n });
    }));
    if (group !== this.group) return;
    this.progress.replaceChildren();
    this.show();
    this.box.dataset.ms = (performance.now() - start).toFixed(0);
    const good = this.rows.filter(r => r.ok).length;
    say(off ? t('stopped', { done: this.rows.length, n }) : t('filesDone', { n, good, bad: n - good }));
    byId('flights-title')?.focus({ preventScroll: true });
  }

  /** The row of a file; null where the reading was stopped.
   *  @param {File} file @param {number} turn @param {object} group @returns {Promise<Row|null>} */
  async read(file, turn, group) {
    try {
      return { file, turn, ...await this.app.pool.ask({ op: 'row', file }, group) };
    } catch (e) { return e instanceof CalledOff ? null : { file, turn, error: String(e) }; }
  }

  chosen() { return sortRows(findRows(this.rows, this.search, this.which), this.by, this.down); }

  show() {
    const good = this.rows.filter(r => r.ok).length, n = this.rows.length;
    const search = el('input', { type: 'search', id: 'search', 'aria-label': t('filter'), placeholder: t('filterHint'), value: this.search });
    search.addEventListener('input', () => { this.search = search.value; this.most = AT_FIRST; this.fillRows(); });
    const which = el('select', { id: 'which', 'aria-label': t('which') },
      ...WHICH.map(([value, key]) => el('option', { value, selected: value === this.which }, t(key))));
    which.addEventListener('change', () => { this.which = /** @type {Which} */ (which.value); this.most = AT_FIRST; this.fillRows(); });
    this.body = el('tbody');
    this.more = el('div', { class: 'more', role: 'status' });
    this.box.replaceChildren(el('section', { class: 'card wide', 'aria-labelledby': 'flights-title' },
      el('div', { class: 'card-head' }, el('h2', { id: 'flights-title', tabindex: '-1' }, t('files', { n })),
        el('p', { class: 'small' }, t('filesHint', { good, bad: n - good })), el('span', { class: 'spacer' }),
        search, which, button(t('tableCsv'), () => download(new Blob([tableCsv(this.chosen())], { type: 'text/csv' }), 'flights.csv'), '', 'table-csv')),
      el('div', { class: 'scroll', tabindex: '0', role: 'region', 'aria-label': t('tableLabel') },
        el('table', { id: 'flights-table', 'aria-label': t('tableLabel') },
          el('thead', null, el('tr', null, ...this.heads(), el('th', { scope: 'col' }, t('colTrack')))), this.body)),
      this.more));
    this.fillRows();
  }

  heads() {
    return FIELDS.map(f => {
      const on = this.by === f.key;
      const sort = () => { this.down = on ? !this.down : false; this.by = f.key; this.show(); byId(`sort-${f.key}`).focus(); };
      const b = button(f.title, sort, 'sort', `sort-${f.key}`);
      b.append(el('span', { class: 'arrow', 'aria-hidden': 'true' }, on ? (this.down ? ' ▼' : ' ▲') : ''));
      return el('th', { scope: 'col', class: f.num ? 'num' : '', 'aria-sort': on ? (this.down ? 'descending' : 'ascending') : 'none' }, b);
    });
  }

  fillRows() {
    const rows = this.chosen(), some = rows.slice(0, this.most);
    this.body?.replaceChildren(...some.map(r => this.row(r)));
    const words = rows.length === 0 ? t('noneFound') : some.length < this.rows.length ? t('shown', { n: some.length }) : '';
    this.more?.replaceChildren(el('span', { class: 'small' }, words),
      some.length < rows.length ? button(t('showAll', { n: rows.length }), () => { this.most = Infinity; this.fillRows(); }, '', 'show-all') : '');
  }

  /** @param {Row} r */
  row(r) {
    const name = el('th', { scope: 'row' }, button(r.file.name, () => this.openOne(r.file), 'link'));
    // A refused file has no facts: why stands in their place.
    if (!r.ok) return el('tr', { class: 'bad' }, name,
      el('td', { class: 'fate', colspan: FIELDS.length }, el('span', { class: 'mark', 'aria-hidden': 'true' }, '✕'), fate(r)));
    const acts = FORMS.map(form => {
      const words = form.toUpperCase();
      return button(words, () => this.save(r.file, form), 'tool', undefined, t('trackOf', { name: r.file.name, form: words }));
    });
    return el('tr', null, name,
      ...FIELDS.slice(1).map(f => el('td', { class: f.num ? 'num' : 'keep' },
        f.key === 'fate' ? el('span', { class: 'mark', 'aria-hidden': 'true' }, '✓ ') : null, f.text(r))),
      el('td', { class: 'acts' }, ...acts));
  }

  /** @param {File} file @param {'csv'|'gpx'} form */
  async save(file, form) {
    try {
      download(await this.app.pool.ask({ op: form, file }), `${stem(file.name)}.${form}`);
      say(t('writtenOf', { form: form.toUpperCase(), name: file.name }));
    } catch (e) { say(String(e)); }
  }
}
