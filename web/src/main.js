// The page: its workers, its tabs, files that are dropped or chosen, the theme, and paper.
import './parts/trust.js';
import { byId, say } from './parts/dom.js';
import { droppedFiles, isFlight } from './parts/files.js';
import { Pool } from './parts/pool.js';
import { fill, language, t } from './texts/texts.js';
import { prepareAbout } from './views/about.js';
import { FlightView } from './views/flight.js';
import { FlightsView } from './views/flights.js';
import { MergeView } from './views/merge.js';
import { ShelfView } from './views/shelf.js';

const root = document.documentElement;
const read = (/** @type {string} */ id) => { const e = byId(id), text = e.textContent ?? ''; e.remove(); return text; };
root.lang = language;
document.title = t('title');
fill(document);
byId('theme').title = t('themeHint');
document.body.dataset.drop = t('drop');
prepareAbout(JSON.parse(read('sums-data')), read('licence-data'));

const wasm = Uint8Array.from(atob(read('wasm').trim()), c => c.charCodeAt(0));
const app = { pool: new Pool(/** @type {string} */ (JSON.parse(read('worker'))), wasm, Math.max(2, Math.min(4, navigator.hardwareConcurrency || 2))) };
const openOne = (/** @type {File} */ f) => { choose('one'); flight.open(f); };
const flight = new FlightView(app), flights = new FlightsView(app, openOne), merge = new MergeView(app), shelf = new ShelfView(app, openOne);

// ---- tabs

const TABS = ['one', 'many', 'merge', 'shelf'];
let tab = '';
/** @param {string} name @param {boolean} [focus] */
function choose(name, focus = false) {
  const same = tab === name;
  tab = name;
  for (const k of TABS) {
    const b = byId(`tab-${k}`), on = k === name;
    b.setAttribute('aria-selected', String(on));
    b.tabIndex = on ? 0 : -1;
    byId(`panel-${k}`).hidden = !on;
    if (on && focus) b.focus();
  }
  if (name === 'one' && !same) flight.redraw(); // its width may have changed while it was hidden
}
for (const k of TABS) byId(`tab-${k}`).addEventListener('click', () => choose(k));
byId('tabs').addEventListener('keydown', e => {
  const n = TABS.length, k = TABS.indexOf(tab),
    to = e.key === 'ArrowRight' ? k + 1 : e.key === 'ArrowLeft' ? k + n - 1 : e.key === 'Home' ? 0 : e.key === 'End' ? n - 1 : -1;
  if (to >= 0) { choose(TABS[to % n], true); e.preventDefault(); }
});

// ---- files

/** One file is a flight, several are a table, unless copies or a shelf are asked for.
 *  @param {File[]} files */
function take(files) {
  if (files.length === 0) return;
  if (tab === 'merge' && files.length <= 2) merge.open(files);
  else if (tab === 'shelf') shelf.take(files);
  else if (files.length === 1 && tab !== 'many') openOne(files[0]);
  else { choose('many'); flights.open(files); }
}
for (const id of ['pick-one', 'pick-many', 'pick-folder']) {
  const input = /** @type {HTMLInputElement} */ (byId(id));
  input.addEventListener('change', () => {
    const all = [...(input.files ?? [])], files = id === 'pick-folder' ? all.filter(isFlight) : all;
    if (all.length > 0 && files.length === 0) say(t('noFlights'));
    take(files);
    input.value = '';
  });
}
let over = 0;
addEventListener('dragenter', e => { e.preventDefault(); over++; document.body.classList.add('over'); });
addEventListener('dragleave', () => { if (--over <= 0) { over = 0; document.body.classList.remove('over'); } });
addEventListener('dragover', e => e.preventDefault());
addEventListener('drop', async e => {
  e.preventDefault();
  over = 0;
  document.body.classList.remove('over');
  try {
    const files = await droppedFiles(e.dataTransfer);
    if (files.length > 0) take(files); else say(t('noFlights'));
  } catch { say(t('folderClosed')); }
});

// ---- theme and size

const dark = matchMedia('(prefers-color-scheme: dark)');
const themed = () => { byId('theme').setAttribute('aria-pressed', String(root.dataset.theme === 'dark')); flight.redraw(); };
root.dataset.theme = dark.matches ? 'dark' : 'light';
dark.addEventListener('change', () => { root.dataset.theme = dark.matches ? 'dark' : 'light'; themed(); });
byId('theme').addEventListener('click', () => { root.dataset.theme = root.dataset.theme === 'dark' ? 'light' : 'dark'; themed(); });
let waiting = 0;
addEventListener('resize', () => { clearTimeout(waiting); waiting = setTimeout(() => { if (!root.dataset.print) flight.redraw(); }, 120); });

// ---- paper: a sheet is light and has a width of its own, so that the pictures are drawn for it

let before = 'light';
addEventListener('beforeprint', () => {
  before = root.dataset.theme ?? 'light';
  root.dataset.theme = 'light';
  if (tab !== 'one') return;
  root.dataset.print = '1';
  flight.print();
});
addEventListener('afterprint', () => {
  flight.printed();
  delete root.dataset.print;
  root.dataset.theme = before;
  themed();
});

choose('one');
themed();
say(t('ready'));
