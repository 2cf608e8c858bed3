// The words of the page, from the table of the browser's language. Another language is another file beside en.js, and its name in TABLES.
import de from './de.js';
import en from './en.js';

/** @typedef {Exclude<keyof typeof en, 'refusals'>} Key */

/** @type {Record<string, typeof en>} */
const TABLES = { en, de };

/** The first language of the browser that has a table; `#lang=de` behind the page's name goes before it. */
function chosen() {
  const asked = /[#&]lang=(\w+)/.exec(globalThis.location?.hash ?? '')?.[1];
  return [asked ?? '', ...(globalThis.navigator?.languages ?? [])].map(l => l.slice(0, 2).toLowerCase()).find(l => Object.hasOwn(TABLES, l)) ?? 'en';
}

export const language = chosen();
const table = TABLES[language];

/** The words of a key, with values put in. Where a text has two forms, parted by |, `n` chooses.
 *  @param {Key} key @param {Record<string, string|number>} [values] */
export function t(key, values = {}) {
  const forms = table[key].split('|'), form = forms[String(values.n) === '1' ? 0 : forms.length - 1];
  return form.replace(/\{(\w+)\}/g, (_, name) => String(values[name] ?? ''));
}

/** What a refusal means, in a language that the library does not speak; else ''.
 *  @param {number} number */
export const meaning = number => table.refusals[number] ?? '';

/** The words of a listed code or a header's code; a code without words stands as it is.
 *  @param {string} code */
export const codeName = code => (/^[A-Z][A-Z0-9]{2}$/.test(code) && Object.hasOwn(table, code) ? t(/** @type {Key} */ (code)) : code);

/** Texts of the page's own markup: data-text fills an element, data-label its name.
 *  @param {ParentNode} root */
export function fill(root) {
  for (const e of root.querySelectorAll('[data-text]')) e.textContent = t(/** @type {Key} */ (/** @type {HTMLElement} */ (e).dataset.text));
  for (const e of root.querySelectorAll('[data-label]')) e.setAttribute('aria-label', t(/** @type {Key} */ (/** @type {HTMLElement} */ (e).dataset.label)));
}
