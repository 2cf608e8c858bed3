// The evening notes of a file: L lines behind its last G line.
import { el } from '../parts/dom.js';
import { count } from '../parts/format.js';
import { t } from '../texts/texts.js';

const ON_PAPER = 5; // notes that the claim sheet has room for

/** @param {{count:number, texts:string[]}} notes */
export function noteList(notes) {
  if (notes.count === 0) return el('p', null, t('none'));
  const more = notes.count - notes.texts.length;
  return el('div', null, el('ul', { class: 'notes' }, ...notes.texts.map((text, k) => el('li', { class: k < ON_PAPER ? 'carried' : 'carried noprint' }, text))),
    more > 0 ? el('p', { class: 'small' }, t('furtherNotes', { n: count(more) })) : null);
}

/** How many notes the claim sheet leaves out.
 *  @param {{count:number}} notes */
export const notesLeftOut = notes => Math.max(0, notes.count - ON_PAPER);

/** @param {any} f an accepted flight */
export const notesCard = f => el('section', { class: 'card', 'aria-labelledby': 'evening-title', id: 'evening' }, el('h2', { id: 'evening-title' }, t('notes')),
  el('p', { class: 'small noprint' }, t('notesHint')), noteList(f.notes),
    f.inside ? el('p', { class: 'small noprint' }, t('inside', { n: count(f.inside) })) : null);
