// The about box: what the page is and is not, what it was made of, and the licences of the libraries in it.
import { button, byId, el } from '../parts/dom.js';
import { t } from '../texts/texts.js';

/** @param {{sources:string, module:string}} sums @param {string} licences */
export function prepareAbout(sums, licences) {
  const box = /** @type {HTMLDialogElement} */ (byId('about-box'));
  box.setAttribute('aria-labelledby', 'about-title');
  box.append(el('h2', { id: 'about-title' }, `Hivebasket: ${t('title')}`), el('p', null, t('aboutText')), el('p', null, t('aboutProved')),
    el('p', null, t('aboutSigned')),
    el('p', { class: 'small carried', id: 'sums' }, t('aboutSums', { sources: sums.sources.slice(0, 16), module: sums.module.slice(0, 16) })),
    el('details', { 'aria-label': t('aboutLicences') }, el('summary', null, t('aboutLicences')),
      el('pre', { class: 'licences', id: 'licence-text', tabindex: '0' }, licences)), button(t('close'), () => box.close(), 'main', 'close-about'));
  byId('about').addEventListener('click', () => box.showModal());
}
