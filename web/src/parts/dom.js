// Elements made of texts. All that comes from a file goes through textContent here, never through markup.

/** @template {keyof HTMLElementTagNameMap} T @param {T} tag @param {Record<string, string|number|boolean|null|undefined>|null} [attributes]
 * @param {...(Node|string|null|undefined)} children @returns {HTMLElementTagNameMap[T]} */
export function el(tag, attributes, ...children) {
  const e = document.createElement(tag);
  for (const [k, v] of Object.entries(attributes ?? {})) if (v !== null && v !== undefined && v !== false) e.setAttribute(k, v === true ? '' : String(v));
  for (const c of children) if (c !== null && c !== undefined) e.append(c);
  return e;
}

/** @template {HTMLElement} [T=HTMLElement] @param {string} id @returns {T} */
export const byId = id => /** @type {T} */ (document.getElementById(id));

/** @param {string} text @param {()=>void} act @param {string} [cls] @param {string} [id] @param {string} [label] */
export function button(text, act, cls = '', id, label) {
  const b = el('button', { type: 'button', class: cls, id, 'aria-label': label, title: label }, text);
  b.addEventListener('click', act);
  return b;
}

/** One entry of a list of facts.
 *  @param {string} name @param {string|Node} value @param {string} [id] */
export const fact = (name, value, id) => el('div', null, el('dt', null, name), el('dd', { id }, value));

/** @param {Blob} blob @param {string} name */
export function download(blob, name) {
  const url = URL.createObjectURL(blob), a = el('a', { href: url, download: name });
  document.body.append(a);
  a.click();
  a.remove();
  setTimeout(() => URL.revokeObjectURL(url), 60000);
}

/** A name to save under: the file's own, without its ending and without what file systems dislike.
 *  @param {string} name */
export const stem = name => name.replace(/\.[^.]*$/, '').replace(/[^\w.+-]+/g, '_').slice(0, 80) || 'flight';

/** What happened, for the eye and for a screen reader.
 *  @param {string} text */
export const say = text => { byId('status').textContent = text; };

/** A colour of the sheet that is in force.
 *  @param {string} name */
export const colour = name => getComputedStyle(document.documentElement).getPropertyValue(name).trim();

/** After the browser has painted. */
export const painted = () => new Promise(done => requestAnimationFrame(() => setTimeout(done, 0)));

export const printing = () => Boolean(document.documentElement.dataset.print);
