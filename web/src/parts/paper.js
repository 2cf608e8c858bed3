// Pictures for paper. A canvas that is cleared and drawn again while the browser prepares to print is recorded stroke by stroke, and the clearing
// becomes masks in the PDF that readers and printers draw wrongly. So a fresh canvas with one picture in it stands on the paper in its place.

/** The canvases replaced by pictures of them, until the function that is returned is called.
 *  @param {Iterable<Element>} canvases */
export function forPaper(canvases) {
  /** @type {[HTMLCanvasElement, HTMLCanvasElement][]} */ const pairs = [];
  for (const e of canvases) {
    const c = /** @type {HTMLCanvasElement} */ (e);
    if (c.width === 0 || c.height === 0) continue;
    const copy = document.createElement('canvas');
    copy.width = c.width;
    copy.height = c.height;
    copy.className = c.className;
    for (const k of /** @type {const} */ (['position', 'left', 'top', 'width', 'height', 'transform', 'zIndex'])) copy.style[k] = c.style[k];
    copy.getContext('2d')?.drawImage(c, 0, 0);
    c.after(copy);
    c.hidden = true;
    pairs.push([c, copy]);
  }
  return () => { for (const [c, copy] of pairs) { copy.remove(); c.hidden = false; } };
}
