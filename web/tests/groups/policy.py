"""The policy: nothing gets out, no markup gets in; and the about box, which tells what the page is made of."""


def run(p):
    p.fresh()
    tried = p.d.execute_async_script("""const done = arguments[0]; const seen = [];
      document.addEventListener('securitypolicyviolation', e => seen.push(e.effectiveDirective));
      const img = new Image(); img.src = 'https://example.org/x.png';
      const style = document.createElement('style'); style.textContent = 'body { color: red }'; document.head.append(style);
      const tried = f => { try { f(); return 'let in'; } catch { return 'refused'; } };
      const out = [tried(() => { document.createElement('div').innerHTML = '<img src=x>'; }), tried(() => new Worker('https://example.org/w.js')),
          tried(() => document.write('<b>x</b>')),
        tried(() => { const s = document.createElement('script'); s.textContent = 'document.title = 1'; document.head.append(s); }), tried(() => new Worker(URL.createObjectURL(new Blob(['1']))))];
      navigator.sendBeacon?.('https://example.org/');
      fetch('https://example.org/').then(() => 'let in', () => 'refused').then(f => setTimeout(() => { // later, since a call by DevTools may eval
        out.push(f, tried(() => (0, eval)('1')));
        done([out, seen, document.title]); }, 200));""")
    p.same('markup, foreign worker, document.write, script, other worker, fetch, eval', tried[0], ['refused'] * 7)
    p.hold('image, fetch and style by the policy', {'connect-src', 'img-src', 'style-src-elem'} <= set(tried[1]), tried[1])
    p.same('no script came in', tried[2], 'Flight files')
    p.drain()
    p.noise.clear()
    p.asked.discard('https')
    p.fresh()
    p.click('about')
    p.hold('about: never a word of a valid signature', 'Whether that code is genuine only the recorder maker’s program can say' in p.text('about-box'))
    p.hold('about: both licences', 'Leaflet' in p.text('licence-text') and 'dygraphs is MIT-licenced' in p.text('licence-text') and 'BSD' in p.text('licence-text'))
    p.hold('about: the sums', len(p.text('sums')) > 40, p.text('sums'))
    p.click('close-about')
