"""Speed: 10,000 and 370,000 fixes from drop to picture, and that the page never freezes; the one high fix among 370,000 is seen."""
import time


def run(p):
    p.fresh()
    p.js("window.longest = []; new PerformanceObserver(l => { for (const e of l.getEntries()) window.longest.push(Math.round(e.duration)); }).observe({type: 'longtask'})")
    times = [p.flight(p.path('officer.igc')) for _ in range(4)]
    p.figures['10,000 fixes, ms from drop to picture: first, then median'] = [times[0], sorted(times[1:])[1]]
    times = [p.flight(p.path('big.igc')) for _ in range(3)]
    e = p.expected['big']
    p.figures['370,000 fixes, ms from drop to picture'] = sorted(times)[1]
    p.figures['370,000 fixes, in the worker'] = p.js("return document.getElementById('flight').dataset.read")
    p.figures['370,000 fixes, MB of wasm memory'] = round(int(p.js("return document.getElementById('flight').dataset.held")) / 1e6, 1)
    p.figures['longest tasks of the page, ms'] = sorted(p.js("return window.longest"))[-3:]
    p.same('big: fixes', ''.join(c for c in p.text('f-fixes') if c.isdigit()), str(e['fixes']))
    p.same('big: highest', p.text('f-highest'), f"{e['highest']}\u202fm")
    p.same('big: last', p.text('f-last') + ' UTC', e['last'])
    points = int(p.by('baro').get_attribute('data-points'))
    p.hold('big: thinned', 1500 < points < 8000, points)
    labels = p.js("return [...document.querySelectorAll('#baro .dygraph-axis-label-y')].map(e => e.textContent)")
    n, top = p.coloured('baro', p.variable('--pressure'))
    p.hold('big: the one high fix is seen', '4000' in labels and top < 40, (labels, n, top))
    p.hold('big: cursor at it', '4321' in p.text('readout'))
    p.hold('the page never froze', max(p.js("return window.longest") or [0]) < 800, p.js("return window.longest"))
    t0 = time.time()
    got = p.saved('big.csv', lambda: p.click('save-csv'))
    p.figures['370,000 fixes, track CSV, s and bytes'] = [round(time.time() - t0, 2), len(got)]
    p.same('big: lines of its CSV', got.count(b'\n'), e['fixes'] + 1)
