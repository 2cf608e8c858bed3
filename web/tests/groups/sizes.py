"""Sizes of screen: tablet, laptop and phone, by touch; nothing wider than the screen, nothing too small for a finger; light and dark."""
import time

SCREENS = {'tablet': (1280, 800, True), 'tablet upright': (800, 1280, True), 'phone': (390, 844, True), 'laptop': (1440, 900, False)}


def fits(p, where):
    small = p.js("""return [...document.querySelectorAll('button, summary, input, select, .leaflet-bar a')].filter(e => e.offsetParent).map(e => [e.id || e.textContent, e.getBoundingClientRect()]).filter(([, r]) => r.width < 44 || r.height < 44).map(([n, r]) => [n, r.width, r.height])""")
    p.same(f'{where}: targets of 44 pixels', small, [])
    wide = p.js("return [document.documentElement.scrollWidth, innerWidth]")
    p.hold(f'{where}: nothing wider than the screen', wide[0] <= wide[1], wide)


def run(p):
    hundred = [p.path('hundred', '%02d_%s.igc' % (k, ['LS', 'DG', 'AS', 'K6'][k % 4])) for k in range(12)]
    for name, (width, height, touch) in SCREENS.items():
        for words in ['', '#lang=de']:
            p.fresh(width, height, touch, 1, words)
            where = name + (' de' if words else '')
            p.flight(p.path('officer.igc'), dropped=False)
            p.click('find-gain')
            fits(p, f'{where}: flight')
            p.click('tab-many')
            p.by('pick-many').send_keys('\n'.join(hundred))
            p.wait(lambda: p.js("return document.getElementById('flights').dataset.ms"))
            fits(p, f'{where}: table')
            p.click('tab-merge')
            p.by('copy1').send_keys(p.path('copy1.igc'))
            fits(p, f'{where}: merge')
            p.click('tab-shelf')
            p.by('pick-shelf').send_keys(p.path('both.shelf'))
            p.wait(lambda: len(p.rows('shelf-table')) == 2)
            fits(p, f'{where}: shelf')
    fingers(p)
    themes(p)


def fingers(p):
    p.fresh(800, 1280, True, 2)
    p.tap(p.by('tab-merge'))
    p.same('a tab by touch', p.by('tab-merge').get_attribute('aria-selected'), 'true')
    p.tap(p.by('tab-one'))
    p.flight(p.path('officer.igc'), dropped=False)
    before = p.by('baro').get_attribute('data-points')
    p.tap(p.by('zoom-in'))
    p.hold('zoom by touch', p.by('baro').get_attribute('data-points') != before)
    p.tap(p.by('zoom-all'))
    before = p.text('readout')
    p.tap(p.by('cursor'))
    p.hold('slider by touch', p.text('readout') != before)
    x, y = p.middle(p.by('baro'))
    seen = []
    for dx in (-150, 150):
        p.touch('touchStart', (x + dx, y))
        p.touch('touchEnd')
        time.sleep(0.15)
        seen.append(p.text('readout')[:8])
    p.hold('time and height at a finger on the barogram', '09:20:34' < seen[0] < seen[1] < '14:53:52', seen)
    p.tap(p.by('set-low'))
    p.hold('a mark by touch', p.text('g-low').startswith(seen[1]), p.text('g-low'))
    for i in ['baro', 'map']:
        x, y = p.middle(p.by(i))
        y0 = p.js("return scrollY")
        p.touch('touchStart', (x, y))
        for k in range(1, 16):
            p.touch('touchMove', (x, y - 20 * k))
        p.touch('touchEnd')
        time.sleep(0.2)
        p.hold(f'a finger on the {i} scrolls the page', p.js("return scrollY") > y0 + 100, p.js("return scrollY"))


def themes(p):
    from colours import contrasts
    p.fresh()
    p.flight(p.path('officer.igc'))
    for theme in ['light', 'dark']:
        p.same(theme, p.js("return getComputedStyle(document.documentElement).colorScheme"), theme)
        p.hold(f'{theme}: the barogram is drawn', p.coloured('baro', p.variable('--pressure'))[0] > 1000)
        contrasts(p, theme)
        p.click('theme')
