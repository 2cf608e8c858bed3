"""By keyboard alone, and what a screen reader is told: names, roles and states in the accessibility tree."""
from selenium.webdriver.common.action_chains import ActionChains
from selenium.webdriver.common.keys import Keys

NAMED = ('button', 'tab', 'slider', 'image', 'img', 'textbox', 'searchbox', 'spinbutton', 'combobox', 'region', 'application', 'table', 'tabpanel',
    'link', 'progressbar', 'dialog', 'tablist', 'group')


def tree(p):
    return [n for n in p.cdp('Accessibility.getFullAXTree', {})['nodes'] if not n.get('ignored')]


def value(n, key):
    return n.get(key, {}).get('value')


def all_named(p, where):
    nodes = tree(p)
    bare = [(value(n, 'role'), n.get('properties')) for n in nodes if value(n, 'role') in NAMED and not value(n, 'name')]
    p.same(f'{where}: everything has a name', bare, [])
    return nodes


def press(p, *keys):
    ActionChains(p.d).send_keys(*keys).perform()


def run(p):
    p.fresh()
    p.js("document.getElementById('tab-one').focus()")
    for key, want in [(Keys.ARROW_RIGHT, 'tab-many'), (Keys.END, 'tab-shelf'), (Keys.ARROW_RIGHT, 'tab-one'), (Keys.ARROW_LEFT, 'tab-shelf'),
        (Keys.HOME, 'tab-one')]:
        press(p, key)
        p.same('tabs by arrow keys', p.js("return [document.activeElement.id, document.activeElement.getAttribute('aria-selected')]"), [want, 'true'])
    p.flight(p.path('officer.igc'))
    p.same('focus after opening', p.js("return document.activeElement.id"), 'verdict-title')
    before = p.text('readout')
    p.js("document.getElementById('cursor').focus()")
    press(p, Keys.ARROW_RIGHT)
    p.hold('cursor by arrow key', p.text('readout') != before and p.by('cursor').get_attribute('aria-valuetext') == p.text('readout'))
    press(p, Keys.HOME)
    p.hold('cursor to the first fix', p.text('readout').startswith(p.expected['officer']['first'][:8]), p.text('readout'))
    p.js("document.getElementById('set-low').focus()")
    press(p, Keys.ENTER)
    p.js("document.getElementById('cursor').focus()")
    press(p, Keys.END)
    p.js("document.getElementById('set-high').focus()")
    press(p, Keys.SPACE)
    p.hold('marks by keyboard', p.text('g-pressure') is not None and p.text('g-time') == p.expected['officer']['duration'], p.text('g-time'))
    reached = []
    p.js("document.getElementById('tab-one').focus()")
    for _ in range(45):
        reached.append(p.js("const a = document.activeElement; return a.id || a.textContent || a.className"))
        press(p, Keys.TAB)
        if p.js("return document.activeElement === document.body"):
            break
    p.hold('by Tab alone', {'about', 'theme', 'pick-one', 'print-sheet', 'save-csv', 'save-gpx', 'zoom-in', 'zoom-all', 'cursor', 'ENL', 'set-low',
        'set-high', 'find-gain', 'fit', 'map'} <= set(reached), reached)
    nodes = all_named(p, 'one flight')
    slider = [n for n in nodes if value(n, 'role') == 'slider'][0]
    p.same('the slider', [value(slider, 'name'), [q['value']['value'] for q in slider['properties'] if q['name'] in ('valuemin', 'valuemax')]],
        ['Fix to look at', [0, 9999]])
    p.same('tabs and panel', [sum(value(n, 'role') == r for n in nodes) for r in ('tab', 'tabpanel', 'tablist', 'status')][:3], [4, 1, 1])
    p.js("document.getElementById('about').focus()")
    press(p, Keys.ENTER)
    p.hold('about by keyboard', p.js("return document.getElementById('about-box').open"))
    all_named(p, 'about')
    press(p, Keys.ESCAPE)
    p.same('closed by Escape, focus back', p.js("return [document.getElementById('about-box').open, document.activeElement.id]"), [False, 'about'])
    p.flight(p.path('refused.igc'))
    all_named(p, 'refused')
    p.many([p.path('hundred', '00_LS.igc'), p.path('hundred', '07_K6.igc')])
    p.same('focus after the table', p.js("return document.activeElement.id"), 'flights-title')
    nodes = all_named(p, 'table')
    p.hold('column and row headers', sum(value(n, 'role') == 'columnheader' for n in nodes) == 11 and sum(value(n, 'role') == 'rowheader' for n in nodes) == 2)
    p.js("document.getElementById('sort-fixes').focus()")
    press(p, Keys.ENTER)
    p.same('sorted by keyboard, and the focus stays',
        p.js("return [document.activeElement.id, document.getElementById('sort-fixes').closest('th').getAttribute('aria-sort')]"), ['sort-fixes', 'ascending'])
    p.click('tab-merge')
    p.drop([p.path('copy1.igc'), p.path('copy2.igc')])
    p.wait(lambda: p.text('merge-now'))
    p.js("document.getElementById('merge-now').focus()")
    press(p, Keys.ENTER)
    p.wait(lambda: p.text('verdict-title-m'))
    p.same('focus after merging', p.js("return document.activeElement.id"), 'verdict-title-m')
    all_named(p, 'merge')
    p.click('tab-shelf')
    p.drop([p.path('both.shelf')])
    p.wait(lambda: len(p.rows('shelf-table')) == 2)
    all_named(p, 'shelf')
    ids = p.js("const c = {}; for (const e of document.querySelectorAll('[id]')) c[e.id] = (c[e.id] ?? 0) + 1; return Object.keys(c).filter(k => c[k] > 1)")
    p.same('no id twice', ids, [])
