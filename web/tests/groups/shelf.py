"""A shelf: made, added to, listed, a flight opened and taken out, removed, packed, saved; refusals."""
from selenium.webdriver.support import expected_conditions
from selenium.webdriver.support.ui import WebDriverWait


def run(p):
    p.fresh()
    e = p.expected['shelf']
    p.click('tab-shelf')
    p.js("document.getElementById('shelf-size').value = '1048576'")
    p.click('new-shelf')
    p.wait(lambda: p.text('shelf-title'))
    p.hold('a new shelf is empty', 'The shelf is empty.' in p.text('shelf') and '0 of 64 flights' in p.text('shelf-facts'), p.text('shelf'))

    def add(number, file):
        p.js("document.getElementById('shelf-number').value = arguments[0]", number)
        p.by('add-flight').send_keys(p.path(file))
    add(7, 'shelf1.igc')
    p.wait(lambda: len(p.rows('shelf-table')) == 1)
    add(3, 'shelf2.igc')
    p.wait(lambda: len(p.rows('shelf-table')) == 2)
    p.same('listed', [r[:7] for r in p.rows('shelf-table')], [['7', '2024-07-15', '200', 'signed', 'accepted', '768', f"7\u202f{e['first'] % 1000:03d}"],
                                                            ['3', '2024-07-16', '300', 'signed', 'accepted', str(e['after']),
                                                                f"11\u202f{e['second'] % 1000:03d}"]])
    p.same('the next free number', p.js("return document.getElementById('shelf-number').value"), '1')
    p.hold('not yet saved is told', 'Changed, not yet saved.' in p.text('shelf-facts'))
    got = p.saved('flights.shelf', lambda: p.click('save-shelf'))
    p.hold('the shelf saved, every byte', got == open(p.path('both.shelf'), 'rb').read(), len(got))
    p.hold('saved is told', 'not yet saved' not in p.text('shelf-facts'))
    add(3, 'shelf1.igc')
    p.wait(lambda: p.text('verdict-title-s'))
    p.hold('a number in use is refused', '28 ID' in p.text('shelf') and len(p.rows('shelf-table')) == 2, p.text('shelf'))
    add(4, 'refused.igc')
    p.wait(lambda: 'POSITION' in (p.text('shelf') or ''))
    p.hold('a refused file is not added', f"line {p.expected['refused']['line']}" in p.text('shelf') and len(p.rows('shelf-table')) == 2)
    got = p.saved('flights-3.igc', lambda: p.js("document.querySelector('[aria-label=\"Save a copy: flight 3\"]').click()"))
    p.hold('a flight taken out, every byte', got == open(p.path('shelf2.igc'), 'rb').read())
    p.js("document.querySelector('[aria-label=\"Remove: flight 7\"]').click()")
    p.wait(lambda: len(p.rows('shelf-table')) == 1)
    p.click('pack-shelf')
    p.wait(lambda: p.rows('shelf-table')[0][5] == '768')
    got = p.saved('flights.shelf', lambda: p.click('save-shelf'))
    p.hold('packed, every byte', got == open(p.path('packed.shelf'), 'rb').read(),
        [i for i, (a, b) in enumerate(zip(got, open(p.path('packed.shelf'), 'rb').read())) if a != b][:5])
    p.js("document.querySelector('[aria-label=\"Open: flight 3\"]').click()")
    p.wait(lambda: p.text('f-date') == '2024-07-16')
    p.same('a flight of the shelf opened', p.by('tab-one').get_attribute('aria-selected'), 'true')
    p.click('tab-shelf')
    p.by('pick-shelf').send_keys(p.path('unsound.shelf'))
    p.wait(lambda: 'SHELF' in (p.text('shelf') or ''))
    p.hold('an unsound shelf is refused, and the other stays', '27 SHELF' in p.text('shelf') and len(p.rows('shelf-table')) == 1, p.text('shelf'))
    p.drop([p.path('both.shelf')])
    p.wait(lambda: len(p.rows('shelf-table')) == 2)
    p.drop([p.path('shelf1.igc')])
    p.wait(lambda: len(p.rows('shelf-table')) == 3)
    p.same('a flight dropped on the shelf gets the free number', [r[0] for r in p.rows('shelf-table')], ['7', '3', '1'])
    # another shelf is opened only where the changes are given up
    for answer, rows in [('dismiss', 3), ('accept', 1)]:
        p.by('pick-shelf').send_keys(p.path('packed.shelf'))
        alert = WebDriverWait(p.d, 10).until(expected_conditions.alert_is_present())
        p.hold('unsaved changes are asked about', 'not saved' in alert.text, alert.text)
        getattr(alert, answer)()
        p.wait(lambda: len(p.rows('shelf-table')) == rows)
