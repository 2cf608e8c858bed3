"""One flight: verdict, facts, pictures, columns, declaration, headers, notes, downloads; refused, not signed, over midnight, texts that would be markup."""
import os, re, xml.dom.minidom
from selenium.webdriver.common.by import By

RAMP = ['#440154', '#482475', '#414487', '#355f8d', '#2a788e', '#21918c', '#22a884', '#44bf70', '#7ad151', '#a5c81c']


def run(p):
    p.fresh()
    officer(p)
    downloads(p)
    refused(p)
    others(p)


def officer(p):
    p.flight(p.path('officer.igc'))
    e = p.expected['officer']
    p.same('title of the verdict', p.text('verdict-title'), '✓Accepted')
    p.same('signed', p.text('signed'), 'Signed: has a G code')
    whole = p.js("return document.body.innerText")
    p.hold('no word of a valid signature', not re.search(r'valid signature|signature is|genuine', whole, re.I))
    p.hold('the G code is not judged', 'carried and never judged' in whole)
    p.facts('officer', e)
    p.hold('pilot as it stands', e['pilot'] in p.text('heads') and 'GLIDERTYPE:LS 4' in p.text('heads'))
    p.same('recorder as it stands', p.text('recorder'), 'XYZ001CLUB')
    rows = [[c.text for c in r.find_elements(By.XPATH, './*')] for r in p.all('#points tbody tr')]
    p.same('declared points', [tuple(r[:2]) for r in rows], [tuple(q) for q in e['points']])
    p.hold('place of a point', rows[2][2].startswith(e['place1']), rows[2][2])
    p.hold('a point at 0 0 is told', rows[0][2].endswith('not drawn'))
    p.same('head of the declaration', p.js("return [...document.querySelectorAll('#declaration dd')].map(e => e.textContent)"),
        ['2024-07-15 08:15:00', '2024-07-15', '1', '2'])
    p.hold('text of the declaration', 'Two corners' in p.text('declaration'))
    p.same('rings on the map', len(p.all('.leaflet-tooltip')), 3)
    p.same('evening notes', [x.text for x in p.all('#evening li')], e['evening'])
    p.hold('note inside told', '1 further L line stands inside' in p.text('evening'))
    p.same('strips', [x.text for x in p.all('#strips h3')], ['Engine noise (ENL)', 'Means of propulsion (MOP)'])
    points = int(p.by('baro').get_attribute('data-points'))
    p.hold('barogram points', 1000 < points <= 10000, points)
    p.hold('pressure line is drawn', p.coloured('baro', p.variable('--pressure'))[0] > 1000)
    p.hold('GNSS line is drawn', p.coloured('baro', p.variable('--gnss'))[0] > 500)
    p.hold('noise is drawn', p.coloured('strips', p.variable('--noise'))[0] > 300)
    p.hold('track is drawn', int(p.by('map').get_attribute('data-points')) > 1000)
    p.hold('track in colours of height', sum(p.coloured('map', c)[0] > 20 for c in RAMP) >= 8)
    p.hold('scale bar', re.fullmatch(r'\d+ k?m', p.js("return document.querySelector('.leaflet-control-scale-line').textContent")))
    p.hold('cursor starts at the highest', f"pressure {e['highest']}\u202fm" in p.text('readout'), p.text('readout'))
    line = p.js("const c = document.querySelector('#baro .cursor'), b = document.getElementById('baro'); return [parseFloat(c.style.left), b.clientWidth]")
    p.hold('cursor on the chart', 0 < line[0] < line[1], line)
    p.click('zoom-in')
    zoomed = int(p.by('baro').get_attribute('data-points'))
    p.hold('closer: more of fewer fixes', 1000 < zoomed <= 5010, zoomed)
    p.click('zoom-all')
    p.same('whole flight again', int(p.by('baro').get_attribute('data-points')), points)


def downloads(p):
    e = p.expected['officer']
    got = p.saved('officer.csv', lambda: p.click('save-csv'))
    p.hold('track CSV, every byte', got == open(p.path('officer.csv.expected'), 'rb').read(), got[:300])
    gpx = p.saved('officer.gpx', lambda: p.click('save-gpx')).decode()
    p.same('GPX points', gpx.count('<trkpt '), e['fixes'])
    f = e['row1']
    p.hold('first GPX point', f'<trkpt lat="{f[1] / 60000:.6f}" lon="{f[2] / 60000:.6f}"><ele>{f[4]}</ele><time>2024-07-15T{e["first"][:8]}Z</time></trkpt>\n' in gpx)
    xml.dom.minidom.parseString(gpx)


def refused(p):
    p.flight(p.path('refused.igc'))
    e = p.expected['refused']
    p.same('refused', p.text('verdict-title'), '✕Refused')
    p.same('rule, line, byte', p.js("return [...document.querySelectorAll('#flight dd')].map(e => e.textContent)"), [e['rule'], str(e['line']), str(e['byte'])])
    p.same('the line with its caret', p.js("return document.querySelector('.quote').textContent"), e['quote'])
    p.same('nothing else is shown', p.js("return [document.getElementById('baro'), document.getElementById('map'), document.getElementById('sheet-head')]"), [None] * 3)
    p.flight(p.path('too_long.igc'))
    p.same('too long', p.js("return document.querySelector('.facts dd').textContent"), '2 TOO_LONG')
    empty = os.path.join(p.saved_in, 'empty.igc')
    open(empty, 'wb').close()
    p.flight(empty, dropped=False)
    p.same('empty', p.js("return document.querySelector('.facts dd').textContent"), '1 EMPTY')


def others(p):
    p.flight(p.path('not_signed.igc'))
    p.same('not signed', p.text('signed'), 'Not signed: no G code')
    p.hold('the strict check in words', 'REFUSED 16 ENDS_EARLY' in p.text('strict'))
    p.facts('not signed', p.expected['not_signed'])
    p.hold('L lines of one without G are no evening notes', 'None.' in p.text('evening'))
    p.flight(p.path('no_fixes.igc'))
    p.same('no fixes', [p.text('verdict-title'), p.text('f-first'), p.text('f-fixes')], ['✓Accepted', '–', '0'])
    p.flight(p.path('no_sensor.igc'))
    p.same('no sensor: GNSS', p.text('f-gnss'), f"{p.expected['no_sensor']['gnss']}\u202fm")
    p.hold('no sensor: the map goes by GNSS', 'GNSS altitude' in p.js("return document.querySelector('.legend').textContent"))
    p.flight(p.path('midnight.igc'))
    p.facts('midnight', p.expected['midnight'])
    p.hold('the next day told', p.text('f-last').endswith('+1\u202fd'))
    p.hold('V told', p.text('f-fixes').endswith('(60 V)'))
    p.hold('finer time', re.match(r'\d\d:\d\d:\d\d\.5', p.text('readout')), p.text('readout'))
    csv = p.saved('midnight.csv', lambda: p.click('save-csv')).decode()
    last = csv.split('\n')[-2].split(',')
    p.hold('finer digits and the next day in CSV', last[0].startswith('2024-01-01T') and last[0].endswith('.5Z') and len(last[1].split('.')[1]) == 8, last)
    p.same('V fixes are in the CSV', csv.count(',V,'), 60)
    p.flight(p.path('unlisted.igc'))
    names = [b.get_attribute('aria-label') for b in p.all('.columns button')]
    p.same('columns, unlisted by their code only', names, ['QQQ', 'R2D', 'Engine noise (ENL)'])
    p.hold('texts of a file are no markup', "<img src=x onerror=document.title='X'><b>Eve</b>" in p.text('heads') and "<script>document.title='Y'</script>" in p.text('evening') and p.d.title == 'Flight files'
           and p.js("return document.querySelectorAll('#heads img, #heads b, #evening script').length") == 0)
    for code in ['R2D', 'QQQ']:
        p.js("[...document.querySelectorAll('.columns button')].find(b => b.textContent === arguments[0]).click()", code)
        p.wait(lambda: p.js("return document.querySelector(`[data-code=${arguments[0]}]`)", code))
    p.same('strip of an unlisted code', p.js("return document.querySelector('[data-code=R2D] h3').textContent"), 'R2D')
    p.hold('its points', int(p.js("return document.querySelector('[data-code=R2D] .chart').dataset.points")) > 500)
    p.hold('a column of texts is told', '3\u202f000 of 3\u202f000 fixes have no number here; the first such text is } ' in p.js("return document.querySelector('[data-code=QQQ]').textContent"))
