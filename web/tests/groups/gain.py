"""The gain of height between two marks, and great-circle distances on the sphere of 6,371 km, held against worked values."""
import json, math, os, subprocess

WEB = os.path.dirname(os.path.dirname(os.path.dirname(os.path.abspath(__file__))))
# Worked by hand: parts of the circumference 2 π 6371 km = 40,030.1736 km. One degree is 1/360 of it, a quarter 10,007.5434 km; in an equilateral
# triangle of 90° each side is a quarter; 60° apart on the
# equator or from (45, 0) to (45, 90), where the cosine of the angle is 1/2, it is a sixth, 6,671.6956 km; half of it is 20,015.0868 km.
ROUND = 2 * math.pi * 6371000
WORKED = [((0, 0, 0, 0), 0), ((0, 0, 1, 0), ROUND / 360), ((10, 20, 11, 20), ROUND / 360), ((0, 179.5, 0, -179.5), ROUND / 360),
    ((0, 0, 0, 90), ROUND / 4), ((90, 0, 0, 77), ROUND / 4), ((-90, 5, 90, 6), ROUND / 2),
          ((0, 0, 0, 180), ROUND / 2), ((45, 0, 45, 90), ROUND / 6), ((0, 0, 0, 60), ROUND / 6), ((80, 10, 80, -170),
              ROUND / 18), ((51.5, -0.25, 51.5, -0.25), 0), ((0, 0, 0.00001, 0), ROUND / 36000000)]


def run(p):
    pairs = [w[0] for w in WORKED]
    code = f"import('{WEB}/src/parts/sphere.js').then(m => console.log(JSON.stringify({json.dumps(pairs)}.map(a => m.distance(...a)))))"
    got = json.loads(subprocess.run(['node', '-e', code], capture_output=True, text=True, check=True).stdout)
    for (pair, want), d in zip(WORKED, got):
        p.hold(f'distance {pair}', abs(d - want) < 1e-6 * max(1, want) ** 0.5, (d, want))

    p.fresh()
    p.flight(p.path('officer.igc'))
    e = p.expected['gain']

    def mark(button, fix):
        p.js("const s = document.getElementById('cursor'); s.value = arguments[0]; s.dispatchEvent(new Event('input'))", fix)
        p.click(button)

    def told():
        return {k: p.text('g-' + k) for k in ['pressure', 'gnss', 'time', 'distance', 'noise']}
    p.same('nothing before a mark', p.text('gain-answer'), '')
    mark('set-low', e['set']['low'])
    p.hold('one mark is no gain', p.text('g-pressure') is None and p.text('g-low') != '–')
    mark('set-high', e['set']['high'])
    w = e['set']
    p.same('gain between two marks', told(),
        {'pressure': f"{w['pressure']}\u202fm", 'gnss': f"{w['gnss']}\u202fm", 'time': w['time'], 'distance': w['distance'], 'noise': str(w['noise'])})
    p.same('marks are on the chart', p.js("return [...document.querySelectorAll('#baro .mark-line')].map(e => e.hidden)"), [False, False])
    p.same('said', p.status(), f"Gain of height {w['pressure']}\u202fm")
    mark('set-low', e['back']['low'])
    mark('set-high', e['back']['high'])
    p.hold('high before low is no gain', 'this is no gain of height' in p.text('g-words') and 'no gain' in p.status())
    p.same('the fall is told with its sign', [p.text('g-pressure')[0], p.text('g-time')[0]], ['\u2212', '\u2212'])
    p.click('find-gain')
    p.same('the greatest gain', p.text('g-pressure'), f"{e['greatest']}\u202fm")
    p.hold('tow is told', 'Release from tow' in p.text('g-words'))
    p.click('clear-marks')
    p.same('cleared', [p.text('gain-answer'), p.js("return [...document.querySelectorAll('#baro .mark-line')].map(e => e.hidden)")], ['', [True, True]])
    p.flight(p.path('spots.igc'))
    seen = []
    for k in (1, 2, 3):
        mark('set-low', 0)
        mark('set-high', k)
        seen.append(p.text('g-distance'))
    # 1° of a meridian; 90° of the equator; 179.99998° of it
    p.same('distances on the page', seen, ['111.19\u202fkm', '10007.54\u202fkm', '20015.08\u202fkm'])
    p.flight(p.path('midnight.igc'))
    mark('set-low', 710)
    mark('set-high', 900)
    p.same('a fix marked V has no GNSS gain', [p.text('g-gnss'), p.text('g-distance')], ['a fix is marked V'] * 2)
