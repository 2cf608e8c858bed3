"""The claim sheet: one A4, its words and its pictures, also for a file with more than a sheet has room for."""
import hashlib, shutil, subprocess

from said import left_out


def words(pdf):
    return subprocess.run(['pdftotext', '-layout', pdf, '-'], capture_output=True, text=True).stdout


def one_page(p, name, pdf):
    info = subprocess.run(['pdfinfo', pdf], capture_output=True, text=True).stdout
    p.hold(f'{name}: one sheet of A4', 'Pages:           1\n' in info and 'A4' in info, info)


def run(p):
    if not shutil.which('pdfinfo'):
        left_out('the claim sheet of the page: poppler-utils is not there (web/packages)')
        return
    p.fresh()
    p.flight(p.path('officer.igc'))
    e = p.expected['officer']
    p.click('find-gain')
    p.js("[...document.querySelectorAll('.columns button')].find(b => b.textContent === 'ENL').click()")  # put away, and on the sheet all the same
    sum256 = hashlib.sha256(open(p.path('officer.igc'), 'rb').read()).hexdigest()
    p.wait(lambda: p.text('sha') == sum256)
    pdf = p.pdf()
    one_page(p, 'sheet', pdf)
    seen = words(pdf).replace('\u202f', ' ')
    for w in ['Claim sheet for the flight of 2024-07-15', sum256, 'officer.igc', 'accepted: every written rule is kept, and the file has a G code',
        'The G code was not verified.', 'PILOTINCHARGE:Ada Example', 'XYZ001CLUB',
              'CHURCH TOWER', '52°00.000′N 000°30.000′E', 'landed at 16:02', '5:33:18', f"{e['highest']}\u202fm", 'Engine noise (ENL)', f"{p.expected['gain']['greatest']}\u202fm", 'Signature', 'Official observer']:
        p.hold(f'on the sheet: {w}', w.replace('\u202f', ' ') in seen, seen)
    p.hold('no buttons on paper', not any(w in seen for w in ['Track CSV', 'Open a flight', 'Whole flight', 'Set low']), seen)
    width, height = 595, 842
    px = subprocess.run(['pdftoppm', '-r', '72', '-f', '1', '-l', '1', pdf], capture_output=True).stdout[-width * height * 3:]

    def count(y0, y1, test):
        return sum(test(px[i], px[i + 1], px[i + 2]) for i in range(width * 3 * y0, width * 3 * y1, 3))
    p.hold('the barogram is on paper', count(160, 330, lambda r, g, b: b > r + 50) > 700)
    p.hold('engine noise is on paper', count(300, 400, lambda r, g, b: b > g + 25 and r > g) > 100)
    p.hold('the track is on paper', count(420, 700, lambda r, g, b: g > r + 40 and g > 90) > 100)
    p.hold('what was put away is put away again', p.js("return document.querySelector('[data-code=ENL]').hidden"))
    p.hold('back on the screen', p.js("return !document.documentElement.dataset.print && document.getElementById('save-csv').offsetWidth > 0 && document.getElementById('flight').style.zoom === ''"))
    p.flight(p.path('long.igc'))
    p.click('find-gain')
    pdf = p.pdf()
    one_page(p, 'a long file', pdf)
    p.hold('what is left out is told', 'More in the file: 26 points, 55 notes.' in words(pdf), words(pdf))
    p.flight(p.path('not_signed.igc'))
    pdf = p.pdf()
    one_page(p, 'not signed', pdf)
    p.hold('without engine noise that is told', 'No engine noise (ENL) was recorded.' in words(pdf), words(pdf))
    p.hold('not signed: the strict check refuses', 'REFUSED 16 ENDS_EARLY' in words(pdf) and 'accepted' not in words(pdf), words(pdf))
    p.fresh(words='#lang=de')
    p.flight(p.path('long.igc'))
    p.click('find-gain')
    pdf = p.pdf()
    one_page(p, 'in German', pdf)
    p.hold('in German: not verified', 'Der G-Code wurde nicht verifiziert.' in words(pdf) and 'Weiteres in der Datei: 26 Punkte, 55 Notizen.' in words(pdf), words(pdf))
