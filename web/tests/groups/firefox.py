"""The same page in Firefox: one flight, the policy, a table, a merge, a shelf, the claim sheet, German."""
import glob, os, shutil, subprocess

from said import left_out


def run(p):
    if not shutil.which('firefox-esr'):
        left_out('the page in Firefox: firefox-esr is not there (web/packages)')
        return
    from firefox import Firefox
    f = Firefox()
    try:
        p.figures['Firefox'] = f.version
        f.go('file://' + p.page)
        f.js("window.wrong = []; addEventListener('error', e => wrong.push(e.message)); addEventListener('unhandledrejection', e => wrong.push(String(e.reason))); document.addEventListener('securitypolicyviolation', e => wrong.push(e.effectiveDirective))")
        flights(p, f)
        others(p, f)
        p.same('Firefox: no error, and nothing against the policy', f.js('return window.wrong'), [])
        tried = f.later("""const done = arguments[arguments.length - 1]; let html = 'let in'; try { document.createElement('div').innerHTML = '<img src=x>'; } catch { html = 'refused'; }
          fetch('https://example.org/').then(() => 'let in', () => 'refused').then(r => done([html, r]));""")
        p.same('Firefox: markup and fetch', tried, ['refused', 'refused'])
        f.go('file://' + p.page + '#lang=de')
        p.same('Firefox: German', f.js('return document.title'), 'Flugdateien')
    finally:
        f.close()


def flights(p, f):
    def opened(name):
        f.js("document.getElementById('flight').dataset.ms = ''")
        f.choose('pick-one', p.path(name))
        f.wait(lambda: f.js("return document.getElementById('flight').dataset.ms"))
        return int(f.js("return document.getElementById('flight').dataset.ms"))
    e = p.expected['officer']
    p.figures['Firefox: 10,000 fixes, ms'] = opened('officer.igc')
    p.same('Firefox: facts', [f.text(i) for i in ('verdict-title', 'f-date', 'f-duration', 'f-highest', 'f-gnss')], ['✓Accepted', e['date'], e['duration'], f"{e['highest']}\u202fm", f"{e['gnss']}\u202fm"])
    f.js("document.getElementById('find-gain').click()")
    p.same('Firefox: gain', f.text('g-pressure'), f"{p.expected['gain']['greatest']}\u202fm")
    f.wait(lambda: f.text('sha'))
    if shutil.which('pdfinfo'):
        pdf = f.pdf(os.path.join(p.saved_in, 'firefox.pdf'))
        info = subprocess.run(['pdfinfo', pdf], capture_output=True, text=True).stdout
        words = subprocess.run(['pdftotext', '-layout', pdf, '-'], capture_output=True, text=True).stdout.replace('ﬁ', 'fi')
        p.hold('Firefox: one A4', 'Pages:           1\n' in info and 'A4' in info and 'The G code was not verified.' in words and 'Signature' in words, info + words)
    p.figures['Firefox: 370,000 fixes, ms'] = opened('big.igc')
    p.same('Firefox: the one high fix', f.text('f-highest'), '4321\u202fm')
    opened('refused.igc')
    p.same('Firefox: refused', [f.text('verdict-title'), f.js("return document.querySelector('.quote').textContent")], ['✕Refused', p.expected['refused']['quote']])


def others(p, f):
    f.js("document.getElementById('tab-many').click()")
    f.choose('pick-many', *sorted(glob.glob(p.path('hundred', '*.igc'))))
    f.wait(lambda: f.js("return document.getElementById('flights').dataset.ms"))
    p.same('Firefox: a table', f.js("return document.querySelectorAll('#flights-table tbody tr').length"), 100)
    f.js("document.getElementById('tab-merge').click()")
    f.choose('copy1', p.path('copy1.igc'))
    f.choose('copy2', p.path('copy2.igc'))
    f.wait(lambda: f.text('merge-now'))
    f.js("document.getElementById('merge-now').click()")
    f.wait(lambda: f.text('verdict-title-m'))
    p.same('Firefox: merged', f.js("return [...document.querySelectorAll('#merged li')].map(e => e.textContent)"), p.expected['merged'])
    f.js("document.getElementById('tab-shelf').click()")
    f.choose('pick-shelf', p.path('both.shelf'))
    f.wait(lambda: f.text('shelf-table'))
    p.same('Firefox: a shelf', f.js("return [...document.querySelectorAll('#shelf-table tbody th')].map(e => e.textContent)"), ['7', '3'])
