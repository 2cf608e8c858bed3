"""Many flights: the table, sorting, searching, CSV; a folder; a thousand files; stopping; names that would be markup or formulas."""
import glob, os, re, shutil


def run(p):
    p.fresh()
    hundred = sorted(glob.glob(p.path('hundred', '*.igc')))
    table = p.expected['hundred']
    p.js("""window.steps = new Set(); new MutationObserver(() => window.steps.add(document.getElementById('progress').textContent)).observe(document.getElementById('progress'), {subtree: true, childList: true, characterData: true});""")
    p.figures['100 files, ms'] = p.many(hundred)
    p.hold('progress was shown', len(p.js("return [...window.steps]")) >= 20, len(p.js("return [...window.steps]")))
    rows = p.rows()
    p.same('rows', len(rows), 100)
    for r, t in zip(rows, table):
        if t['check'] == 'accepted':
            p.same('row ' + t['file'], r[:10], [t['file'], t['date'], t['first'][:-4], t['last'][:-4], t['duration'], str(t['highest']),
                str(t['lowest']), re.sub(r'(\d)(\d{3})$', '\\1\u202f\\2', str(t['fixes'])),
                                                'signed' if t['signed'] else 'not signed', '✓ accepted'])
        else:
            p.hold('row ' + t['file'], r[0] == t['file'] and r[1].startswith('✕REFUSED ' + t['check'] + ', line 101, byte 2:') and len(r) == 2, r)
    order(p, table)
    search(p, table)
    csv(p, table)
    odd(p, hundred)
    p.many(hundred)
    gpx = p.saved('03_K6.gpx', lambda: p.js("document.querySelector('[aria-label=\"Track of 03_K6.igc as GPX\"]').click()")).decode()
    p.same('GPX of a row', gpx.count('<trkpt '), table[3]['fixes'])
    p.js("document.querySelector('#flights-table tbody button').click()")
    p.wait(lambda: p.text('f-highest') == f"{table[0]['highest']}\u202fm")
    p.hold('a row opens its flight', p.by('tab-one').get_attribute('aria-selected') == 'true')
    thousand(p)


def order(p, table):
    p.click('sort-highest')
    p.click('sort-highest')
    p.same('aria-sort', p.js("return document.getElementById('sort-highest').closest('th').getAttribute('aria-sort')"), 'descending')
    heights = [int(r[5]) for r in p.rows() if len(r) > 2]
    p.same('sorted by height, falling', heights, sorted((t['highest'] for t in table if t['check'] == 'accepted'), reverse=True))
    p.same('refused ones at the end', [len(r) for r in p.rows()[-5:]], [2] * 5)
    p.click('sort-file')


def search(p, table):
    p.by('search').send_keys('k6 2024-07-08')
    want = [t['file'] for t in table if 'K6' in t['file'] and t['date'] == '2024-07-08' and t['check'] == 'accepted']
    p.hold('a search that finds some', len(want) > 1, want)
    p.same('found by two words', [r[0] for r in p.rows()], want)
    p.js("const s = document.getElementById('search'); s.value = 'no such thing'; s.dispatchEvent(new Event('input'))")
    p.hold('nothing found is told', p.rows() == [] and 'No file is like that.' in p.text('flights'))
    p.js("const s = document.getElementById('search'); s.value = ''; s.dispatchEvent(new Event('input'))")
    choose = "const s = document.getElementById('which'); s.value = arguments[0]; s.dispatchEvent(new Event('change'))"
    for which, test in [('bad', lambda t: t['check'] != 'accepted'), ('unsigned', lambda t: t['check'] == 'accepted' and not t['signed']),
        ('good', lambda t: t['check'] == 'accepted'), ('all', lambda t: True)]:
        p.js(choose, which)
        p.same(f'which: {which}', [r[0] for r in p.rows()], [t['file'] for t in table if test(t)])


def csv(p, table):
    lines = p.saved('flights.csv', lambda: p.click('table-csv')).decode().split('\r\n')
    p.same('lines of the CSV', len(lines), 102)
    t = table[0]
    s = [int(x) for x in t['duration'].split(':')]
    p.same('a line of the CSV', lines[1], f"{t['file']},accepted,{t['date']},{t['date']}T{t['first'][:8]}Z,{t['date']}T{t['last'][:8]}Z,{s[0] * 3600 + s[1] * 60 + s[2]},{t['highest']},{t['lowest']},{t['fixes']},signed")
    p.same('a refused line of the CSV', lines[8], f'{table[7]["file"]},"REFUSED 22 TIME, line 101, byte 2: time field against its rule",,,,,,,,')


def odd(p, hundred):
    name = '=1+1,<b>x.igc'
    file = os.path.join(p.saved_in, name)
    shutil.copy(p.path('not_signed.igc'), file)
    p.many([file, hundred[0]])
    p.hold('an odd name is text', p.rows()[1][0] == name and p.js("return document.querySelectorAll('#flights-table b').length") == 0, p.rows())
    p.hold('an odd name is no formula', p.saved('flights.csv',
        lambda: p.click('table-csv')).decode().split('\r\n')[2].startswith('"\'=1+1,<b>x.igc",accepted,'))
    os.remove(file)


def thousand(p):
    p.figures['1,000 files in folders, ms'] = p.many([p.path('thousand')])
    p.hold('a folder: every flight of it, and nothing else', p.status() == '1000 files read: 1000 accepted, 0 refused', p.status())
    p.same('rows at first', len(p.rows()), 200)
    p.hold('how many are shown is told', '200 rows are shown.' in p.text('flights'))
    p.click('show-all')
    names = [r[0] for r in p.rows()]
    p.same('all rows', names, ['f%03d.igc' % k for k in range(1000)])
    heap = p.js("return performance.memory.usedJSHeapSize")
    p.figures['1,000 files, heap of the page, MB'] = round(heap / 1e6, 1)
    p.hold('memory is bounded', heap < 100e6, heap)
    p.js("document.getElementById('flights').dataset.ms = ''; new MutationObserver((_, o) => { const b = document.getElementById('stop'); if (b) { o.disconnect(); b.click(); } }).observe(document.getElementById('progress'), {childList: true})")
    p.drop([p.path('thousand')])
    p.wait(lambda: p.js("return document.getElementById('flights').dataset.ms"))
    done = int(re.match(r'Stopped: (\d+) of 1000 files were read.', p.status())[1])
    p.hold('stopped', done < 900 and len(p.rows()) == min(200, done), done)
    p.many([p.path('hundred', '00_LS.igc'), p.path('hundred', '01_DG.igc')])
    p.same('and goes on afterwards', len(p.rows()), 2)
