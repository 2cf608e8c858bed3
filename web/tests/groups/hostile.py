"""Hostile files: a thousand byte strings, of chance and of good files with a few bytes changed. The page says of each what the library says natively, and falls over none."""
import glob, os
from library import Library

ROOT = os.path.dirname(os.path.dirname(os.path.dirname(os.path.dirname(os.path.abspath(__file__)))))


def run(p):
    p.fresh()
    files = sorted(glob.glob(p.path('hostile', '*.igc')))
    p.figures['1,000 hostile files, ms'] = p.many(files)
    p.click('show-all')
    rows = p.rows()
    p.same('a row for each', [r[0] for r in rows], [os.path.basename(f) for f in files])
    if not Library.is_there(ROOT):
        print('web/test: no shared object of this machine in target/lib: the thousand byte strings are read, and not compared')
        return
    library, wrong, accepted = Library(ROOT), [], 0
    for f, r in zip(files, rows):
        want = library.check(open(f, 'rb').read())
        accepted += want is None
        if (r[-2] if want is None else r[1]) != ('✓ accepted' if want is None else '✕' + want.split('\n')[0]):
            wrong.append((r, want))
    p.same('each as the library says', wrong, [])
    p.hold('of both sorts', 10 < accepted < 500, accepted)
    for f in files[1:400:21]:
        p.flight(f)
        want = library.check(open(f, 'rb').read())
        p.same(f'{os.path.basename(f)} alone', p.js("return document.querySelector('#flight .meaning')?.textContent ?? null"),
            want.split('\n')[0] if want else None)
    p.drain()
    p.same('no word on the console', p.noise, [])
