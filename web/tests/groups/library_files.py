"""The library's own test files, against what its program must say of them: tests/igc/checked, summaries and tracks."""
import os, re

ROOT = os.path.dirname(os.path.dirname(os.path.dirname(os.path.dirname(os.path.abspath(__file__)))))
IGC = os.path.join(ROOT, 'tests', 'igc')


def told():
    """What `igc check` and `igc summary` print of each file."""
    said, sums, last = {}, {}, None
    for l in open(os.path.join(IGC, 'checked')).read().split('\n'):
        m = re.match(r'(\w+\.igc): (.*)', l)
        if m:
            last = m[1]
            said[last] = [m[2]]
        elif last:
            said[last].append(l)
    for l in open(os.path.join(IGC, 'summaries')):
        m = re.match(r'(\S+) (\S+) (\S+) (\S+) (\S+) (\S+) (\S+) .* (\w+\.igc)$', l)
        if m and l[0] == '2':
            sums[m[8]] = [m[1], m[2], re.sub(r'\+(\d+)', ' +\\1\u202fd', m[3]), m[4], m[5], m[6], m[7]]
    return said, sums


def run(p):
    p.fresh()
    names = sorted({n for n in open(os.path.join(IGC, 'args')).read().split() if os.path.isfile(os.path.join(IGC, 'data', n))})
    said, sums = told()
    p.many([os.path.join(IGC, 'data', n) for n in names])
    rows = {r[0]: r[1:] for r in p.rows()}
    p.same('every file', sorted(rows), names)
    tracks = open(os.path.join(IGC, 'tracks')).read()
    for n in names:
        words = said[n]
        p.flight(os.path.join(IGC, 'data', n))
        if words[0].startswith('REFUSED'):
            p.same(f'{n} in the table', rows[n], ['✕' + words[0]])
            p.same(f'{n} in words', p.js("return document.querySelector('#flight .meaning').textContent"), words[0])
            p.same(f'{n} quoted', p.js("return document.querySelector('#flight .quote')?.textContent ?? ''").rstrip('\n'), '\n'.join(words[1:]).rstrip('\n'))
            continue
        p.same(f'{n} in the table', rows[n][:8], sums[n] + ['not signed' if 'not signed' in words[0] else 'signed'])
        p.same(f'{n} is accepted', p.text('verdict-title'), '✓Accepted')
        lines = p.saved(n[:-4] + '.csv', lambda: p.click('save-csv')).decode().split('\n')[1:-1]
        want = [t.split(' ') for t in re.search(rf'== {n}\n((?:\d.*\n)+)', tracks)[1].split('\n')[:-1]]
        p.same(f'{n}: its track', [re.sub(r'^[^T]*T([^Z]*)Z', '\\1', l).split(',') for l in lines], [t[2:] for t in want])
