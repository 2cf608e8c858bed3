"""Likely slips, each of which a group of tests must see: slips.py data-directory [number..]. Each is an edit of a copy of web/, built, and tried by that group alone."""
import os, shutil, subprocess, sys, tempfile

WEB = os.path.dirname(os.path.dirname(os.path.abspath(__file__)))
ROOT = os.path.dirname(WEB)
data = os.path.abspath(sys.argv[1])
EDITS = [
    ('a peak is lost by thinning', 'speed', 'src/parts/thin.js', 'if (v > hi || hi !== hi)', 'if (hi !== hi)'),
    ('a signature is judged', 'one_flight', 'src/texts/en.js', 'Signed: has a G code', 'Valid signature'),
    ('the network is let in', 'policy', 'make/build.mjs', "\"connect-src 'none'\", \"img-src 'none'\"", "'connect-src *', 'img-src *'"),
    ('trusted types are forgotten', 'policy', 'src/parts/trust.js', "if (s.includes('<')) throw new TypeError('markup');", ''),
    ('latitude for longitude in the CSV', 'one_flight', 'src/reading/export.js', 'u64[8 * i + 4], u8[o + 40], u8[o + 41]', 'u64[8 * i + 2], u8[o + 24], u8[o + 25]'),
    ('every L line is an evening note', 'one_flight', 'src/reading/flight.js', 'linesOf(kinds, KIND.NOTE, SHOWN)', 'linesOf(kinds, KIND.L, SHOWN)'),
    ('V fixes are counted as A', 'one_flight', 'src/reading/track.js', 'u8[o + 48] === VALID ? 1 : 0', '1'),
    ('a text of a file as markup', 'one_flight', 'src/parts/dom.js', 'e.append(c);', "typeof c === 'string' && c.includes('<') ? e.append(document.createRange().createContextualFragment(c)) : e.append(c);"),
    ('a column without its numbers', 'one_flight', 'src/library/file.js', 'high[k + 1] === -2147483648 && low[k] === 0 ? NaN', 'high[k + 1] === 0 ? NaN'),
    ('small buttons', 'sizes', 'src/style/base.css', 'min-height: 48px; min-width: 48px;', 'min-height: 30px; min-width: 30px;'),
    ('an empty barogram on paper', 'sheet', 'src/views/flight.js', "const restore = forPaper(this.box.querySelectorAll('canvas'));", "const restore = () => {}; for (const c of this.box.querySelectorAll('canvas')) c.width = 0;"),
    ('a sheet of two pages', 'sheet', 'src/views/flight.js', 'Math.min(1, SHEET / this.box.scrollHeight)', '1.2'),
    ('the sheet does not say that the G code was not verified', 'sheet', 'src/views/sheet.js', "el('strong', null, t('sheetG'))", "''"),
    ('a claim by the usual check', 'sheet', 'src/views/sheet.js', 'f.strict ? firstWords(f.strict) : ', ''),
    ('the day is forgotten', 'one_flight', 'src/parts/format.js', 'day > 0 ?', 'day > 9 ?'),
    ('a sort the wrong way', 'many', 'src/views/rows.js', 'a.v < b.v ? -sign : a.v > b.v ? sign', 'a.v < b.v ? sign : a.v > b.v ? -sign'),
    ('a formula in the CSV', 'many', 'src/views/rows.js', "`'${v}`", 'v'),
    ('a search that finds any word', 'many', 'src/views/rows.js', 'words.every(', 'words.length === 0 || words.some('),
    ('a reading that cannot be stopped', 'many', 'src/parts/pool.js', 'this.waiting = this.waiting.filter(j => j.group !== group);\n    for (const j of gone) j.failed(why);', ''),
    ('a merge that cannot be called off', 'merge', 'src/parts/pool.js', 'this.dismiss(h, why)', 'void h'),
    ('a gain without its order', 'gain', 'src/parts/gain.js', 'inOrder: low < high', 'inOrder: true'),
    ('another sphere', 'gain', 'src/parts/sphere.js', '6371000', '6378137'),
    ('a flat earth', 'gain', 'src/parts/sphere.js', 'Math.atan2(Math.hypot(east, north), along)', 'Math.hypot(a - b, l * Math.cos(a))'),
    ('the greatest gain of a fall', 'gain', 'src/parts/gain.js', 'if (!(heights[lowest] <= h)) lowest = i;', 'if (!(heights[lowest] >= h)) lowest = i;'),
    ('a shelf that is not packed', 'shelf', 'src/reading/shelf.js', 'shelf.pack() : null', 'null : null'),
    ('a shelf saved as it was', 'shelf', 'src/views/shelf.js', 'this.shelf = new Blob([r.bytes]);', 'this.shelf ??= new Blob([r.bytes]);'),
    ('a shelf given up unasked', 'shelf', 'src/views/shelf.js', 'if (this.unsaved && !confirm(t(\'dropChanges\'))) return;', ''),
    ('a refusal with its neighbour\'s words', 'hostile', 'src/library/hive.js', "BigInt(length), number, line, byte,", "BigInt(length), number, line, byte + 1,"),
    ('an accepted file is told as refused', 'hostile', 'src/views/rows.js', "r.refusal ? firstWords(r.refusal) : t('acceptedWord')", "firstWords(r.refusal ?? { text: 'REFUSED' })"),
    ('a choice without a name', 'keyboard', 'src/views/flights.js', "'aria-label': t('which')", "'data-name': t('which')"),
    ('the focus is lost after sorting', 'keyboard', 'src/views/flights.js', ' byId(`sort-${f.key}`).focus();', ''),
    ('a German text without its number', 'languages', 'src/texts/de.js', "copyNotes: 'Abendnotizen ({n})'", "copyNotes: 'Abendnotizen'"),
    ('English for Germans', 'languages', 'src/texts/texts.js', '...(globalThis.navigator?.languages ?? [])', "'en'"),
    ('work on the page itself', 'speed', 'src/views/flight.js', 'this.show(f, file);\n', 'this.show(f, file);\n      for (const end = performance.now() + 1100; performance.now() < end;);\n'),
]
missed, chosen = [], [int(w) for w in sys.argv[2:]] or range(len(EDITS))
for k in chosen:
    name, group, file, old, new = EDITS[k]
    with tempfile.TemporaryDirectory() as scratch:
        work = os.path.join(scratch, 'web')
        shutil.copytree(WEB, work)
        os.symlink(os.path.join(ROOT, 'target'), os.path.join(scratch, 'target'))
        os.symlink(os.path.join(ROOT, 'tests'), os.path.join(scratch, 'tests'))
        path = os.path.join(work, file)
        text = open(path).read()
        assert old in text, (k, name)
        open(path, 'w').write(text.replace(old, new))
        page = os.path.join(scratch, 'page.html')
        subprocess.run([os.path.join(work, 'build')], env={**os.environ, 'OUT': page}, check=True, stdout=subprocess.DEVNULL)
        r = subprocess.run([sys.executable, os.path.join(work, 'tests', 'run.py'), page, data, group], capture_output=True, text=True)
        seen = [l for l in r.stdout.split('\n') if l.startswith('FAILED')] or r.stderr.strip().split('\n')[-1:]
        print(k, 'seen  ' if r.returncode else 'MISSED', name, '|', seen[0][:110] if seen else '', flush=True)
        if not r.returncode:
            missed.append(name)
print(f'web/test --slips: {len(chosen) - len(missed)} of {len(chosen)} seen')
sys.exit(1 if missed else 0)
