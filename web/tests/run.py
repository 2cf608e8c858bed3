"""Runs the groups of the browser's tests: run.py page.html data-directory [group..]. A line a group, then the figures, then the last line."""
import importlib, os, sys, time

sys.path.insert(0, os.path.dirname(os.path.abspath(__file__)))
from browser import Page

GROUPS = ['built', 'policy', 'one_flight', 'gain', 'sheet', 'many', 'merge', 'shelf', 'library_files', 'hostile', 'keyboard', 'sizes', 'languages', 'speed', 'firefox']
page, data = map(os.path.abspath, sys.argv[1:3])
p = Page(page, data)
try:
    for name in sys.argv[3:] or GROUPS:
        before, bad, t0 = p.passed, len(p.failed), time.time()
        group = importlib.import_module('groups.' + name)
        try:
            group.run(p)
        except Exception as e:  # a group that falls over is a failure, and the next begins anew
            p.hold(f'{name} fell over', False, f'{type(e).__name__}: {str(e).splitlines()[0] if str(e) else ""} at line {e.__traceback__.tb_next.tb_lineno if e.__traceback__.tb_next else "?"}')
        p.drain()
        p.same(f'{name}: no word on the console', p.noise, [])
        p.hold(f'{name}: no network at all', p.asked <= {'file', 'blob', 'data', 'about'}, p.asked)
        p.noise.clear()
        print(f'web/test: {name}: {p.passed - before} passed, {len(p.failed) - bad} failed, {time.time() - t0:.1f} s: {group.__doc__.split(":")[0].strip()}', flush=True)
finally:
    p.close()
if not sys.argv[3:]:
    for k, v in p.figures.items():
        print(f'web/test: {k}: {v}')
print(f'web/test: {p.passed} passed, {len(p.failed)} failed')
sys.exit(1 if p.failed else 0)
