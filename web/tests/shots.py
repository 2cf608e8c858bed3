"""Takes the pictures of docs/page from the page as it is: shots.py page.html data-directory docs/page."""
import glob, os, subprocess, sys

sys.path.insert(0, os.path.dirname(os.path.abspath(__file__)))
from browser import Page

page, data, out = map(os.path.abspath, sys.argv[1:4])
os.makedirs(out, exist_ok=True)
p = Page(page, data)


def shot(name, scale, **more):
    p.shot(os.path.join(out, name + '.png'), scale, colours=48, **more)


try:
    p.fresh(1280, 800, True)
    p.flight(p.path('officer.igc'), dropped=False)
    p.js("const s = document.getElementById('cursor'); s.value = arguments[0]; s.dispatchEvent(new Event('input'))", p.expected['gain']['set']['low'])
    p.click('set-low')
    p.js("const s = document.getElementById('cursor'); s.value = arguments[0]; s.dispatchEvent(new Event('input'))", p.expected['gain']['set']['high'])
    p.click('set-high')
    shot('flight', 0.6, whole=True)
    pdf = p.pdf()
    subprocess.run(['pdftoppm', '-r', '68', '-png', '-singlefile', pdf, os.path.join(out, 'sheet')], check=True)
    subprocess.run(['pngquant', '--force', '--output', os.path.join(out, 'sheet.png'), '48', os.path.join(out, 'sheet.png')], check=True)
    p.flight(p.path('refused.igc'), dropped=False)
    shot('refused', 0.6, clip=[0, 0, 1280, 560])
    p.fresh(1440, 900)
    p.many(sorted(glob.glob(p.path('hundred', '*.igc'))))
    shot('many', 0.55)
    p.click('tab-merge')
    p.drop([p.path('copy1.igc'), p.path('copy2.igc')])
    p.wait(lambda: p.text('merge-now'))
    p.click('merge-now')
    p.wait(lambda: p.text('verdict-title-m'))
    shot('merge', 0.5, clip=[0, 0, 1440, 700])
    p.click('tab-shelf')
    p.drop([p.path('both.shelf')])
    p.wait(lambda: p.text('shelf-table'))
    shot('shelf', 0.5, clip=[0, 0, 1440, 520])
    p.fresh(390, 844, True, 2, '#lang=de')
    p.flight(p.path('officer.igc'), dropped=False)
    p.click('theme')
    shot('phone', 0.42, clip=[0, 0, 390, 1480])
finally:
    p.close()
