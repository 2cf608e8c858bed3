"""The build: the same bytes once more, with nothing of this machine in them, and a sum by which an old page is known."""
import json, os, re, subprocess

WEB = os.path.dirname(os.path.dirname(os.path.dirname(os.path.abspath(__file__))))


def run(p):
    again = os.path.join(p.saved_in, 'again.html')
    subprocess.run([os.path.join(WEB, 'build')], env={**os.environ, 'OUT': again, 'TZ': 'Asia/Tokyo', 'LC_ALL': 'C'}, cwd='/', check=True, stdout=subprocess.DEVNULL)
    page = open(p.page, 'rb').read()
    p.hold('the same bytes', open(again, 'rb').read() == page)
    own = [w for w in [os.path.dirname(WEB), '/usr/share', os.path.expanduser('~') + '/'] if w.encode() in page.replace(b'/usr/share/common-licenses', b'')]
    p.same('nothing of this machine', own, [])
    sums = json.loads(re.search(rb'id="sums-data">([^<]*)<', page)[1])
    p.hold('two sums', all(re.fullmatch('[0-9a-f]{64}', sums[k]) for k in ('sources', 'module')), sums)
    p.same('no address but those of names', sorted(set(re.findall(rb'https?://[\w.]+', re.sub(rb'(?s)id="licence-data">.*?</script>', b'', page)))),
           [b'http://www.topografix.com', b'http://www.w3.org', b'https://leafletjs.com'])
