"""The page in Chromium, opened from file:// and looked at as a person would: what every group of tests uses. Needs Debian's python3-selenium, chromium and chromium-driver."""
import base64, glob, json, os, shutil, subprocess, tempfile, time
from selenium import webdriver
from selenium.webdriver.chrome.service import Service
from selenium.webdriver.common.by import By
from selenium.webdriver.support.ui import WebDriverWait

COLOURED = """const c = [...arguments[0].querySelectorAll('canvas')], hex = arguments[1];
const [r, g, b] = [1, 3, 5].map(k => parseInt(hex.slice(k, k + 2), 16)); let n = 0, top = 1e9;
for (const k of c) { if (!k.width || !k.height) continue; const w = k.width, a = k.getContext('2d').getImageData(0, 0, w, k.height).data;
  for (let i = 0; i < a.length; i += 4) if (a[i + 3] > 200 && Math.abs(a[i] - r) + Math.abs(a[i + 1] - g) + Math.abs(a[i + 2] - b) < 24) { n++; top = Math.min(top, Math.floor(i / 4 / w)); } }
return [n, top];"""


class Page:
    def __init__(self, page, data):
        self.page, self.data = page, data
        self.expected = json.load(open(os.path.join(data, 'expected.json')))
        self.saved_in = tempfile.mkdtemp()
        self.passed, self.failed, self.figures = 0, [], {}
        self.noise, self.asked = [], set()
        options = webdriver.ChromeOptions()
        options.binary_location = shutil.which('chromium')
        for a in ['--headless=new', '--disable-dev-shm-usage', '--disable-gpu', '--force-device-scale-factor=1', '--lang=en',
            '--enable-precise-memory-info'] + (['--no-sandbox'] if os.geteuid() == 0 else []):
            options.add_argument(a)
        options.set_capability('goog:loggingPrefs', {'browser': 'ALL', 'performance': 'ALL'})
        self.d = webdriver.Chrome(service=Service(shutil.which('chromedriver')), options=options)
        self.cdp, self.js = self.d.execute_cdp_cmd, self.d.execute_script
        self.cdp('Browser.setDownloadBehavior', {'behavior': 'allow', 'downloadPath': self.saved_in})

    def close(self):
        self.d.quit()
        shutil.rmtree(self.saved_in)

    # ---- assertions

    def hold(self, what, good, seen=''):
        if good:
            self.passed += 1
        else:
            self.failed.append(what)
            print('FAILED', what, str(seen)[:1200], flush=True)

    def same(self, what, seen, want):
        self.hold(what, seen == want, f'saw {seen!r}, want {want!r}')

    # ---- the page

    def fresh(self, width=1194, height=834, mobile=False, scale=1, words=''):
        """The page opened anew, in a window of a size."""
        self.drain()
        self.cdp('Emulation.setDeviceMetricsOverride', {'width': width, 'height': height, 'deviceScaleFactor': scale, 'mobile': mobile})
        self.cdp('Emulation.setTouchEmulationEnabled', {'enabled': mobile, 'maxTouchPoints': 5})
        self.d.get('about:blank')
        self.d.get('file://' + self.page + words)
        self.drain()

    def drain(self):
        for l in self.d.get_log('browser'):
            if 'willReadFrequently' not in l['message']:  # that is this test, which looks at pixels
                self.noise.append(l['message'])
        for l in self.d.get_log('performance'):
            m = json.loads(l['message'])['message']
            if m['method'] == 'Network.requestWillBeSent':
                self.asked.add(m['params']['request']['url'].split(':')[0])

    def path(self, *names):
        return os.path.join(self.data, *names)

    def by(self, i):
        return self.d.find_element(By.ID, i)

    def all(self, css):
        return self.d.find_elements(By.CSS_SELECTOR, css)

    def text(self, i):
        return self.js("return document.getElementById(arguments[0])?.textContent ?? null", i)

    def status(self):
        return self.text('status')

    def wait(self, f, seconds=30):
        return WebDriverWait(self.d, seconds, 0.02).until(lambda _: f())

    def click(self, i):
        self.js("document.getElementById(arguments[0]).click()", i)

    def drop(self, files):
        """A real drop of files, as the browser makes it."""
        data = {'items': [], 'files': files, 'dragOperationsMask': 1}
        for kind in ['dragEnter', 'dragOver', 'drop']:
            self.cdp('Input.dispatchDragEvent', {'type': kind, 'x': 300, 'y': 300, 'data': data})

    def flight(self, file, dropped=True):
        """A file opened as one flight; the milliseconds until it was painted."""
        self.js("document.getElementById('flight').dataset.ms = ''; document.getElementById('tab-one').click()")
        self.drop([file]) if dropped else self.by('pick-one').send_keys(file)
        self.wait(lambda: self.js("return document.getElementById('flight').dataset.ms"))
        return int(self.js("return document.getElementById('flight').dataset.ms"))

    def many(self, files):
        self.js("document.getElementById('flights').dataset.ms = ''; document.getElementById('tab-many').click()")
        self.drop(files)
        self.wait(lambda: self.js("return document.getElementById('flights').dataset.ms"), 60)
        return int(self.js("return document.getElementById('flights').dataset.ms"))

    def rows(self, table='flights-table'):
        return self.js("return [...document.querySelectorAll(`#${arguments[0]} tbody tr`)].map(r => [...r.cells].map(c => c.textContent))", table)

    def saved(self, name, act):
        p = os.path.join(self.saved_in, name)
        if os.path.exists(p):
            os.remove(p)
        act()
        self.wait(lambda: os.path.exists(p) and not glob.glob(os.path.join(self.saved_in, '*.crdownload')))
        return open(p, 'rb').read()

    def facts(self, name, e):
        for k, i in [('date', 'f-date'), ('duration', 'f-duration')]:
            self.same(f'{name}: {k}', self.text(i), e[k])
        self.same(f'{name}: first', self.text('f-first') + ' UTC', e['first'])
        self.same(f'{name}: last', self.text('f-last') + ' UTC', e['last'])
        for k in ['highest', 'lowest', 'gnss']:
            self.same(f'{name}: {k}', self.text(f'f-{k}'), f"{e[k]}\u202fm")
        self.same(f'{name}: fixes', ''.join(c for c in self.text('f-fixes').split(' (')[0] if c.isdigit()), str(e['fixes']))

    # ---- pictures

    def coloured(self, i, colour):
        """How many pixels of an element's canvases have a colour, and the uppermost row of one."""
        return self.js(COLOURED, self.by(i), colour)

    def variable(self, name):
        return self.js("return getComputedStyle(document.documentElement).getPropertyValue(arguments[0]).trim()", name)

    def shot(self, file, scale=1, clip=None, whole=False, colours=96):
        time.sleep(0.4)
        if whole:
            clip = [0, 0, *self.js("return [innerWidth, document.documentElement.scrollHeight]")]
        words = {'format': 'png', 'captureBeyondViewport': bool(whole or clip)}
        if clip or scale != 1:
            x, y, w, h = clip or [0, 0, *self.js("return [innerWidth, innerHeight]")]
            words['clip'] = {'x': x, 'y': y, 'width': w, 'height': h, 'scale': scale}
        open(file, 'wb').write(base64.b64decode(self.cdp('Page.captureScreenshot', words)['data']))
        if shutil.which('pngquant'):
            subprocess.run(['pngquant', '--force', '--output', file, str(colours), file], check=True)

    def pdf(self, name='sheet.pdf'):
        file = os.path.join(self.saved_in, name)
        open(file, 'wb').write(base64.b64decode(self.cdp('Page.printToPDF', {'preferCSSPageSize': True, 'printBackground': False})['data']))
        return file

    # ---- touch

    def touch(self, kind, *points):
        self.cdp('Input.dispatchTouchEvent', {'type': kind, 'touchPoints': [{'x': x, 'y': y} for x, y in points]})

    def middle(self, e):
        self.js("arguments[0].scrollIntoView({block: 'center'})", e)
        return self.js("const r = arguments[0].getBoundingClientRect(); return [r.x + r.width / 2, r.y + r.height / 2]", e)

    def tap(self, e):
        self.touch('touchStart', self.middle(e))
        self.touch('touchEnd')
        time.sleep(0.15)
