"""Firefox by its own remote protocol, Marionette, since Debian has no geckodriver: a message is its length, a colon, and JSON."""
import base64, json, os, shutil, socket, subprocess, tempfile, time

PREFERENCES = {'browser.shell.checkDefaultBrowser': False, 'datareporting.policy.dataSubmissionEnabled': False, 'app.update.enabled': False, 'intl.accept_languages': 'en-GB, en'}


class Firefox:
    def __init__(self):
        self.profile, self.received, self.count = tempfile.mkdtemp(), b'', 0
        with socket.socket() as free:
            free.bind(('127.0.0.1', 0))
            port = free.getsockname()[1]
        with open(os.path.join(self.profile, 'user.js'), 'w') as w:
            for k, v in {**PREFERENCES, 'marionette.port': port}.items():
                w.write(f'user_pref({json.dumps(k)}, {json.dumps(v)});\n')
        words = ['firefox-esr', '--headless', '--marionette', '--no-remote', '--profile', self.profile]
        self.process = subprocess.Popen(words, stdout=subprocess.DEVNULL, stderr=subprocess.DEVNULL, env={**os.environ, 'HOME': self.profile})
        self.socket = self.connect(port)
        self.read()
        self.version = self.ask('WebDriver:NewSession', {})['capabilities']['browserVersion']

    @staticmethod
    def connect(port):
        for _ in range(400):
            try:
                return socket.create_connection(('127.0.0.1', port))
            except OSError:
                time.sleep(0.1)
        raise OSError('Firefox does not answer')

    def close(self):
        try:
            self.ask('Marionette:Quit', {'flags': ['eForceQuit']})
            self.process.wait(20)
        except (OSError, subprocess.TimeoutExpired):
            self.process.kill()
        shutil.rmtree(self.profile, ignore_errors=True)

    def more(self):
        data = self.socket.recv(65536)
        if not data:
            raise OSError('Firefox is gone')
        self.received += data

    def read(self):
        while b':' not in self.received:
            self.more()
        length = int(self.received.split(b':', 1)[0])
        start = self.received.index(b':') + 1
        while len(self.received) < start + length:
            self.more()
        message, self.received = self.received[start:start + length], self.received[start + length:]
        return json.loads(message)

    def ask(self, name, words):
        self.count += 1
        message = json.dumps([0, self.count, name, words]).encode()
        self.socket.sendall(b'%d:' % len(message) + message)
        _, _, error, value = self.read()
        if error:
            raise RuntimeError(error['message'])
        return value['value'] if isinstance(value, dict) and 'value' in value else value

    def go(self, url):
        self.ask('WebDriver:Navigate', {'url': 'about:blank'})
        self.ask('WebDriver:Navigate', {'url': url})

    def js(self, code, *words):
        return self.ask('WebDriver:ExecuteScript', {'script': code, 'args': list(words)})

    def later(self, code):
        return self.ask('WebDriver:ExecuteAsyncScript', {'script': code, 'args': []})

    def text(self, i):
        return self.js("return document.getElementById(arguments[0])?.textContent ?? null", i)

    def choose(self, i, *files):
        e = self.ask('WebDriver:FindElement', {'using': 'css selector', 'value': '#' + i})
        self.ask('WebDriver:ElementSendKeys', {'id': next(iter(e.values())), 'text': '\n'.join(files)})

    def wait(self, f, seconds=30):
        end = time.time() + seconds
        while time.time() < end:
            if f():
                return
            time.sleep(0.05)
        raise TimeoutError('Firefox')

    def pdf(self, file):
        page = {'width': 21.0, 'height': 29.7}
        data = self.ask('WebDriver:Print', {'page': page, 'margin': {k: 1 for k in ('top', 'bottom', 'left', 'right')}, 'shrinkToFit': False})
        open(file, 'wb').write(base64.b64decode(data))
        return file
