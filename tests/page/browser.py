"""A browser without a window, driven by its own remote protocol over two pipes: no driver, no port
and no package besides chromium."""
import base64
import fcntl
import json
import os
import select
import shutil
import subprocess
import tempfile
import time


def find():
    """The browser of this machine, or None."""
    named = os.environ.get('CHROMIUM')
    return named or next((path for path in map(shutil.which,
        ('chromium', 'chromium-browser', 'google-chrome')) if path), None)


class Browser:
    """One page of a browser. Events of interest are kept in `events`."""

    def __init__(self, path):
        self.home = tempfile.TemporaryDirectory()
        to_browser, self.out = os.pipe()
        self.into, from_browser = os.pipe()
        words = [path, '--headless=new', '--no-sandbox', '--disable-gpu', '--disable-dev-shm-usage', '--no-first-run',
            '--disable-extensions',
                 '--disable-background-networking', '--disable-component-update', '--disable-default-apps',
                 '--disable-sync',
                 '--disable-features=Translate,OptimizationHints', '--remote-debugging-pipe',
                 f'--user-data-dir={self.home.name}', 'about:blank']

        def lend():
            # The protocol's pipes are 3 and 4, where other ends of ours may stand.
            high = [fcntl.fcntl(pipe, fcntl.F_DUPFD, 10) for pipe in (to_browser, from_browser)]
            os.dup2(high[0], 3)
            os.dup2(high[1], 4)

        self.process = subprocess.Popen(words, preexec_fn=lend, close_fds=False, stdin=subprocess.DEVNULL,
            stdout=subprocess.DEVNULL, stderr=subprocess.DEVNULL)
        os.close(to_browser)
        os.close(from_browser)
        self.number, self.text, self.answers, self.events, self.session = 0, b'', {}, [], None
        target = next(one for one in self.send('Target.getTargets')['targetInfos'] if one['type'] == 'page')
        self.session = self.send('Target.attachToTarget', targetId=target['targetId'], flatten=True)['sessionId']
        for domain in ('Page', 'Runtime', 'Network', 'Log'):
            self.send(domain + '.enable')
        self.send('Emulation.setFocusEmulationEnabled', enabled=True)

    def close(self):
        try:
            self.send('Browser.close')
            self.process.wait(5)
        except (OSError, TimeoutError, subprocess.TimeoutExpired):
            self.process.kill()
            self.process.wait()
        os.close(self.out)
        os.close(self.into)
        shutil.rmtree(self.home.name, ignore_errors=True)

    def send(self, method, **params):
        self.number += 1
        message = {'id': self.number, 'method': method, 'params': params}
        if self.session:
            message['sessionId'] = self.session
        data, number = json.dumps(message).encode() + b'\0', self.number
        while data:
            data = data[os.write(self.out, data):]
        end = time.monotonic() + 60
        while number not in self.answers:
            self.read(end - time.monotonic())
        answer = self.answers.pop(number)
        if 'error' in answer:
            raise RuntimeError(f'{method}: {answer["error"]["message"]}')
        return answer['result']

    def read(self, seconds):
        """Takes what the browser says within some seconds."""
        if seconds <= 0 or not select.select([self.into], [], [], seconds)[0]:
            raise TimeoutError('the browser does not answer')
        self.text += os.read(self.into, 1 << 20)
        *whole, self.text = self.text.split(b'\0')
        for message in map(json.loads, whole):
            if 'id' in message:
                self.answers[message['id']] = message
            else:
                self.events.append(message)

    def evaluate(self, code, gesture=False):
        """The value of a JavaScript expression, awaited."""
        answer = self.send('Runtime.evaluate', expression=code, returnByValue=True, awaitPromise=True,
            userGesture=gesture)
        if 'exceptionDetails' in answer:
            details = answer["exceptionDetails"]
            raise AssertionError(f'{code[:200]}: {details.get("exception", {}).get("description", details["text"])}')
        return answer['result'].get('value')

    def wait(self, code, seconds=10):
        """Waits until an expression is true."""
        end = time.monotonic() + seconds
        while not self.evaluate(code):
            if time.monotonic() > end:
                raise AssertionError(f'not so within {seconds} s: {code}')
            time.sleep(0.02)

    def open(self, address):
        self.send('Page.navigate', url='about:blank')
        self.send('Page.navigate', url=address)
        self.wait('Boolean(globalThis.polgamirPage)')

    def size(self, width, height, touch=False):
        self.send('Emulation.setDeviceMetricsOverride', width=width, height=height, deviceScaleFactor=1, mobile=touch)
        self.send('Emulation.setTouchEmulationEnabled', enabled=touch)

    def scheme(self, name):
        self.send('Emulation.setEmulatedMedia', features=[{'name': 'prefers-color-scheme', 'value': name}])

    def key(self, key, code=0, text=None, modifiers=0):
        for kind in ('keyDown', 'keyUp'):
            more = {'text': text} if text and kind == 'keyDown' else {}
            self.send('Input.dispatchKeyEvent', type=kind, key=key, code=key, windowsVirtualKeyCode=code,
                modifiers=modifiers, **more)

    def type(self, text):
        self.send('Input.insertText', text=text)

    def click(self, x, y):
        for kind in ('mousePressed', 'mouseReleased'):
            self.send('Input.dispatchMouseEvent', type=kind, x=x, y=y, button='left', clickCount=1)

    def touch(self, x, y):
        self.send('Input.dispatchTouchEvent', type='touchStart', touchPoints=[{'x': x, 'y': y}])
        self.send('Input.dispatchTouchEvent', type='touchEnd', touchPoints=[])

    def picture(self, path, whole=True, most=6000):
        clip = {}
        if whole:
            size = self.send('Page.getLayoutMetrics')['cssContentSize']
            clip = {'captureBeyondViewport': True,
                'clip': {'x': 0, 'y': 0, 'width': size['width'], 'height': min(size['height'], most), 'scale': 1}}
        with open(path, 'wb') as file:
            file.write(base64.b64decode(self.send('Page.captureScreenshot', **clip)['data']))

    def paper(self, path):
        with open(path, 'wb') as file:
            file.write(base64.b64decode(self.send('Page.printToPDF', preferCSSPageSize=True,
                printBackground=True)['data']))
