"""A headless Chromium, driven by its DevTools over a pipe."""
import base64
import fcntl
import json
import os
import select
import shutil
import subprocess
import tempfile
import time


# So long a browser may take for an answer.
SECONDS = 240


class PageFault(Exception):
    """What a page or the browser refused."""


def find():
    """The path of a Chromium that starts here, or None where there is none."""
    for path in map(shutil.which, ('chromium', 'chromium-browser', 'google-chrome')):
        if path:
            try:
                Browser(path).close()
                return path
            except (PageFault, OSError):
                continue
    return None


class Browser:
    """One page of a browser of its own, with an empty profile."""

    def __init__(self, program):
        self.profile = tempfile.mkdtemp()
        asked, self.asking = os.pipe()
        self.answers, answering = os.pipe()
        high = [fcntl.fcntl(end, fcntl.F_DUPFD, 10) for end in (asked, answering)]

        def as_devtools():
            os.dup2(high[0], 3)
            os.dup2(high[1], 4)

        words = [program, '--headless=new', '--no-sandbox', '--disable-gpu', '--disable-dev-shm-usage', '--no-first-run', '--remote-debugging-pipe']
        # a test changes an address more often than somebody who clicks
        words += ['--disable-ipc-flooding-protection', '--user-data-dir=' + self.profile, '--force-device-scale-factor=1', 'about:blank']
        self.process = subprocess.Popen(words, preexec_fn=as_devtools, pass_fds=(3, 4), stdout=subprocess.DEVNULL, stderr=subprocess.DEVNULL)
        for end in (asked, answering, *high):
            os.close(end)
        self.number, self.rest, self.session, self.events = 0, b'', None, []
        target = self.call('Target.createTarget', url='about:blank')['targetId']
        self.session = self.call('Target.attachToTarget', targetId=target, flatten=True)['sessionId']
        self.call('Page.enable')
        self.call('Runtime.enable')

    def message(self):
        """The next message of the browser."""
        while b'\0' not in self.rest:
            if not select.select([self.answers], [], [], SECONDS)[0]:
                raise PageFault('the browser gives no answer')
            more = os.read(self.answers, 1 << 20)
            if not more:
                raise PageFault('the browser is gone')
            self.rest += more
        first, self.rest = self.rest.split(b'\0', 1)
        return json.loads(first)

    def call(self, method, **parameters):
        self.number += 1
        request = {'id': self.number, 'method': method, 'params': parameters}
        if self.session:
            request['sessionId'] = self.session
        text = json.dumps(request).encode() + b'\0'
        while text:
            text = text[os.write(self.asking, text):]
        while True:
            answer = self.message()
            if answer.get('id') == self.number:
                if 'error' in answer:
                    raise PageFault('%s: %s' % (method, answer['error']))
                return answer['result']
            self.events.append(answer)

    def wait(self, event):
        """Waits for an event that wasn't taken yet."""
        while True:
            for place, message in enumerate(self.events):
                if message.get('method') == event:
                    return self.events.pop(place)
            self.events.append(self.message())

    def value(self, expression):
        """The value of an expression in the page, after its promise."""
        answer = self.call('Runtime.evaluate', expression=expression, returnByValue=True, awaitPromise=True)
        if 'exceptionDetails' in answer:
            raise PageFault(json.dumps(answer['exceptionDetails'])[:600])
        return answer['result'].get('value')

    def open(self, path, address=''):
        """Opens a file; the seconds until it was loaded and drawn once."""
        self.call('Page.navigate', url='about:blank')
        self.wait('Page.loadEventFired')
        self.events = []
        started = time.monotonic()
        self.call('Page.navigate', url='file://' + os.path.abspath(path) + address)
        self.wait('Page.loadEventFired')
        self.value('new Promise((done) => requestAnimationFrame(() => requestAnimationFrame(() => done(1))))')
        return time.monotonic() - started

    def faults(self):
        """What the page's script threw since it was opened."""
        return [json.dumps(event['params']['exceptionDetails'])[:600] for event in self.events if event.get('method') == 'Runtime.exceptionThrown']

    def processor_seconds(self):
        """What the page's process took so far."""
        self.call('Performance.enable')
        return next(metric['value'] for metric in self.call('Performance.getMetrics')['metrics'] if metric['name'] == 'ProcessTime')

    def key(self, key, code):
        for kind in ('rawKeyDown', 'keyUp'):
            self.call('Input.dispatchKeyEvent', type=kind, key=key, code=key, windowsVirtualKeyCode=code)

    def width(self, width, height=900):
        self.call('Emulation.setDeviceMetricsOverride', width=width, height=height, deviceScaleFactor=1, mobile=False)

    def scheme(self, name):
        self.call('Emulation.setEmulatedMedia', features=[{'name': 'prefers-color-scheme', 'value': name}])

    def picture(self, path):
        with open(path, 'wb') as file:
            file.write(base64.b64decode(self.call('Page.captureScreenshot', format='png')['data']))

    def close(self):
        try:
            self.session = None
            self.call('Browser.close')
        except (PageFault, OSError):
            self.process.terminate()
        self.process.wait()
        shutil.rmtree(self.profile, ignore_errors=True)
