"""A headless Chromium to try pages in, by its debugging protocol over two pipes. It needs the system's `chromium` and nothing else."""
import base64
import json
import os
import select
import shutil
import subprocess
import tempfile
import time

NAMES = ('chromium', 'chromium-browser', 'google-chrome')
FLAGS = ['--headless=new', '--no-sandbox', '--disable-gpu', '--no-first-run', '--disable-extensions', '--disable-background-networking',
         '--hide-scrollbars', '--remote-debugging-pipe']
CODES = {'ArrowLeft': 37, 'ArrowUp': 38, 'ArrowRight': 39, 'ArrowDown': 40, 'Home': 36, 'End': 35, 'PageUp': 33, 'PageDown': 34}


def program():
    """The browser's file, or None."""
    return next((found for found in map(shutil.which, NAMES) if found), None)


class Fault(Exception):
    """The browser did not do what was asked."""


class Browser:
    """A browser with one tab. Of the page that was opened last `faults` has the errors of its console, and `asked` each address that it asked for."""

    def __init__(self, width=1440, height=900):
        self.room = tempfile.mkdtemp(prefix='page-browser-')
        to_browser, out = os.pipe()
        inward, from_browser = os.pipe()
        # (the browser reads from descriptor 3 and writes to 4)
        self.process = subprocess.Popen(['bash', '-c', f'exec "$@" 3<&{to_browser} 4>&{from_browser}', 'browser', program(), *FLAGS,
                                         f'--user-data-dir={self.room}', 'about:blank'],
                                        pass_fds=(to_browser, from_browser), stdout=subprocess.DEVNULL, stderr=subprocess.DEVNULL)
        os.close(to_browser)
        os.close(from_browser)
        self.out, self.inward, self.rest, self.count, self.faults, self.asked, self.tab = out, inward, b'', 0, [], [], None
        target = next(it for it in self.ask('Target.getTargets')['targetInfos'] if it['type'] == 'page')
        self.tab = self.ask('Target.attachToTarget', targetId=target['targetId'], flatten=True)['sessionId']
        for part in ('Page', 'Runtime', 'Log', 'Network'):
            self.ask(f'{part}.enable')
        self.size(width, height)

    def message(self):
        """The next message of the browser."""
        while b'\0' not in self.rest:
            if not select.select([self.inward], [], [], 600)[0]:
                raise Fault('the browser says nothing')
            data = os.read(self.inward, 1 << 20)
            if not data:
                raise Fault('the browser has ended')
            self.rest += data
        whole, _, self.rest = self.rest.partition(b'\0')
        return json.loads(whole)

    def ask(self, method, **words):
        """Asks the browser for something, and gives its answer."""
        self.count += 1
        asked = {'id': self.count, 'method': method, 'params': words, **({'sessionId': self.tab} if self.tab else {})}
        os.write(self.out, json.dumps(asked).encode() + b'\0')
        while True:
            message = self.message()
            if message.get('id') == self.count:
                if 'error' in message:
                    raise Fault(f'{method}: {message["error"]["message"]}')
                return message['result']
            self.note(message)

    def note(self, message):
        """Keeps what an event says."""
        what, words = message.get('method'), message.get('params', {})
        if what == 'Runtime.exceptionThrown':
            details = words['exceptionDetails']
            self.faults.append(details.get('exception', {}).get('description', details['text']))
        elif what == 'Log.entryAdded' and words['entry']['level'] in ('error', 'warning'):
            self.faults.append(words['entry']['text'])
        elif what == 'Runtime.consoleAPICalled' and words['type'] in ('error', 'warning', 'assert'):
            self.faults.append(' '.join(str(it.get('value')) for it in words['args']))
        elif what == 'Network.requestWillBeSent':
            self.asked.append(words['request']['url'])

    def open(self, path, after=''):
        """Opens a file, and waits until it is there."""
        self.ask('Page.navigate', url='about:blank')
        self.wait('location.href === "about:blank"')
        self.faults, self.asked = [], []
        self.ask('Page.navigate', url=f'file://{path}{after}')
        self.wait('location.protocol === "file:" && document.readyState === "complete"')

    def wait(self, script):
        """Waits, for at most five minutes, until an expression in the page is true."""
        end = time.monotonic() + 300
        while not self.value(script):
            if time.monotonic() > end:
                raise Fault(f'waited five minutes for {script}')
            time.sleep(0.02)

    def value(self, script):
        """The value of an expression in the page."""
        told = self.ask('Runtime.evaluate', expression=script, returnByValue=True, awaitPromise=True)
        if 'exceptionDetails' in told:
            raise Fault(told['exceptionDetails'].get('exception', {}).get('description', 'the expression failed'))
        return told['result'].get('value')

    def press(self, key):
        """Presses a key."""
        for kind in ('rawKeyDown', 'keyUp'):
            self.ask('Input.dispatchKeyEvent', type=kind, key=key, code=key, windowsVirtualKeyCode=CODES.get(key, 0))

    def size(self, width, height, scale=1):
        """Gives the window a size."""
        self.ask('Emulation.setDeviceMetricsOverride', width=width, height=height, deviceScaleFactor=scale, mobile=False)

    def scheme(self, name):
        """Chooses light or dark."""
        wanted = {'prefers-color-scheme': name, 'prefers-reduced-motion': 'reduce'}
        self.ask('Emulation.setEmulatedMedia', features=[{'name': feature, 'value': value} for feature, value in wanted.items()])

    def picture(self, path):
        """Writes a picture of the window, as PNG."""
        data = self.ask('Page.captureScreenshot', format='png')['data']
        path.write_bytes(base64.b64decode(data))

    def close(self):
        """Ends the browser."""
        try:
            self.tab = None
            self.ask('Browser.close')
            self.process.wait(60)
        except (Fault, OSError, subprocess.TimeoutExpired):
            self.process.kill()
            self.process.wait()
        os.close(self.out)
        os.close(self.inward)
        shutil.rmtree(self.room, ignore_errors=True)
