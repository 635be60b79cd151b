"""A headless Chromium that a test drives over a pipe, by the DevTools protocol, with the standard library alone."""
import json
import os
import shutil
import signal
import subprocess
import tempfile

NAMES = ('chromium', 'chromium-browser', 'google-chrome', 'chrome')
SECONDS = 20  # after which an answer isn't waited for
FLAGS = ('--headless=new', '--no-sandbox', '--disable-gpu', '--disable-dev-shm-usage', '--no-first-run',
         '--hide-scrollbars', '--disable-extensions', '--disable-background-networking', '--remote-debugging-pipe')


def found():
    """The path of a Chromium, or None where there isn't one."""
    return next((path for name in NAMES if (path := shutil.which(name))), None)


class Browser:
    """One page of a Chromium of its own, which lives as long as the block does."""

    def __enter__(self):
        self._profile = tempfile.TemporaryDirectory(ignore_cleanup_errors=True)
        (to_read, self._to), (self._from, to_write) = os.pipe(), os.pipe()
        self._process = subprocess.Popen(
            ['/bin/sh', '-c', f'exec "$@" 3<&{to_read} 4>&{to_write}', 'sh', found(), *FLAGS,
             f'--user-data-dir={self._profile.name}', 'about:blank'],
            pass_fds=(to_read, to_write), stdout=subprocess.DEVNULL, stderr=subprocess.DEVNULL, start_new_session=True)
        os.close(to_read)
        os.close(to_write)
        self._number, self._bytes, self._session, self.events = 0, b'', None, []
        targets = self.call('Target.getTargets')['targetInfos']
        page = next(target for target in targets if target['type'] == 'page')
        self._session = self.call('Target.attachToTarget', targetId=page['targetId'], flatten=True)['sessionId']
        for domain in ('Page', 'Runtime', 'Network'):
            self.call(f'{domain}.enable')
        return self

    def __exit__(self, *_):
        os.close(self._to)
        try:
            self._process.wait(5)
        except subprocess.TimeoutExpired:
            os.killpg(self._process.pid, signal.SIGKILL)
            self._process.wait()
        os.close(self._from)
        self._profile.cleanup()

    def _message(self):
        """The next message that the browser sends."""
        while b'\0' not in self._bytes:
            part = os.read(self._from, 1 << 16)
            if not part:
                raise RuntimeError('the browser has ended')
            self._bytes += part
        message, _, self._bytes = self._bytes.partition(b'\0')
        return json.loads(message)

    def call(self, method, **parameters):
        """The result of a method. Events that come meanwhile are kept."""
        self._number += 1
        request = {'id': self._number, 'method': method, 'params': parameters}
        if self._session:
            request['sessionId'] = self._session
        os.write(self._to, json.dumps(request).encode() + b'\0')
        while (message := self._message()).get('id') != self._number:
            self.events.append(message)
        if 'error' in message:
            raise RuntimeError(f'{method}: {message["error"]["message"]}')
        return message['result']

    def wait_for(self, method):
        """Waits for an event of this name, from now on."""
        while (message := self._message()).get('method') != method:
            self.events.append(message)

    def open(self, url):
        """Opens a page, and waits until it is loaded."""
        self.call('Page.navigate', url='about:blank')
        self.wait_for('Page.loadEventFired')
        self.call('Page.navigate', url=url)
        self.wait_for('Page.loadEventFired')

    def value(self, expression):
        """The value of an expression of JavaScript, waited for where it is a promise."""
        result = self.call('Runtime.evaluate', expression=expression, returnByValue=True, awaitPromise=True)
        if 'exceptionDetails' in result:
            raise RuntimeError(result['exceptionDetails']['exception'].get('description', expression))
        return result['result'].get('value')

    def press(self, key):
        """Presses and lets go a key, named as in JavaScript."""
        text = {'Enter': '\r', ' ': ' '}.get(key, '')
        code = {'Enter': 13, 'Escape': 27, 'ArrowLeft': 37, 'ArrowUp': 38, 'ArrowRight': 39, 'ArrowDown': 40,
                'Home': 36, 'End': 35, 'Tab': 9, ' ': 32}[key]
        for kind in ('keyDown', 'keyUp'):
            self.call('Input.dispatchKeyEvent', type=kind, key=key, code='Space' if key == ' ' else key, text=text,
                      windowsVirtualKeyCode=code)
