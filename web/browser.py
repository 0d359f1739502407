"""Drives browsers, with nothing but Python: Chromium by the DevTools protocol over pipes, Firefox by Marionette."""
from __future__ import annotations

import base64
import functools
import http.server
import json
import os
import select
import shutil
import socket
import struct
import subprocess
import threading
import time
import zlib
from collections.abc import Callable

# Seconds that an answer may take.
PATIENCE = 60


def found(*names) -> str | None:
    """The first of these programs that is there."""
    return next(filter(None, map(shutil.which, names)), None)


class Chromium:
    """A browser without a window. `requests` are the addresses that its pages and workers asked for, `errors` what they told
    of mistakes."""

    def __init__(self, folder: str, *flags):
        to_browser, from_browser = os.pipe(), os.pipe()
        words = [found('chromium', 'chromium-browser', 'google-chrome'), '--headless=new', '--remote-debugging-pipe',
                 f'--user-data-dir={folder}', '--no-first-run', '--hide-scrollbars', '--force-color-profile=srgb', '--lang=en',
                 '--disable-background-networking', *(['--no-sandbox'] if os.geteuid() == 0 else []), *flags, 'about:blank']
        # The protocol is spoken over the descriptors 3 and 4.
        pipes = f'exec "$@" 3<&{to_browser[0]} 4>&{from_browser[1]}'
        self.process = subprocess.Popen(['bash', '-c', pipes, '-', *words], pass_fds=(to_browser[0], from_browser[1]),
                                        stdout=subprocess.DEVNULL, stderr=subprocess.DEVNULL)
        os.close(to_browser[0])
        os.close(from_browser[1])
        self.out, self.into, self.rest, self.number = to_browser[1], from_browser[0], b'', 0
        self.requests, self.errors = [], []

    def close(self) -> None:
        try:
            self.call('Browser.close')
        except (OSError, EOFError):
            pass
        self.process.wait(PATIENCE)

    def send(self, method: str, session: str | None = None, **given) -> int:
        self.number += 1
        message = {'id': self.number, 'method': method, 'params': given, **({'sessionId': session} if session else {})}
        os.write(self.out, json.dumps(message).encode() + b'\0')
        return self.number

    def call(self, method: str, session: str | None = None, **given) -> dict:
        """Asks for something, and waits for the answer."""
        number, until = self.send(method, session, **given), time.monotonic() + PATIENCE
        while True:
            message = self.hear(until)
            if message.get('id') == number:
                if 'error' in message:
                    raise RuntimeError(f'{method}: {message["error"]["message"]}')
                return message['result']
            self.note(message)

    def hear(self, until: float) -> dict:
        while b'\0' not in self.rest:
            if not select.select([self.into], [], [], max(0, until - time.monotonic()))[0]:
                raise TimeoutError('the browser does not answer')
            more = os.read(self.into, 1 << 20)
            if not more:
                raise EOFError('the browser is gone')
            self.rest += more
        message, _, self.rest = self.rest.partition(b'\0')
        return json.loads(message)

    def note(self, message: dict) -> None:
        """Takes note of what a page or a worker does."""
        method, given = message.get('method'), message.get('params', {})
        if method == 'Target.attachedToTarget':
            for domain in ('Network', 'Runtime', 'Log'):
                self.send(f'{domain}.enable', given['sessionId'])
        elif method == 'Network.requestWillBeSent':
            self.requests.append(given['request']['url'])
        elif method == 'Runtime.exceptionThrown':
            self.errors.append(json.dumps(given['exceptionDetails'])[:400])
        elif method == 'Log.entryAdded' and given['entry']['level'] == 'error':
            self.errors.append(given['entry']['text'])


class Page:
    """A page of Chromium, so wide and so high."""

    def __init__(self, browser: Chromium, width: int = 1280, height: int = 900, is_dark: bool = False):
        self.browser = browser
        target = browser.call('Target.createTarget', url='about:blank')['targetId']
        self.session = browser.call('Target.attachToTarget', targetId=target, flatten=True)['sessionId']
        for domain in ('Page', 'Runtime', 'DOM', 'Network', 'Log'):
            self.call(f'{domain}.enable')
        self.call('Target.setAutoAttach', autoAttach=True, waitForDebuggerOnStart=False, flatten=True)
        self.size(width, height, is_dark)

    def call(self, method: str, **given) -> dict:
        return self.browser.call(method, self.session, **given)

    def size(self, width: int, height: int, is_dark: bool = False, scale: float = 1) -> None:
        self.call('Emulation.setDeviceMetricsOverride', width=width, height=height, deviceScaleFactor=scale, mobile=False)
        theme = {'name': 'prefers-color-scheme', 'value': 'dark' if is_dark else 'light'}
        self.call('Emulation.setEmulatedMedia', features=[theme])

    def js(self, expression: str):
        """The value of an expression in the page."""
        told = self.call('Runtime.evaluate', expression=expression, returnByValue=True, awaitPromise=True)
        if 'exceptionDetails' in told:
            raise RuntimeError(told['exceptionDetails'].get('exception', {}).get('description', 'an exception'))
        return told['result'].get('value')

    def until(self, expression: str, limit: float = PATIENCE) -> bool:
        """Whether an expression comes to be true in time."""
        end = time.monotonic() + limit
        while time.monotonic() < end:
            if self.js(f'Boolean({expression})'):
                return True
            time.sleep(0.03)
        return False

    def go(self, address: str) -> bool:
        self.call('Page.navigate', url=address)
        return self.until("document.documentElement?.dataset.ready === 'yes'")

    def node(self, selector: str) -> int:
        root = self.call('DOM.getDocument')['root']['nodeId']
        return self.call('DOM.querySelector', nodeId=root, selector=selector)['nodeId']

    def choose(self, selector: str, *paths) -> None:
        """Gives files to an input, as a hand does."""
        self.call('DOM.setFileInputFiles', nodeId=self.node(selector), files=list(paths))

    def drop(self, x: float, y: float, *paths) -> None:
        """Drops files, or folders, at a place."""
        data = {'items': [], 'files': list(paths), 'dragOperationsMask': 1}
        for kind in ('dragEnter', 'dragOver', 'drop'):
            self.call('Input.dispatchDragEvent', type=kind, x=x, y=y, data=data)

    def mouse(self, kind: str, x: float, y: float, **more) -> None:
        self.call('Input.dispatchMouseEvent', type=kind, x=x, y=y, **more)

    def click(self, x: float, y: float) -> None:
        for kind in ('mouseMoved', 'mousePressed', 'mouseReleased'):
            self.mouse(kind, x, y, button='none' if kind == 'mouseMoved' else 'left', clickCount=int(kind != 'mouseMoved'))

    def key(self, key: str, **more) -> None:
        text = {'text': key} if len(key) == 1 else {}
        self.call('Input.dispatchKeyEvent', type='keyDown', key=key, **text, **more)
        self.call('Input.dispatchKeyEvent', type='keyUp', key=key, **more)

    def shot(self, clip: dict) -> bytes:
        """A picture of a part of the page, as PNG."""
        how = {'format': 'png', 'captureBeyondViewport': True, 'clip': {**clip, 'scale': 1}}
        return base64.b64decode(self.call('Page.captureScreenshot', **how)['data'])


class Firefox:
    """A browser without a window, and a page in it."""

    def __init__(self, folder: str, name: str):
        with socket.socket() as free:
            free.bind(('127.0.0.1', 0))
            port = free.getsockname()[1]
        with open(os.path.join(folder, 'user.js'), 'w', encoding='utf-8') as file:
            file.write(f'user_pref("marionette.port", {port});\n')
        self.process = subprocess.Popen([name, '--headless', '--marionette', '--no-remote', '--profile', folder],
                                        stdout=subprocess.DEVNULL, stderr=subprocess.DEVNULL)
        self.number, self.rest = 0, b''
        self.socket = self.connected(port)
        self.receive()
        self.call('WebDriver:NewSession', capabilities={})
        self.call('WebDriver:SetTimeouts', script=1000 * PATIENCE, pageLoad=1000 * PATIENCE)

    def connected(self, port: int) -> socket.socket:
        until = time.monotonic() + PATIENCE
        while True:
            try:
                return socket.create_connection(('127.0.0.1', port), PATIENCE)
            except OSError:
                if time.monotonic() > until:
                    raise
                time.sleep(0.1)

    def receive(self):
        """The next message: its length in digits, a colon, and JSON."""
        while b':' not in self.rest:
            self.rest += self.more()
        length, _, self.rest = self.rest.partition(b':')
        while len(self.rest) < int(length):
            self.rest += self.more()
        message, self.rest = self.rest[:int(length)], self.rest[int(length):]
        return json.loads(message)

    def more(self) -> bytes:
        some = self.socket.recv(1 << 16)
        if not some:
            raise EOFError('the browser is gone')
        return some

    def call(self, method: str, **given):
        self.number += 1
        message = json.dumps([0, self.number, method, given]).encode()
        self.socket.sendall(str(len(message)).encode() + b':' + message)
        _, number, error, result = self.receive()
        if error:
            raise RuntimeError(f'{method}: {error["message"]}')
        assert number == self.number
        return result

    def go(self, address: str) -> bool:
        self.call('WebDriver:Navigate', url=address)
        return self.until("document.documentElement.dataset.ready === 'yes'")

    def js(self, expression: str):
        return self.call('WebDriver:ExecuteScript', script=f'return {expression}', args=[])['value']

    def until(self, expression: str, limit: float = PATIENCE) -> bool:
        end = time.monotonic() + limit
        while time.monotonic() < end:
            if self.js(f'Boolean({expression})'):
                return True
            time.sleep(0.05)
        return False

    def choose(self, selector: str, *paths) -> None:
        told = self.call('WebDriver:FindElement', using='css selector', value=selector)['value']
        self.call('WebDriver:ElementSendKeys', id=next(iter(told.values())), text='\n'.join(paths))

    def close(self) -> None:
        try:
            self.call('Marionette:Quit', flags=['eForceQuit'])
        except (OSError, EOFError, RuntimeError):
            pass
        self.process.wait(PATIENCE)


class Picture:
    """The pixels of a PNG file of 8 bits, without rows by turns: what browsers write."""

    def __init__(self, data: bytes):
        at, parts = 8, []
        while at < len(data):
            length, kind = struct.unpack('>I4s', data[at:at + 8])
            body = data[at + 8:at + 8 + length]
            if kind == b'IHDR':
                self.width, self.height, depth, colour, *_, turns = struct.unpack('>IIBBBBB', body)
                assert depth == 8 and colour in (2, 6) and not turns
                self.each = 3 if colour == 2 else 4
            parts += [body] if kind == b'IDAT' else []
            at += 12 + length
        self.rows = self.unfiltered(zlib.decompress(b''.join(parts)))

    def unfiltered(self, raw: bytes) -> list[bytearray]:
        length, rows, above = self.width * self.each, [], None
        for k in range(self.height):
            begin = k * (length + 1)
            row = bytearray(raw[begin + 1:begin + 1 + length])
            self.unfilter(raw[begin], row, above or bytearray(length))
            rows.append(row)
            above = row
        return rows

    def unfilter(self, kind: int, row: bytearray, above: bytearray) -> None:
        """Undoes the filter of a row (PNG, 9.2)."""
        each = self.each
        if kind == 2:
            row[:] = bytes((a + b) & 255 for a, b in zip(row, above))
            return
        for k in range(len(row) if kind else 0):
            left = row[k - each] if k >= each else 0
            corner = above[k - each] if k >= each else 0
            row[k] = (row[k] + (left if kind == 1 else (left + above[k]) // 2 if kind == 3
                                else nearest(left, above[k], corner))) & 255

    def at(self, x: float, y: float) -> tuple:
        """The colour of a pixel."""
        begin = int(x) * self.each
        return tuple(self.rows[int(y)][begin:begin + 3])

    def colours(self) -> int:
        """How many colours there are, up to a hundred."""
        seen = set()
        for row in self.rows[::4]:
            seen.update(zip(*(row[k::self.each] for k in range(3))))
            if len(seen) > 100:
                break
        return len(seen)


def nearest(left: int, up: int, corner: int) -> int:
    """The predictor of Paeth (PNG, 9.4)."""
    guess = left + up - corner
    return min((left, up, corner), key=lambda it: abs(guess - it))


def served(folder: str, act: Callable) -> list[str]:
    """The paths that are asked for of a server of a folder while something is done with its address."""
    asked = []

    class Handler(http.server.SimpleHTTPRequestHandler):
        def log_message(self, *words):
            asked.append(self.path)

    with http.server.ThreadingHTTPServer(('127.0.0.1', 0), functools.partial(Handler, directory=folder)) as server:
        threading.Thread(target=server.serve_forever, daemon=True).start()
        act(f'http://127.0.0.1:{server.server_address[1]}')
        server.shutdown()
    return asked
