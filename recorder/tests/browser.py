"""A headless browser for the trials of the page: Chromium, asked through its own pipe, so that no other package is wanted."""
from __future__ import annotations

import base64
import json
import os
import pathlib
import select
import shutil
import subprocess
import time
from typing import Any, Optional

from trying import LONG, NotTried, Room, Wrong

NAMES = ('chromium', 'chromium-browser', 'google-chrome')


class Browser:
    """A browser with one page, which ends with its room."""

    def __init__(self, room: Room, *words: str) -> None:
        command = next(filter(None, map(shutil.which, NAMES)), None)
        if command is None:
            raise NotTried('no browser here (Debian: chromium)')
        to, self.to = os.pipe()
        self.of, of = os.pipe()
        self.number, self.left = 0, b''
        self.said: list[dict[str, Any]] = []
        folder = room.folder / f'browser-{len(room.started)}'
        flags = [
            '--headless=new', '--no-sandbox', '--disable-gpu', '--disable-dev-shm-usage', '--no-first-run', '--mute-audio',
            '--disable-background-networking', '--disable-component-update', '--remote-debugging-pipe', '--hide-scrollbars',
            '--js-flags=--expose-gc', f'--user-data-dir={folder}', *words,
        ]

        # (it reads commands at 3 and writes answers at 4)
        self.child = room.start(
            ['bash', '-c', 'exec "$0" "$@" 3<&"$TO" 4>&"$OF"', command, *flags],
            pass_fds=(to, of), env=dict(os.environ, TO=str(to), OF=str(of)), stdin=subprocess.DEVNULL,
            stdout=subprocess.DEVNULL, stderr=subprocess.DEVNULL,
        )
        os.close(to)
        os.close(of)
        target = self.call('Target.createTarget', where=None, url='about:blank')['targetId']
        self.session = self.call('Target.attachToTarget', where=None, targetId=target, flatten=True)['sessionId']
        for domain in ('Page', 'Runtime', 'Network', 'Log'):
            self.call(f'{domain}.enable')

    def call(self, method: str, where: Optional[str] = '', **words: Any) -> dict[str, Any]:
        """What a command of the browser answers."""
        self.number += 1
        number, message = self.number, {'id': self.number, 'method': method, 'params': words}
        if where is not None:
            message['sessionId'] = self.session
        os.write(self.to, json.dumps(message).encode() + b'\0')
        end = time.monotonic() + LONG
        while True:
            it = self.next(end)
            if it.get('id') == number:
                if 'error' in it:
                    raise Wrong(f'{method}: {it["error"]}')
                return it['result']
            self.said.append(it)
            del self.said[:-500]

    def next(self, end: float) -> dict[str, Any]:
        while b'\0' not in self.left:
            if not select.select([self.of], [], [], max(0, end - time.monotonic()))[0]:
                raise Wrong('the browser does not answer')
            more = os.read(self.of, 1 << 20)
            if not more:
                raise Wrong('the browser has ended')
            self.left += more
        text, self.left = self.left.split(b'\0', 1)
        return json.loads(text)

    def open(self, address: str) -> None:
        self.call('Page.navigate', url=address)

    def run(self, script: str) -> Any:
        """The value of an expression in the page."""
        found = self.call('Runtime.evaluate', expression=script, awaitPromise=True, returnByValue=True)
        if 'exceptionDetails' in found:
            raise Wrong(f'{script[:200]}: {found["exceptionDetails"]}')
        return found['result'].get('value')

    def until(self, script: str, text: str, patience: float = LONG) -> Any:
        """Until an expression holds in the page."""
        end = time.monotonic() + patience
        while True:
            try:
                if found := self.run(script):
                    return found
            except Wrong:
                # (a page that is just loaded)
                pass
            if time.monotonic() > end:
                shown = self.run('document.body ? document.body.innerText : ""')
                raise Wrong(f'{text}: the page shows {shown[:1500]!r}; said {self.faults()}')
            time.sleep(0.05)

    def text(self, name: str) -> str:
        return self.run(f'document.getElementById({name!r}).innerText')

    def size(self, width: int, height: int, scale: float = 1) -> None:
        self.call('Emulation.setDeviceMetricsOverride', width=width, height=height, deviceScaleFactor=scale, mobile=False)

    def scheme(self, name: str) -> None:
        self.call('Emulation.setEmulatedMedia', features=[{'name': 'prefers-color-scheme', 'value': name}])

    def key(self, name: str, text: str = '', shift: bool = False) -> None:
        """Presses a key, as Tab, Enter or Space."""
        codes = {'Tab': 9, 'Enter': 13, ' ': 32, 'Escape': 27}
        code = codes.get(name, ord(name[0].upper()))
        words: dict[str, Any] = {'key': name, 'windowsVirtualKeyCode': code, 'modifiers': 8 if shift else 0}
        if text or name in ('Enter', ' '):
            words['text'] = text or {'Enter': '\r', ' ': ' '}[name]
        self.call('Input.dispatchKeyEvent', type='keyDown', **words)
        self.call('Input.dispatchKeyEvent', type='keyUp', **{k: v for k, v in words.items() if k != 'text'})

    def type(self, text: str) -> None:
        self.call('Input.insertText', text=text)

    def picture(self, path: pathlib.Path, whole: bool = False) -> None:
        """A picture of the page, as PNG."""
        found = self.call('Page.captureScreenshot', format='png', captureBeyondViewport=whole)
        path.write_bytes(base64.b64decode(found['data']))

    def figures(self) -> dict[str, float]:
        """Nodes and bytes of scripts' memory, after what is not used was taken away."""
        self.call('HeapProfiler.collectGarbage')
        self.call('Performance.enable')
        return {it['name']: it['value'] for it in self.call('Performance.getMetrics')['metrics']}

    def faults(self) -> list[str]:
        """What went wrong in the page: scripts that failed, and what was not let in."""
        found = []
        for it in self.said:
            if it.get('method') == 'Runtime.exceptionThrown':
                found.append(str(it['params']['exceptionDetails']))
            elif it.get('method') == 'Log.entryAdded' and it['params']['entry']['source'] in ('security', 'violation'):
                found.append(it['params']['entry']['text'])
        return found

    def asked(self) -> list[str]:
        """The addresses that the page asked for."""
        return [it['params']['request']['url'] for it in self.said if it.get('method') == 'Network.requestWillBeSent']

    def end(self) -> None:
        self.child.kill()
        self.child.wait()
        os.close(self.to)
        os.close(self.of)
