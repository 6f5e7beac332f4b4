"""Trials of the page: what it shows, in a headless browser; whom it answers; and what it costs the recording."""
from __future__ import annotations

import json
import os
import pathlib
import signal
import socket
import threading
import time
from typing import Any, Optional

from browser import Browser
from trying import HOST, LONG, Room, Service, channel, must, settings, trial, udp_channels, until

TOKEN = '0123456789abcdef0123456789abcdef'
# Pictures of the page are put into this folder, where it is given: docs/pictures has them.
PICTURES = os.environ.get('R10_PICTURES', '')


def with_page(port: int, channels: str, control: bool = True, **keys: Any) -> str:
    """Settings with a page, which may give commands."""
    more = keys.pop('more', '') + ('token = "token"\n' if control else '')
    return settings(channels, page=f'{HOST}:{port}', page_control=control or None, control=more, **keys)


def served(room: Room, text: str, **words: Any) -> Service:
    (room.folder / 'token').write_text(TOKEN + '\n')
    return Service(room, text, **words)


def request(port: int, text: str, patience: float = LONG) -> str:
    """What is answered to a request over a connection of its own."""
    with socket.create_connection((HOST, port), patience) as it:
        it.sendall(text.replace('\n', '\r\n').encode())
        found = b''
        try:
            while more := it.recv(65536):
                found += more
        except (ConnectionResetError, TimeoutError):
            pass
        return found.decode()


def picture(browser: Browser, name: str, width: int = 1280, height: int = 900, scheme: str = 'light') -> None:
    if PICTURES:
        browser.size(width, height)
        browser.scheme(scheme)
        time.sleep(0.6)
        browser.picture(pathlib.Path(PICTURES) / name)


# Texts whose colour is too near to what is behind them: WCAG 2.1 wants 4.5 of all, and 3 of large ones.
CONTRAST = '''(() => {
  const parts = text => text.match(/[\\d.]+/g).map(Number);
  const light = ([r, g, b]) => [r, g, b].map(v => v / 255).map(v => v <= 0.03928 ? v / 12.92 : ((v + 0.055) / 1.055) ** 2.4)
    .reduce((sum, v, n) => sum + v * [0.2126, 0.7152, 0.0722][n], 0);
  const behind = it => {
    for (; it; it = it.parentElement) {
      const colour = parts(getComputedStyle(it).backgroundColor);
      if (colour.length === 3 || colour[3] > 0.99) return colour;
    }
    return [255, 255, 255];
  };
  const bad = [], walker = document.createTreeWalker(document.body, NodeFilter.SHOW_TEXT);
  let seen = 0;
  while (walker.nextNode()) {
    const it = walker.currentNode.parentElement, style = getComputedStyle(it);
    if (!walker.currentNode.data.trim() || ['SCRIPT', 'STYLE'].includes(it.tagName) || !it.getClientRects().length) continue;
    if (style.visibility !== 'visible') continue;
    const [one, two] = [light(parts(style.color)), light(behind(it))].sort((a, b) => b - a);
    const ratio = (one + 0.05) / (two + 0.05), large = parseFloat(style.fontSize) >= 24;
    seen++;
    if (ratio >= (large ? 3 : 4.5)) continue;
    bad.push(it.tagName + ' ' + walker.currentNode.data.trim().slice(0, 30) + ' ' + ratio.toFixed(2));
  }
  return { seen, bad };
})()'''


def readable(browser: Browser, what: str) -> int:
    """All texts can be told from what is behind them, light and dark: how many there are."""
    seen = 0
    for scheme in ('light', 'dark'):
        browser.scheme(scheme)
        found = browser.run(CONTRAST)
        must(found['seen'] > 2 and not found['bad'], f'{what}, {scheme}: {found}')
        seen += found['seen']
    return seen


@trial
def the_page_shows_states_and_losses(room: Room) -> str:
    """Idle, recording, full with losses, and down are in large letters, with room, clock, channels, events, alarms and log."""
    (port,) = room.ports(1)
    text = with_page(port, channel(5, 'message', 'lines = "pipe"', 'name = "GPS"\n'), start='wait', blocks=4096, commit_ms=20)
    service = served(room, text)
    browser = Browser(room)
    browser.size(1280, 900)
    browser.open(f'http://{HOST}:{port}/')
    browser.until('document.getElementById("state").innerText === "IDLE" && !document.body.classList.contains("lost")', 'idle')
    seen = readable(browser, 'idle')
    browser.until('document.getElementById("losses").innerText === "0"', 'nothing is lost')
    service.ask('.RECORD FLT1')
    browser.until('document.getElementById("state").innerText === "RECORDING"', 'recording')
    with open(room.folder / 'pipe', 'w') as pipe:
        for number in range(300):
            pipe.write(f'bytes = "{number:08x}"\n')
            pipe.flush()
            time.sleep(0.01)
        service.ask('.EVENT 7 over the river')
        service.ask('.NOTE all well')
        row = 'document.querySelector("#channels tr").innerText'
        browser.until(f'{row}.includes("5 GPS") && {row}.includes("4 bytes 0000012b")', 'the last message')
        browser.until(f'{row}.match(/[1-9][0-9.]* ?/) && {row}.includes("s ago")', 'its age')
        browser.until('document.getElementById("events").innerText.includes("7 ") && '
                      'document.getElementById("events").innerText.includes("over the river")', 'the event')
        browser.until('document.getElementById("log").innerText.includes("note: all well")', 'the log')
        must(browser.run('document.getElementById("log").children.length') <= 20, 'more than twenty lines of the log')
        must('FLT1' in browser.text('file') and 'ago' in browser.text('commit'), browser.text('file'))
        must('iB' in browser.text('free'), browser.text('free'))
        must('sync' in browser.text('clock').lower() or 'known' in browser.text('clock'), browser.text('clock'))
        big, rows = browser.run('[getComputedStyle(document.getElementById("state")).fontSize, '
                                'getComputedStyle(document.querySelector("td.number")).fontSize]')
        must(float(big[:-2]) >= 100 and float(rows[:-2]) >= 22, f'at three metres: {big}, {rows}')
        seen += readable(browser, 'recording')
        # the medium fills up, and what comes is lost
        body = 'ab' * 1000
        try:
            for _ in range(40000):
                pipe.write(f'bytes = "{body}"\n')
            pipe.flush()
        except BrokenPipeError:
            pass
        browser.until('document.getElementById("state").innerText === "FULL"', 'full')
        browser.until('Number(document.getElementById("losses").innerText.replace(/,/g, "")) > 0', 'losses')
        browser.until(f'{row}.includes("(") && /disk [0-9]/.test({row})', 'their cause')
        alarms = 'document.getElementById("alarms").innerText'
        browser.until(f'{alarms}.includes("channel 5 GPS: messages are lost") && {alarms}.includes("the medium is full")', 'alarms')
    # a tone, for who wants one, while an alarm is on
    browser.run('(() => { window.tones = 0; const made = AudioContext.prototype.createOscillator; '
                'AudioContext.prototype.createOscillator = function () { window.tones++; return made.call(this); }; })()')
    time.sleep(2)
    must(browser.run('window.tones') == 0, 'a tone that nobody asked for')
    browser.run('document.getElementById("sound").click()')
    browser.until('window.tones >= 2', 'no tone with an alarm')
    browser.run('document.getElementById("sound").click()')
    seen += readable(browser, 'full')
    picture(browser, 'page_full.png', scheme='dark')
    # what a page shows of other states
    for state, shown in (('retrying', 'RETRYING'), ('failed', 'FAILED'), ('dismounted', 'DISMOUNTED')):
        made = f'(async () => {{ const it = await fetched; it.state = "{state}"; it.why = "a write failed"; r10.show(it); ' \
               'return document.getElementById("state").innerText; })()'
        standing = service.ask('.STANDING')[0]
        must(browser.run(f'(() => {{ const fetched = Promise.resolve({standing}); return {made}; }})()') == shown, state)
        seen += readable(browser, state)
    # a disk that holds up the recorder's thread is no frozen number
    stale = json.loads(service.ask('.STANDING')[0])
    stale['standing_age_ms'] = 5000
    must('DISK' in browser.run(f'r10.show({json.dumps(stale)}), document.getElementById("state").innerText'), 'a stall')
    # recorders of a group, one of which is not there
    grouped = json.loads(service.ask('.STANDING')[0])
    grouped['group'] = [
        {'name': 'LEFT', 'state': 'recording', 'free': 1 << 30, 'lost': 3, 'alarms': ['channel 5 GPS: nothing came']},
        {'name': 'RIGHT', 'error': 'no recorder at 10.0.0.5:8105'},
    ]
    shown = browser.run(f'r10.show({json.dumps(grouped)}), document.getElementById("group").innerText')
    for it in ('LEFT', 'RECORDING', '1.00 GiB', 'nothing came', 'RIGHT', 'NO CONNECTION', 'no recorder at'):
        must(it in shown, f'{it} is not in the group: {shown}')
    seen += readable(browser, 'a group')
    must(browser.faults() == [], f'{browser.faults()}')
    outside = [it for it in browser.asked() if not it.startswith((f'http://{HOST}:{port}/', 'about:', 'data:'))]
    must(outside == [], f'the page asked for {outside}')
    browser.end()
    # (messages wait for room, so it does not end well)
    service.end(status=None)
    return f'{seen} texts can be read, light and dark'


@trial
def the_page_loses_the_connection(room: Room) -> str:
    """A service that stands still or is gone is said in large letters, and no number is left; then it comes back."""
    (port,) = room.ports(1)
    text = with_page(port, channel(5, 'message', 'lines = "pipe"'))
    service = served(room, text)
    browser = Browser(room)
    browser.size(1280, 900)
    browser.open(f'http://{HOST}:{port}/')
    browser.until('document.getElementById("state").innerText === "RECORDING"', 'recording')
    lost = 'document.body.classList.contains("lost") && document.getElementById("lost").innerText.startsWith("NO CONNECTION")'
    service.child.send_signal(signal.SIGSTOP)
    browser.until(lost, 'a service that stands still', 10)
    hidden = browser.run('getComputedStyle(document.getElementById("losses")).visibility')
    big = float(browser.run('getComputedStyle(document.getElementById("lost")).fontSize')[:-2])
    must(hidden == 'hidden' and big >= 100, f'{hidden} {big}')
    must('was heard' in browser.text('heard') and 'NO CONNECTION' in browser.run('document.title'), browser.text('heard'))
    readable(browser, 'lost')
    picture(browser, 'page_lost.png')
    service.child.send_signal(signal.SIGCONT)
    browser.until(f'!({lost})', 'it goes on')
    service.kill()
    browser.until(lost, 'a service that is gone', 10)
    service = served(room, text)
    browser.until(f'!({lost})', 'another one')
    browser.until('document.getElementById("state").innerText === "RECORDING"', 'it records')
    browser.end()
    service.end()
    return 'lost and found twice'


@trial
def the_page_in_small_with_keys(room: Room) -> str:
    """64 channels fit a screen of 320 pixels; all is done by the keyboard, and a stop is asked about first."""
    (port, *ports) = room.ports(64)
    long = channel(100, 'message', 'lines = "pipe"', 'name = "A-LONG-NAME-OF-A-CHANNEL-OF-A-BUS"\n')
    text = with_page(port, udp_channels(ports) + long, start='wait')
    service = served(room, text)
    browser = Browser(room)
    browser.size(320, 640)
    browser.open(f'http://{HOST}:{port}/')
    browser.until('document.querySelectorAll("#channels tr").length === 64', '64 channels')
    for width in (320, 375, 800, 1280):
        browser.size(width, 640)
        over = browser.run('document.documentElement.scrollWidth - innerWidth')
        must(over <= 0, f'{width} pixels: the page is {over} pixels wider')
    browser.size(320, 640)
    readable(browser, '320 pixels')

    def focus() -> str:
        return browser.run('document.activeElement ? document.activeElement.id || document.activeElement.innerText : ""')

    def tab_to(name: str) -> None:
        for _ in range(30):
            browser.key('Tab')
            if focus() == name:
                outline = browser.run('getComputedStyle(document.activeElement).outlineStyle')
                must(outline == 'solid', f'{name}: where the keyboard is shows as {outline}')
                return
        must(False, f'the keyboard does not come to {name}: {focus()}')

    # without the token nothing is done
    tab_to('record')
    browser.key('Enter')
    browser.until('document.getElementById("answer").innerText.includes("not the token")', 'a command without a token')
    must(service.ask('.STATUS')[0].startswith('S 01'), 'a page without the token began a recording')
    tab_to('token')
    browser.type(TOKEN)
    tab_to('record')
    browser.key('Enter')
    browser.until('document.getElementById("state").innerText === "RECORDING"', 'recording')
    tab_to('event')
    browser.key('Enter')
    browser.until('document.getElementById("events").innerText.startsWith("1 ")', 'an event')
    tab_to('note')
    browser.type('by hand')
    browser.key('Enter')
    # (64 channels leave no room for that of the log)
    browser.until('document.getElementById("answer").innerText.includes("there is no log channel")', 'a note')
    # a stop is asked about: who says no, or nothing, records on
    for answer in ('Enter', 'Escape'):
        tab_to('stop')
        browser.key('Enter')
        browser.until('document.getElementById("question").open', 'a question')
        must(focus() == 'Go on recording', f'the question has {focus()}')
        readable(browser, 'the question')
        browser.key(answer)
        browser.until('!document.getElementById("question").open', 'its end')
    time.sleep(0.5)
    must(service.ask('.STATUS')[0].startswith('S 05'), 'it stopped without a yes')
    tab_to('stop')
    browser.key('Enter')
    browser.until('document.getElementById("question").open', 'a question')
    browser.key('Tab')
    must(focus() == 'Stop', f'the question has {focus()}')
    browser.key('Enter')
    browser.until('document.getElementById("state").innerText === "IDLE"', 'it stops')
    must(any('by the page at' in it for it in service.log().splitlines()), 'the log does not say who stopped it')
    must(browser.faults() == [], f'{browser.faults()}')
    browser.end()
    service.end()
    return '64 channels, 320 pixels'


@trial
def a_day_of_the_page(room: Room) -> str:
    """A page that is open for a day, by a made clock, does not grow: neither its parts nor its memory."""
    ports = room.ports(3)
    service = served(room, with_page(ports[0], udp_channels(ports[1:])))
    browser = Browser(room)
    browser.open(f'http://{HOST}:{ports[0]}/')
    browser.until('document.getElementById("state").innerText === "RECORDING"', 'recording')
    standing = service.ask('.STANDING')[0]
    # an hour of what comes once a second, with alarms that come and go, events and a log that goes on
    hour = f'''(() => {{
      const it = {standing};
      window.made = window.made || {{ at: performance.now(), n: 0 }};
      r10.clock.now = () => window.made.at;
      for (let step = 0; step < 3600; step++) {{
        const n = ++window.made.n;
        window.made.at += 1000;
        it.channels.forEach((c, place) => {{ c.came += n % (7 + place); c.lost = Math.floor(n / 5000); 
          c.last = {{ age_ms: n % 9000, length: 40, bytes: n.toString(16).padStart(32, "0") }}; }});
        it.alarms = n % 600 < 60 ? [{{ alarm: "silent", channel: it.channels[0].id, text: "made " + n }}] : [];
        it.events = Array.from({{ length: n % 9 }}, (_, e) => ({{ number: e, time: "t" + n, text: "x" }}));
        it.log = Array.from({{ length: 20 }}, (_, line) => "line " + (n + line));
        it.free = 1e9 - n;
        it.file = {{ number: 1 + Math.floor(n / 3600), name: "F" + n, bytes: n, age_ms: n * 1000 % 3600000 }};
        r10.show(it);
        if (n % 20 === 0) r10.look();
      }}
      return document.querySelectorAll("*").length;
    }})()'''
    nodes, figures = [], []
    for n in range(24):
        nodes.append(browser.run(hour))
        if n in (1, 23):
            figures.append(browser.figures())
    grown = figures[1]['JSHeapUsedSize'] - figures[0]['JSHeapUsedSize']
    must(nodes[-1] <= nodes[1] + 30 and figures[1]['Nodes'] <= figures[0]['Nodes'] + 2000, f'nodes: {nodes}, {figures}')
    must(grown < 1 << 20, f'{grown} bytes more after 22 hours')
    points = browser.run('document.querySelector("#channels path").getAttribute("d").split(/[ML]/).length - 1')
    must(points == 120, f'{points} points of ten minutes')
    browser.end()
    service.end()
    return f'{nodes[-1]} parts, {grown} bytes more after 22 hours'


@trial
def whom_the_page_answers(room: Room) -> str:
    """Pages of others, names that lead here, commands without the token, other words and silent clients come to nothing."""
    (port, tcp) = room.ports(2)
    service = served(room, with_page(port, channel(5, 'message', 'lines = "pipe"'), start='wait'))
    must(service.ask('.RECORD') == [], 'it does not record')
    host = f'Host: {HOST}:{port}\n'

    def status(text: str) -> str:
        return request(port, text).split(' ')[1]

    must(status(f'GET / HTTP/1.1\n{host}\n') == '200', 'the page itself')
    for wrong in (
        'GET / HTTP/1.1\n\n',
        'GET / HTTP/1.1\nHost: evil.example\n\n',
        f'GET / HTTP/1.1\nHost: evil.example:{port}\n\n',
        f'GET /events HTTP/1.1\nHost: evil.example:{port}\n\n',
        f'GET /events HTTP/1.1\n{host}Origin: http://evil.example\n\n',
        f'GET /events HTTP/1.1\n{host}Sec-Fetch-Site: cross-site\n\n',
    ):
        must(status(wrong) == '403', f'{wrong!r} is answered')

    own = f'{HOST}:{port}'

    def command(line: str, token: Optional[str] = TOKEN, origin: Optional[str] = f'http://{own}', name: str = own) -> str:
        head = f'POST /command HTTP/1.1\nHost: {name}\nContent-Length: {len(line)}\n'
        head += f'Origin: {origin}\n' if origin else ''
        head += f'X-R10-Token: {token}\n' if token else ''
        return status(f'{head}\n{line}')

    for found, wanted, what in (
        (command('.STOP', token=None), '401', 'no token'),
        (command('.STOP', token=TOKEN[:-1] + '0'), '401', 'a wrong token'),
        (command('.STOP', token=TOKEN[:-1]), '401', 'a part of the token'),
        (command('.STOP', origin=None), '403', 'no origin'),
        (command('.STOP', origin='http://evil.example'), '403', 'another origin'),
        (command('.STOP', origin='null'), '403', 'a page of nobody'),
        (command('.STOP', name='evil.example'), '403', 'a name that leads here'),
        (command('.ERASE'), '400', 'an erase'),
        (command('.SHUTDOWN'), '400', 'the end'),
        (command('.DISMOUNT'), '400', 'the medium'),
        (command('.EVENT 1\n.STOP'), '400', 'two commands'),
        (command('.EVENT 9999'), '409', 'no event'),
    ):
        must(found == wanted, f'{what}: {found}')
    must(service.ask('.STATUS')[0].startswith('S 05') and len(service.ask('.FILES')) == 1, 'something was done')
    must(command('.EVENT 5 seen') == '200' and any('seen' in it for it in service.ask('.EVENT')), 'an event of the page')
    must(command('.NOTE all well') == '200' and 'note: all well' in service.log(), 'a note of the page')
    page = request(port, f'GET / HTTP/1.1\n{host}\n')
    must(TOKEN not in page and "default-src 'none'" in page and "frame-ancestors 'none'" in page, 'the head of the page')
    # a browser that is silent, many times, takes no place for long
    silent = [socket.create_connection((HOST, port), LONG) for _ in range(40)]
    until(lambda: status_or(port, host) == '200', 'silent clients shut out a page')
    for it in silent:
        it.close()
    must(service.ask('.STATUS')[0].startswith('S 05'), 'it records on')
    service.end()
    # without page_control no command is taken
    service = served(room, with_page(port, channel(5, 'message', 'lines = "pipe"'), control=False))
    must(command('.STOP') == '403', 'a command where none is taken')
    must('= false' in request(port, f'GET / HTTP/1.1\n{host}\n').split('CONTROLS')[1][:20], 'buttons where there is no control')
    service.end()
    return '21 wrong requests'


def status_or(port: int, host: str) -> str:
    try:
        return (request(port, f'GET / HTTP/1.1\n{host}\n', 10).split(' ') + ['', ''])[1]
    except OSError:
        return ''


@trial
def events_are_few(room: Room) -> str:
    """A page gets at most four events a second, however much changes, and at least one a second where nothing does."""
    (port,) = room.ports(1)
    service = served(room, with_page(port, channel(5, 'message', 'lines = "pipe"'), start='wait'))
    with socket.create_connection((HOST, port), LONG) as it:
        it.sendall(f'GET /events HTTP/1.1\r\nHost: {HOST}:{port}\r\n\r\n'.encode())
        times: list[float] = []
        begin = time.monotonic()

        def read() -> None:
            for line in it.makefile('r'):
                if line.startswith('data: {"alarms"'):
                    times.append(time.monotonic())
                if time.monotonic() > begin + 8:
                    return

        reader = threading.Thread(target=read)
        reader.start()
        # for four seconds the state changes all the time
        while time.monotonic() < begin + 4:
            service.ask('.RECORD', '.STOP')
        reader.join(LONG)
    longest = max(other - at for at, other in zip(times, times[1:]))
    # (what waited for a processor comes together: so a bound of each second would be one of the machine)
    changing = sum(at < begin + 4 for at in times)
    must(2 <= changing <= 4 * 4 + 2 and len(times) <= 4 * 8 + 2, f'{changing} events in four seconds, {len(times)} in eight')
    must(longest < 8, f'{longest:.1f} s without an event')
    service.end()
    return f'{changing} in four seconds of changes, {len(times)} in eight'


def slow_pages(port: int, count: int) -> list[socket.socket]:
    """Pages whose browser hardly reads: a small buffer, and a byte now and then."""
    found = []
    for _ in range(count):
        it = socket.socket()
        it.setsockopt(socket.SOL_SOCKET, socket.SO_RCVBUF, 2048)
        it.settimeout(LONG)
        it.connect((HOST, port))
        it.sendall(f'GET /events HTTP/1.1\r\nHost: {HOST}:{port}\r\n\r\n'.encode())
        found.append(it)
    return found


@trial
def sixteen_slow_pages(room: Room, count: int = 4000, rate: int = 1000, runs: int = 3) -> str:
    """With sixteen pages that hardly read nothing is lost, and the 99th of 100 messages is on the disk as early as without them, as
    far as runs lie apart."""
    port, *ports = room.ports(5)
    found: dict[int, list[float]] = {0: [], 16: []}
    for _ in range(runs):
        for pages in found:
            room.clear()
            service = served(room, with_page(port, udp_channels(ports), blocks=1 << 18, commit_ms=20))
            there = slow_pages(port, pages)
            service.figures()
            load = room.load(ports, count=count, rate=rate, size=40)
            while load.poll() is None:
                for it in there:
                    try:
                        it.recv(16)
                    except OSError:
                        # (one that reads too slowly is let go; a browser comes again)
                        it.close()
                time.sleep(0.2)
                there = [it for it in there if it.fileno() >= 0]
                there += slow_pages(port, pages - len(there))
            figures = service.until_durable(count)
            lost = sum(it['lost'] for it in figures['channels'])
            must(lost == 0, f'{pages} pages: {lost} messages are lost')
            found[pages].append(figures['durable_after_us']['of_100_99'] / 1000)
            for it in there:
                it.close()
            service.end()
    none, some = sorted(found[0]), sorted(found[16])
    # runs of one kind lie apart by this; a machine that has other work has more of it. (Where the recorder's thread waited for a
    # page, it would be a minute: a kilobyte by 16 bytes, five times a second.)
    apart = max(none[-1] - none[0], some[-1] - some[0], 1000.0)
    must(some[len(some) // 2] <= none[len(none) // 2] + 2 * apart, f'without pages {none} ms, with sixteen {some} ms')
    return f'of 100 messages the 99th after {none} ms without pages, {some} ms with sixteen'
