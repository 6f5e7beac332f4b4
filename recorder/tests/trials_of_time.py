"""Trials of times: those of time packets, the kernel's stamps, a clock that runs by a plan, and one that is not in sync."""
from __future__ import annotations

import calendar
import os
import pathlib
import re
import shutil
import socket
import struct
import subprocess
import sys
import threading
import time
from typing import NamedTuple, Optional

from kinds import KINDS
from trials_of_losses import filtered, log_lines, sums
from trying import (
    HOST,
    LONG,
    Entry,
    NotTried,
    Room,
    Service,
    channel,
    entries,
    files,
    must,
    settings,
    trial,
    udp_channels,
    until,
)

SECOND = 1_000_000_000


def unix_ns(civil: str) -> int:
    """The nanoseconds since 1970 of a civil time, as `r10 play` prints it."""
    whole, centi = civil.split('.')
    return calendar.timegm(time.strptime(whole, '%Y-%m-%d %H:%M:%S')) * SECOND + int(centi) * 10_000_000


class Times:
    """The time packets of a file, and what they make of counts."""

    def __init__(self, found: list[Entry]) -> None:
        self.at = sorted((it.count, unix_ns(' '.join(it.words))) for it in found if it.kind == 'time')
        must(self.at, 'the file has no time')

    def place(self, count: int) -> int:
        """Which time packet a count goes by: the last one that is not later, else the first."""
        return max((n for n, it in enumerate(self.at) if it[0] <= count), default=0)

    def of(self, count: int) -> int:
        """The time of a count, in nanoseconds since 1970."""
        tied, at = self.at[self.place(count)]
        return at + (count - tied) * 100


def compiled(room: Room, source: str, *words: str) -> pathlib.Path:
    """A program or library of a source of this folder."""
    compiler = shutil.which('cc')
    if compiler is None:
        raise NotTried(f'there is no cc for recorder/tests/{source}')
    made = room.folder / (source + '.made')
    command = [compiler, '-O2', '-Wall', '-Wextra', '-Werror', *words, '-o', str(made), str(pathlib.Path(__file__).parent / source)]
    must(subprocess.run(command).returncode == 0, f'{source} cannot be compiled')
    return made


class Sent(NamedTuple):
    number: int
    # before it was sent, and after
    before: int
    after: int


@trial
def times_read_back(room: Room, seconds: float = 4.0, limit: int = 100_000) -> str:
    """The time of a message, read back by the file's time packets, is within 0.1 ms of when it was sent by the same clock."""
    ports = room.ports(1)
    service = Service(room, settings(udp_channels(ports)))
    sent, end = [], time.monotonic() + seconds
    with socket.socket(socket.AF_INET, socket.SOCK_DGRAM) as it:
        while time.monotonic() < end:
            body = len(sent).to_bytes(8, 'little')
            before = time.time_ns()
            it.sendto(body, (HOST, ports[0]))
            sent.append(Sent(len(sent), before, time.time_ns()))
            time.sleep(0.0031)
    service.until_durable(len(sent))
    unstamped = service.figures()['channels'][0]['unstamped']
    service.end()
    found = entries((room.folder / 'medium').read_bytes(), 0)
    times, worst = Times(found), 0
    for entry in (it for it in found if it.channel == 5):
        of, at = sent[int.from_bytes(bytes.fromhex(entry.words[-1]), 'little')], times.of(entry.count)
        worst = max(worst, of.before - at, at - of.after)
    must(unstamped == 0, f'{unstamped} of {len(sent)} stamps were not taken')
    must(worst <= limit, f'times read back are {worst / 1e6:.3f} ms off')
    must(len(times.at) >= int(seconds), f'{len(times.at)} times in {seconds} s')
    return f'{len(sent)} messages, {len(times.at)} time packets, at most {worst / 1e6:.4f} ms off'


class Plan:
    """A clock by recorder/tests/clock.c: what it does, and what the time really is meanwhile."""

    def __init__(self, room: Room, lines: list[tuple[float, str, float]], base: int, speed: int) -> None:
        self.lines, self.base, self.speed = sorted(lines), base, speed
        self.path = room.folder / 'plan'
        self.path.write_text(''.join(f'{at} {word} {value}\n' for at, word, value in self.lines))
        self.library = compiled(room, 'clock.c', '-shared', '-fPIC')
        self.leaps = [(at, value) for at, word, value in self.lines if word == 'leap']
        self.start = 0

    def environment(self) -> dict[str, str]:
        # (by then the service is there, also on a slow machine)
        self.start = time.monotonic_ns() + 4 * SECOND
        return {
            'LD_PRELOAD': str(self.library),
            'CLOCK_PLAN': str(self.path),
            'CLOCK_START': str(self.start),
            'CLOCK_SPEED': str(self.speed),
            'CLOCK_BASE': str(self.base),
        }

    def past(self) -> int:
        """Made nanoseconds since the start."""
        return (time.monotonic_ns() - self.start) * self.speed

    def now(self) -> int:
        """The time as it really is, in nanoseconds since 1970, with the leap seconds that came."""
        past = self.past()
        return self.base * SECOND + past + sum(int(value * SECOND) for at, value in self.leaps if at * SECOND <= past)


def hour_of_steps() -> list[tuple[float, str, float]]:
    """An hour: a clock that is wrong at first, and steered, and stepped by hand there and back, with a leap second at its half.
    Where it is said to be in sync it is."""
    lines: list[tuple[float, str, float]] = []
    off, rate, last = 0.0, 0.0, 0.0

    def at(second: float, word: str, value: float = 0.0) -> None:
        nonlocal off, rate, last
        off += (second - last) * rate / 1e6
        last = second
        if word == 'sync':
            value = abs(off) * 1e6 + 200
        if word == 'step':
            off += value
        if word == 'rate':
            rate = value
        lines.append((second, word, value))

    at(0, 'step', -2.5)
    at(100, 'step', 2.5)
    at(110, 'sync')
    for second in range(120, 480, 60):
        at(second, 'rate', 10.0 if second % 120 else -10.0)
        at(second + 1, 'sync')
    at(480, 'rate', 0.0)
    second = 500
    for step in (0.010, -0.010, -0.010, 0.010, 0.2, -0.2, 1.0, -1.0, -60.0, 60.0, 3600.0, -3600.0, -3600.0, 3600.0):
        # from a clock that is said to be right it steps away, and no error of before is large enough for that
        if abs(off) < 0.001:
            at(second - 2, 'sync')
        at(second, 'step', step)
        # (between the two it is wrong, and nobody says that it is right)
        if abs(off) < 0.001:
            at(second + 15, 'sync')
        second += 45
    assert abs(off) < 0.001 and sum(it[1] == 'sync' for it in lines) > 20
    at(1700, 'coming', 1)
    at(1800, 'leap', -1.0)
    at(1810, 'coming', 0)
    at(2000, 'rate', 500.0)
    at(2200, 'rate', -500.0)
    at(2400, 'rate', 0.0)
    at(2420, 'sync')
    for second in range(2500, 3500, 100):
        at(second, 'rate', 90.0 if second % 200 else -90.0)
        at(second + 50, 'sync')
    return lines


def minutes_of_a_leap() -> list[tuple[float, str, float]]:
    """A second is taken out at the end of the day."""
    return [(0, 'sync', 300.0), (10, 'coming', -1), (120, 'leap', 1.0), (130, 'coming', 0)]


def by_a_plan(room: Room, lines: list[tuple[float, str, float]], base: int, seconds: int, speed: int, wait: bool) -> dict[str, int]:
    """Records by a plan, and compares the times that are read back with what `.TIME` said of them."""
    room.clear()
    plan, ports = Plan(room, lines, base, speed), room.ports(1)
    # (a day for the wait: it is the clock with which the recording begins)
    text = settings(udp_channels(ports), commit_ms=2000, wait_for_time=86_400 if wait else None, ask_for_time=[])
    service = Service(room, text, environment=plan.environment())
    sent: list[Sent] = []
    # by the count of the look that it tells of: the count at which it was asked, the error, whether the clock is in sync
    said: dict[int, tuple[int, Optional[int], str]] = {}

    def ask_on() -> None:
        with socket.socket(socket.AF_UNIX) as asking:
            asking.settimeout(LONG)
            asking.connect(str(room.folder / 'control'))
            stream = asking.makefile('rw')
            while plan.past() < seconds * SECOND:
                stream.write('.TIME\n')
                stream.flush()
                lines_said = dict(line.rstrip('\n').split(' ', 1) for line in iter(stream.readline, '*\n'))
                error = lines_said['ERROR_NS']
                claim = int(lines_said['COUNT']), None if error == 'unknown' else int(error), lines_said['SYNC']
                said.setdefault(int(lines_said['LOOK']), claim)

    asker = threading.Thread(target=ask_on)
    asker.start()
    with socket.socket(socket.AF_INET, socket.SOCK_DGRAM) as it:
        while plan.past() < seconds * SECOND:
            body = len(sent).to_bytes(8, 'little')
            before = plan.now()
            it.sendto(body, (HOST, ports[0]))
            sent.append(Sent(len(sent), before, plan.now()))
            time.sleep(0.003)
    asker.join()
    figures = service.until(lambda it: sum(it['channels'][0][key] for key in ('durable', 'lost', 'passed')) == len(sent), 'all')
    log = service.log()
    service.end()
    image = (room.folder / 'medium').read_bytes()
    must(len(files(image)) == 1, f'{files(image)}')
    found = entries(image, 0)
    times, of_messages = Times(found), [it for it in found if it.channel == 5]
    must(all(a.count < b.count for a, b in zip(of_messages, of_messages[1:])), 'counts of a channel do not rise')
    must(all(a[0] <= b[0] for a, b in zip(times.at, times.at[1:])), 'counts of time packets fall')
    # what the recording says of messages whose stamps may be off by more than the clock
    stamps = [tuple(it.number(key) for key in ('from', 'to', 'off_ns')) for it in log_lines(image, 0) if it.word == 'stamps']
    worst, held, place, doubted = 0.0, 0, 0, 0
    for entry in of_messages:
        while place + 1 < len(times.at) and times.at[place + 1][0] <= entry.count:
            place += 1
        more = max((off for start, end, off in stamps if start <= entry.count <= end), default=0)
        doubted += more > 0
        count, claim, _ = said.get(times.at[place][0], (0, None, ''))
        of, at = sent[int.from_bytes(bytes.fromhex(entry.words[-1]), 'little')], times.of(entry.count)
        if claim is None:
            continue
        off = max(of.before - at, at - of.after, 0)
        # (the error grows by 500 millionths until the next look)
        error = claim + max(0, entry.count - count) * 100 // 2000
        held += 1
        worst = max(worst, off / (error + more))
        must(off <= error + more, f'message {of.number} is {off / 1e6:.3f} ms off, and .TIME said {error / 1e6:.3f} ms, its stamp '
             f'{more / 1e6:.3f} ms ({(of.before - base * SECOND) / SECOND:.2f} s after the start): {stamps}')
    must(doubted * 10 <= len(of_messages), f'{doubted} of {len(of_messages)} messages have a stamp that may be off: {stamps}')
    # (a message that came before, and was read after, may be the first one: so it is the first time that counts)
    first = (times.at[0][1] + SECOND // 10 - base * SECOND) // SECOND
    steps = [value for at, word, value in plan.lines if word in ('step', 'leap') and at > first]
    events = [it for it in found if it.kind == 'event' and it.words[0] == '4095']
    must(len(events) == len(steps), f'{len(steps)} steps, {len(events)} events: {log}')
    for value in steps:
        must(f'clock stepped by {value:+.3f} s' in log, f'no word of a step of {value} s: {log}')
    words = {it[2] for it in said.values()}
    must('yes' in words and ('no' in words or not any(it[1] == 'step' for it in plan.lines)), f'.TIME says {words}')
    must(figures['channels'][0]['unstamped'] <= 2 * len(steps), f"stamps that were not taken: {figures['channels'][0]}")
    numbers = {'messages': len(of_messages), 'held': held, 'steps': len(steps), 'first': first}
    return numbers | {'percent': int(100 * worst), 'doubted': doubted}


@trial
def an_hour_of_a_clock(room: Room) -> str:
    """Over an hour of a clock that is steered and stepped by 10 ms to an hour both ways, and over leap seconds, times that are read
    back are within what .TIME says of their error. No recording begins before the clock is in sync."""
    # 23:30 and 23:58 of the last day of a year
    hour = by_a_plan(room, hour_of_steps(), 1798759800, 3600, 90, True)
    must(hour['first'] >= 110, f"the recording began after {hour['first']} s, and the clock was in sync after 110")
    # (on a slow machine it begins amid the steps, and fewer looks are asked about)
    must(hour['steps'] >= 8 and hour['held'] * 50 > hour['messages'], f'{hour}')
    leap = by_a_plan(room, minutes_of_a_leap(), 1798761480, 240, 40, False)
    must(leap['steps'] == 1 and leap['held'] * 50 > leap['messages'], f'{leap}')
    steps, percent, doubted = hour['steps'] + leap['steps'], hour['percent'], hour['doubted'] + leap['doubted']
    return (f"{hour['held']} of {hour['messages']} messages have a claim, and are off by {percent}% of it at most; {steps} steps, "
            f'{doubted} stamps that may be off')


def captured(path: pathlib.Path, port: int) -> dict[int, int]:
    """By number, when a datagram of `burst` was captured, in nanoseconds since 1970. The file is one of libpcap's first form."""
    data = path.read_bytes()
    order = 'little' if data[:4] in (b'\xd4\xc3\xb2\xa1', b'\x4d\x3c\xb2\xa1') else 'big'
    unit = 1 if int.from_bytes(data[:4], order) == 0xA1B23C4D else 1000
    found, at = {}, 24
    while at + 16 <= len(data):
        seconds, part, length = (int.from_bytes(data[at + n : at + n + 4], order) for n in (0, 4, 8))
        packet = data[at + 16 : at + 16 + length]
        # an Ethernet header, one of IP, and one of UDP
        if len(packet) >= 14 + 20 + 8 + 8 and packet[23] == 17 and int.from_bytes(packet[36:38], 'big') == port:
            found.setdefault(int.from_bytes(packet[42:50], 'little'), seconds * SECOND + part * unit)
        at += 16 + length
    return found


def a_burst(room: Room, count: int, load: int) -> tuple[float, float, int]:
    """How far the times of a burst's datagrams are from those of a packet capture of them, in milliseconds, at a load of so many
    programs; how long the burst took; and how many of its datagrams the capture has."""
    room.clear()
    (port,) = room.ports(1)
    burst, path = compiled(room, 'burst.c'), room.folder / 'captured'
    path.touch(0o666)
    capture = room.start(['dumpcap', '-q', '-P', '-i', 'lo', '-f', f'udp dst port {port}', '-B', '64', '-w', str(path)],
                         stderr=subprocess.PIPE)
    until(lambda: path.stat().st_size >= 24 or capture.poll() is not None, 'the capture does not begin')
    if capture.poll() is not None:
        raise NotTried(f'dumpcap captures nothing here: {capture.stderr.read().decode() if capture.stderr else ""}')
    service = Service(room, settings(udp_channels([port], more='capacity = 65536\n'), commit_ms=100))
    # (each ends by itself, whatever becomes of this program)
    loop = 'import time\nend = time.time() + 20\nwhile time.time() < end: pass'
    busy = [room.start([sys.executable, '-c', loop]) for _ in range(load)]
    time.sleep(0.2)
    took = float(subprocess.run([burst, HOST, str(port), str(count)], stdout=subprocess.PIPE, check=True).stdout)
    for it in busy:
        it.kill()
        it.wait()
    service.until_durable(count)
    figures = service.figures()['channels'][0]
    service.end()
    # (the capture is written a while later, and may have lost some)
    end = time.monotonic() + 20
    while len(captured(path, port)) < count and time.monotonic() < end:
        time.sleep(0.2)
    capture.terminate()
    capture.wait()
    must(figures['unstamped'] == 0, f"{figures['unstamped']} stamps were not taken")
    found, of_capture = entries((room.folder / 'medium').read_bytes(), 0), captured(path, port)
    times, off, both = Times(found), 0, 0
    for entry in (it for it in found if it.channel == 5):
        at = of_capture.get(int.from_bytes(bytes.fromhex(entry.words[-1])[:8], 'little'))
        if at is not None:
            both += 1
            off = max(off, abs(times.of(entry.count) - at))
    must(both * 2 > count, f'the capture has {both} of {count} datagrams')
    return off / 1e6, took / 1e3, both


@trial
def a_burst_and_a_capture(room: Room, count: int = 10_000) -> str:
    """Stamps of a burst are within 0.2 ms of those of a packet capture of the same datagrams, at a load of 8 too."""
    if os.geteuid() != 0 or shutil.which('dumpcap') is None:
        raise NotTried('a packet capture wants root, and dumpcap (Debian\'s package tshark)')
    said = []
    for load in (0, 8):
        off, took, both = a_burst(room, count, load)
        must(off <= 0.2, f'at a load of {load} a stamp is {off:.3f} ms off the capture')
        said.append(f'{both} in {took:.0f} ms at a load of {load}: at most {off:.4f} ms off')
    return '; '.join(said)


@trial
def sources_with_stamps(room: Room) -> str:
    """The examples of a sender, in Python and C: their messages have bus, status and time as they were sent; what is missing is
    told; a stamp an hour off spoils nothing."""
    (port,) = room.ports(1)
    where = f'udp = "{HOST}:{port}", header = "r10"'
    text = channel(20, '1553', where) + channel(30, 'arinc', where)
    examples, number = pathlib.Path(__file__).parent.parent / 'examples', 200
    senders: list[list[str]] = [[str(examples / 'sender.py')]]
    if (compiler := shutil.which('cc')) is not None:
        made = str(room.folder / 'sender')
        command = [compiler, '-O2', '-Wall', '-Wextra', '-Werror', '-o', made, str(examples / 'sender.c')]
        must(subprocess.run(command).returncode == 0, 'the example in C cannot be compiled')
        senders.append([made])
    service = Service(room, settings(text))
    spans = []
    for sender in senders:
        before = time.time_ns()
        subprocess.run([*sender, HOST, str(port), str(number)], check=True)
        spans.append((before, time.time_ns()))
    total = number * len(senders)
    service.until_durable(2 * total)
    figures = service.figures()['channels']
    must(all(it[key] == 0 for it in figures for key in ('lost', 'bad', 'unstamped', 'late')), f'{figures}')
    # by hand: two are missing, one is an hour ahead, and what comes after it is where it belongs
    head = struct.Struct('<4sBBBBIHHQII')
    with socket.socket(socket.AF_INET, socket.SOCK_DGRAM) as it:
        for sequence, off in ((0, 0), (3, 3600 * SECOND), (4, 0)):
            at = time.time_ns() + off - 2_000_000
            it.sendto(head.pack(b'R10D', 1, 0, 2, 0, sequence, 30, 0, at, 9, 0) + bytes(4), (HOST, port))
            time.sleep(0.01)
        it.sendto(b'no header', (HOST, port))
        until(lambda: service.figures()['channels'][0]['bad'] == 1, 'what is no datagram is not counted')
    service.until_durable(2 * total + 3 + 2)
    it_30 = service.figures()['channels'][1]
    must((it_30['lost'], it_30['unstamped']) == (2, 1), f'{it_30}')
    service.end()
    found = entries((room.folder / 'medium').read_bytes(), 0)
    times = Times(found)
    buses, words = ([it for it in found if it.channel == number] for number in (20, 30))
    of_buses = [['2000', '0007', f'2842{n & 0xffff:04x}{n >> 16:04x}'] for n in range(number)]
    of_words = [['5', '0', '0', '1', f'{n << 10 | 0xc1:08x}'] for n in range(number)]
    must([it.words for it in buses] == of_buses * len(senders), f'1553: {buses[:3]}')
    must([it.words for it in words[:total]] == of_words * len(senders), f'ARINC: {words[:3]}')
    must([it.gap for it in words[total:]] == ['0', '2', '0'], f'{words[total:]}')
    last = [times.of(it.count) for it in words[-3:]]
    must(all(abs(a - b) < SECOND for a, b in zip(last, last[1:])), f'a stamp an hour ahead: {last}')
    for place, (before, after) in enumerate(spans):
        for of in (buses, words):
            at = [times.of(it.count) for it in of[place * number : (place + 1) * number]]
            must(before - 1_000_000 <= at[0] and at[-1] <= after + 1_000_000, f'{before} {at[0]} {at[-1]} {after}')
    return f'{len(senders)} examples, {2 * total} messages'


@trial
def packets_that_come_in(room: Room) -> str:
    """Packets that one recorder sends live are recorded by another: the messages of each kind, with their times; setup and time are
    counted."""
    kinds = list(KINDS)
    ports = room.ports(2)
    where = f'udp = "{HOST}:{ports[0]}", header = "ch10", source = '
    text = ''.join(channel(10 + n, kind, f'{where}{50 + n}') for n, kind in enumerate(kinds))
    other = Service(room, settings(text))
    first = Room(str(room.programs))
    try:
        lines = ''.join(channel(50 + n, kind, 'lines = "pipe"') for n, kind in enumerate(kinds))
        service = Service(first, settings(lines, publish=f'{HOST}:{ports[0]}', start='wait'))
        must(service.ask('.RECORD') == [], 'it does not record')
        # (a time has to come first, with the setup)
        other.until(lambda it: it['channels'][0]['others'] >= 2, 'no setup and no time come')
        time.sleep(1.1)
        with open(first.folder / 'pipe', 'w') as pipe:
            for number in range(20):
                for n, kind in enumerate(kinds):
                    pipe.write(f'channel = {50 + n}, {KINDS[kind].line}\n')
                pipe.flush()
                time.sleep(0.02)
        service.until_durable(20 * len(kinds))
        other.until_durable(20 * len(kinds))
        figures = other.figures()['channels']
        must(all(it['lost'] == it['bad'] == it['unstamped'] == 0 for it in figures), f'{figures}')
        service.end()
        other.end()
        came, sent = (entries((it.folder / 'medium').read_bytes(), 0) for it in (room, first))
    finally:
        first.close()
    of_came, of_sent, worst = Times(came), Times(sent), 0
    for n in range(len(kinds)):
        one, two = ([it for it in of if it.channel == number] for of, number in ((came, 10 + n), (sent, 50 + n)))
        is_one = [it.words for it in one] == [it.words for it in two]
        must(is_one and len(one) == 20, f'{kinds[n]}: {one[:2]}, and {two[:2]} were sent')
        worst = max(worst, *(abs(of_came.of(a.count) - of_sent.of(b.count)) for a, b in zip(one, two)))
    must(worst < 1_000_000, f'times are {worst / 1e6:.3f} ms off')
    return f'{20 * len(kinds)} messages, at most {worst / 1e6:.4f} ms off'


@trial
def programs_that_set_the_clock(room: Room) -> str:
    """Tools of chrony, ntpd and ptp4l, and a pulse, are stood in for: what they say is in .TIME, the metrics and the log. One that
    hangs holds up nothing."""
    tools, (port,) = room.folder / 'tools', room.ports(1)
    tools.mkdir()

    def tool(name: str, text: str) -> None:
        # (never half of it is read)
        fresh = tools / 'fresh'
        fresh.write_text(f'#!/bin/sh\n{text}\n')
        fresh.chmod(0o755)
        fresh.rename(tools / name)

    tracking = 'C0A80101,192.168.1.1,2,1764555600.1,0.000001,0.0,0.0,-3.2,0.0,0.1,0.0004,0.00005,64.2,Normal'
    tool('chronyc', 'sleep 1000')
    tool('ntpq', 'echo "leap=11, stratum=16, refid=INIT, offset=0.0, rootdelay=0.0, rootdisp=1.0"')
    tool('pmc', 'exit 1')
    pulse = room.folder / 'pps'
    pulse.mkdir()
    text = settings(channel(5, 'message', 'lines = "pipe"'), start='wait', metrics=f'{HOST}:{port}', pps='pps')
    service = Service(room, text, environment={'PATH': f"{tools}:{os.environ['PATH']}"})

    def said() -> dict[str, str]:
        return dict(line.split(' ', 1) for line in service.ask('.TIME'))

    until(lambda: said()['SOURCE'].startswith('ntpd'), 'where one hangs the next one is not asked')
    must(said()['SYNC'] == 'no' and said()['ERROR_NS'] == 'unknown' and said()['PPS'] == 'none', f'{said()}')
    tool('chronyc', f'echo {tracking}')
    until(lambda: said()['SYNC'] == 'yes', 'chrony is not heard')
    must(said()['SOURCE'] == 'chrony, set by 192.168.1.1' and 251_000 <= int(said()['ERROR_NS']) < 2_000_000, f'{said()}')
    must(service.ask('.STATUS')[0].startswith('S 01 0 0') and service.ask('.HEALTH')[0] == '0 00000000 RECORDER', 'no warning')

    def beat() -> bool:
        now = time.time_ns() // SECOND * SECOND + 750_000
        (pulse / 'fresh').write_text(f'{now // SECOND}.{now % SECOND:09d}#1\n')
        (pulse / 'fresh').rename(pulse / 'assert')
        return said()['PPS'] == 'offset_ns=750000'

    until(beat, 'the pulse is not seen')
    until(lambda: beat() and int(said()['ERROR_NS']) >= 750_000, 'the clock is held to be better than its pulse')

    def scraped() -> str:
        beat()
        with socket.create_connection((HOST, port)) as it:
            it.sendall(b'GET /metrics HTTP/1.0\r\n\r\n')
            return b''.join(iter(lambda: it.recv(65536), b'')).decode()

    # (they are what the recorder's thread put up last, a quarter of a second ago at most)
    for wanted in ('synchronised 1', 'pps 1', 'pps_offset_seconds 0.00075', 'error_seconds 0.00'):
        until(lambda: f'\nr10_clock_{wanted}' in scraped(), f'{wanted} is not among the metrics: {scraped()}')
    until(lambda: said()['PPS'] == 'none', 'a pulse that ends is still there')
    service.ask('.RECORD', '.STOP')
    service.end()
    # each change stands in the log channel, though no file was recorded then
    states = [(it.keys['sync'], it.keys['source'].split(',')[0].split(' ')[0], it.keys['error_ns'] != 'unknown')
              for it in log_lines((room.folder / 'medium').read_bytes(), 0) if it.word in ('clock', 'file')]
    wrong, right = ('no', 'ntpd', False), ('yes', 'chrony', True)
    must(wrong in states and right in states and states.index(right) > states.index(wrong), f'{states}')
    must(states[-1] == right, f'{states}')
    must(re.search('^clock of its times: the system.s, in sync, off by at most 0[.][0-9]{3} ms, says chrony, set by 192.168.1.1$',
                   filtered(room, 'summary'), re.MULTILINE), filtered(room, 'summary'))
    for wanted in ('is not in sync, says ntpd', 'is in sync, says chrony', 'the pulse is +0.750 ms off', 'no pulse comes'):
        must(wanted in service.log(), f'{wanted!r} is not in the log: {service.log()}')
    return 'three programs and a pulse'


@trial
def waiting_for_time(room: Room) -> str:
    """With wait_for_time no recording begins before the clock is in sync, or so many seconds have gone. What comes meanwhile is
    lost, and the log says what was done."""
    tools = room.folder / 'tools'
    tools.mkdir()
    end = '1764555600.1,0.0,0.0,0.0,0.0,0.0,0.1,0.0004,0.00005,64.2'
    for wait, in_sync in ((2, False), (600, True)):
        for name, text in (('chronyc', f'echo 0,1.2.3.4,2,{end},Not synchronised'), ('ntpq', 'exit 1'), ('pmc', 'exit 1')):
            (tools / name).write_text(f'#!/bin/sh\n{text}\n')
            (tools / name).chmod(0o755)
        (room.folder / 'medium').unlink(missing_ok=True)
        text = settings(channel(5, 'message', 'lines = "pipe"'), wait_for_time=wait)
        service = Service(room, text, environment={'PATH': f"{tools}:{os.environ['PATH']}"})
        began = time.monotonic()
        with open(room.folder / 'pipe', 'w') as pipe:
            pipe.write('bytes = "41"\n' * 5)
        service.until(lambda it: it['channels'][0]['lost'] == 5, 'what comes while it waits is not lost')
        refused = service.ask('.RECORD')[0]
        if in_sync:
            must(refused.startswith('E 02 INVALID MODE: the clock is not in sync'), f'.RECORD: {refused}')
            must(service.ask('.FILES') == [] and service.ask('.STATUS')[0].startswith('S 01'), 'it records')
            (tools / 'fresh').write_text(f'#!/bin/sh\necho 0,1.2.3.4,2,{end},Normal\n')
            (tools / 'fresh').chmod(0o755)
            (tools / 'fresh').rename(tools / 'chronyc')
        service.wait_for(': recording')
        must(in_sync or time.monotonic() - began > 1, 'it did not wait')
        with open(room.folder / 'pipe', 'w') as pipe:
            pipe.write('bytes = "42"\n')
        service.until_durable(6)
        service.end()
        log = service.log()
        must(f'waits until the clock is in sync, {wait} s at most' in log, log)
        must(('the clock is in sync: the recording begins' in log) == in_sync, log)
        must(('the wait for it is over: the recording begins' in log) != in_sync, log)
        image = (room.folder / 'medium').read_bytes()
        found = [it for it in entries(image, 0) if it.channel == 5]
        must([(it.gap, it.words[-1]) for it in found] == [('5', '42')], f'{found}')
        texts = [it.keys['text'] for it in log_lines(image, 0) if it.word in ('info', 'warning')]
        must(len(texts) == 2 and 'waits until' in texts[0] and 'the recording begins' in texts[1], f'{texts}')
        must(sums(image, [5])[5] == (1, 5, 0, 0), f'{sums(image, [5])}')
    return 'in sync, and over'


@trial
def stamps_of_a_card(room: Room) -> str:
    """Where a card stamps datagrams, by a clock of its own, its stamps are taken, and not the kernel's. (The card is stood in
    for: it stamps 5 ms before the kernel.)"""
    ports, ahead = room.ports(2), 37 * SECOND + 123
    text = channel(5, 'message', f'udp = "{HOST}:{ports[0]}", card = "/dev/zero"')
    text += channel(6, 'message', f'udp = "{HOST}:{ports[1]}", card = "/dev/null"')
    library = compiled(room, 'clock.c', '-shared', '-fPIC')
    sent = []
    for environment in ({'LD_PRELOAD': str(library), 'CLOCK_CARD': str(ahead)}, {}):
        service = Service(room, settings(text), environment=environment)
        with socket.socket(socket.AF_INET, socket.SOCK_DGRAM) as it:
            for port in ports:
                before = time.time_ns()
                it.sendto(b'stamped', (HOST, port))
                sent.append((before, time.time_ns()))
        service.until_durable(2)
        unstamped = [it['unstamped'] for it in service.figures()['channels']]
        must(unstamped == [0, 0], f'{unstamped}')
        must(('the kernel\'s stamps are taken' in service.log()) == (not environment), f'{service.log()}')
        service.end()
    image, worst = (room.folder / 'medium').read_bytes(), 0
    for file in (0, 1):
        found = entries(image, file)
        times = Times(found)
        for entry, (before, after) in zip([it for it in found if it.channel in (5, 6)], sent[2 * file :]):
            if file == 0:
                before, after = before - 5_000_000, after - 5_000_000
            worst = max(worst, before - times.of(entry.count), times.of(entry.count) - after)
    must(worst <= 100_000, f'a card\'s stamp is {worst / 1e6:.3f} ms off')
    return 'a card that is there, and one that is not'
