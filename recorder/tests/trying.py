"""What the trials of r10d share: a service that runs, load for it, a disk that fails, and what is on a medium after all."""
from __future__ import annotations

import collections
import json
import os
import pathlib
import random
import re
import shutil
import signal
import socket
import subprocess
import sys
import tempfile
import threading
import time
from types import FrameType
from typing import Any, Callable, Iterable, Optional

from kinds import KINDS

TOP = pathlib.Path(__file__).resolve().parent.parent.parent
CH10 = TOP / 'scripts' / 'ch10.py'
R10 = os.environ.get('R10', str(TOP / 'r10'))
# An address of this machine that no other run has: so ports that are free stay so.
HOST = '127.' + '.'.join(str(random.SystemRandom().randrange(1, 255)) for _ in range(3))
# The log channel, where the settings say nothing of it.
LOG = 65535
# How long is waited for what has to come: a trial fails by what is wrong, and not by a slow machine.
LONG = float(os.environ.get('R10_PATIENCE', '240'))
# A child ends with the thread that started it, however that ends.
WITH_PARENT = ['setpriv', '--pdeathsig', 'KILL'] if shutil.which('setpriv') else []


def trial(function: Callable[[Room], str]) -> Callable[[Room], str]:
    """Marks a trial of the gate; what it answers is printed."""
    setattr(function, 'is_trial', True)
    return function


class Wrong(Exception):
    """What did not come out as it has to."""


class NotTried(Exception):
    """Why a trial cannot be made here."""


def must(holds: Any, text: str) -> None:
    if not holds:
        raise Wrong(text)


def until(holds: Callable[[], Any], text: str) -> Any:
    """Waits until something holds, and gives it."""
    end = time.monotonic() + LONG
    while not (found := holds()):
        must(time.monotonic() < end, f'{text}: not within {LONG:.0f} s')
        time.sleep(0.01)
    return found


class Room:
    """A folder for a trial, with programs, ports, and what is left of it when it goes wrong."""

    lock = threading.Lock()
    port = random.SystemRandom().randrange(10_000, 30_000)
    # (files of all rooms: a run that is ended takes them away)
    all: list[Room] = []
    library: Optional[bytes] = None

    def __init__(self, programs: str) -> None:
        self.programs = pathlib.Path(programs).resolve()
        self.folder = pathlib.Path(tempfile.mkdtemp(prefix='r10d-'))
        self.disk_library = self.folder / 'disk.so'
        self.started: list[subprocess.Popen[Any]] = []
        with Room.lock:
            Room.all.append(self)
            if Room.library is None:
                Room.library = self.compiled()
        self.has_disk = Room.library != b''
        self.disk_library.write_bytes(Room.library)

    def compiled(self) -> bytes:
        """The library that stands in front of the C library; nothing where it cannot be had."""
        compiler = shutil.which('cc')
        if compiler is None:
            return b''
        source = str(pathlib.Path(__file__).parent / 'disk.c')
        words = [compiler, '-shared', '-fPIC', '-O2', '-Wall', '-Wextra', '-Werror', '-o', str(self.disk_library), source]
        return self.disk_library.read_bytes() if subprocess.run(words).returncode == 0 else b''

    def ports(self, count: int) -> list[int]:
        """Ports that are free now, below those that the system gives by itself."""
        found: list[int] = []
        while len(found) < count:
            with Room.lock:
                Room.port = Room.port + 1 if Room.port < 32_000 else 10_000
                port = Room.port
            with socket.socket(socket.AF_INET, socket.SOCK_DGRAM) as one, socket.socket(
                socket.AF_INET, socket.SOCK_STREAM
            ) as other:
                try:
                    one.bind((HOST, port))
                    other.bind((HOST, port))
                except OSError:
                    continue
            found.append(port)
        return found

    def start(self, command: list[str], **words: Any) -> subprocess.Popen[Any]:
        """Starts a program, which ends with this one."""
        child = subprocess.Popen([*WITH_PARENT, *command], **words)
        self.started.append(child)
        return child

    def load(self, ports: Iterable[int], **words: int) -> subprocess.Popen[str]:
        given = [*(f'{HOST}:{port}' for port in ports), *(f'{key}={value}' for key, value in words.items())]
        return self.start([str(self.programs / 'examples' / 'load'), *given], stdout=subprocess.PIPE, text=True)

    def clear(self) -> None:
        for it in self.folder.iterdir():
            if it != self.disk_library:
                shutil.rmtree(it) if it.is_dir() else it.unlink()

    def end_all(self) -> None:
        for it in self.started:
            if it.poll() is None:
                it.kill()
            it.wait()
        self.started = []

    def close(self) -> None:
        self.end_all()
        shutil.rmtree(self.folder, ignore_errors=True)


def end_by_signal(number: int, _: Optional[FrameType]) -> None:
    """This program is ended: nothing that it started or made stays."""
    for room in Room.all:
        for child in room.started:
            if child.poll() is None:
                child.kill()
        shutil.rmtree(room.folder, ignore_errors=True)
    os._exit(128 + number)


def tidy_up_at_signals() -> None:
    for number in (signal.SIGTERM, signal.SIGINT, signal.SIGHUP):
        signal.signal(number, end_by_signal)


def settings(channels: str, **keys: Any) -> str:
    """The text of a settings file: keys at the top, with what every trial has."""
    top = {
        'medium': 'medium',
        'blocks': 65536,
        'directory': 8,
        'volume': 'TRIAL',
        'nodes': 100,
        'start': 'record',
        'commit_ms': 20,
        'acknowledge': 'lines',
    }
    top.update(keys)
    control = top.pop('control', '')
    lines = [f'{key} = {json.dumps(value)}' for key, value in top.items() if value is not None]
    return '\n'.join(lines) + f'\n[control]\nsocket = "control"\n{control}\n' + channels


def udp_channels(ports: Iterable[int], first: int = 5, more: str = '') -> str:
    return ''.join(
        f'[[channel]]\nid = {first + n}\nkind = "message"\ninput = {{ udp = "{HOST}:{port}", receive_mib = 32 }}\n{more}'
        for n, port in enumerate(ports)
    )


def channel(number: int, kind: str, where: str, more: str = '') -> str:
    return f'[[channel]]\nid = {number}\nkind = "{kind}"\n{KINDS[kind].settings}{more}input = {{ {where} }}\n'


class Service:
    """r10d that runs in a folder, by a settings file."""

    def __init__(
        self,
        room: Room,
        text: Optional[str] = None,
        disk: Optional[dict[str, Any]] = None,
        environment: Optional[dict[str, str]] = None,
        wait: bool = True,
        stdin: Any = subprocess.DEVNULL,
        log: Any = None,
    ) -> None:
        self.room, self.folder = room, room.folder
        if text is not None:
            (self.folder / 'settings.toml').write_text(text)
        around = dict(os.environ, **(environment or {}))
        if disk is not None:
            around.update(
                {
                    'LD_PRELOAD': str(room.disk_library),
                    'DISK': str(self.folder / 'medium'),
                    'DISK_LINES': str(self.folder / 'lines'),
                }
            )
            around.update({f'DISK_{key.upper()}': str(value) for key, value in disk.items()})
        # what `.TMATS READ` says
        self.setup: list[str] = []
        self.log_path = self.folder / 'log'
        self.log_start = self.log_path.stat().st_size if self.log_path.exists() else 0
        with open(self.log_path, 'ab') as to:
            # (the manager gives the number of the process that has to beat)
            command = ['sh', '-c', 'WATCHDOG_PID=$$ exec "$0" settings.toml', str(room.programs / 'r10d')]
            self.child = room.start(
                command, cwd=self.folder, env=around, stderr=to if log is None else log, stdin=stdin, stdout=subprocess.DEVNULL
            )
        if wait:
            self.wait_for('is ready')

    def until_there(self) -> None:
        """Until it answers."""
        while True:
            try:
                self.ask('.STATUS')
                return
            except (FileNotFoundError, ConnectionRefusedError):
                must(self.child.poll() is None, 'the service has ended')
                time.sleep(0.01)

    def log(self) -> str:
        with open(self.log_path, 'rb') as it:
            it.seek(self.log_start)
            return it.read().decode(errors='replace')

    def wait_for(self, text: str) -> None:
        """Until a text stands in the log."""
        end = time.monotonic() + LONG
        while text not in self.log():
            if self.child.poll() is not None and text not in self.log():
                raise Wrong(f'the service ended with {self.child.returncode} before its log has {text!r}:\n{self.log()}')
            if time.monotonic() > end:
                raise Wrong(f'{text!r} is not in the log:\n{self.log()}')
            time.sleep(0.01)

    def ask(self, *lines: str, path: Optional[tuple[str, int]] = None) -> list[str]:
        """What is answered to these commands, without the ends."""
        with socket.socket(socket.AF_INET if path else socket.AF_UNIX) as it:
            it.settimeout(LONG)
            it.connect(path or str(self.folder / 'control'))
            stream = it.makefile('rw')
            found = []
            for line in lines:
                stream.write(line + '\n')
                stream.flush()
                while (text := stream.readline()) != '*\n':
                    if not text:
                        raise Wrong(f'{line}: the connection is closed')
                    found.append(text.rstrip('\n'))
            return found

    def figures(self) -> dict[str, Any]:
        return json.loads(self.ask('.FIGURES')[0])

    def clock(self) -> int:
        """Whether the machine's clock is not in sync, which is one warning of `.STATUS`."""
        return 0 if self.figures()['clock']['synchronised'] else 1

    def until(self, holds: Callable[[dict[str, Any]], Any], text: str, patience: float = LONG) -> dict[str, Any]:
        """Until something holds of the figures."""
        end = time.monotonic() + patience
        while not holds(figures := self.figures()):
            if time.monotonic() > end:
                raise Wrong(f'{text}: {figures}:\n{self.log()}')
            time.sleep(0.02)
        return figures

    def until_durable(self, count: int, patience: float = LONG) -> dict[str, Any]:
        """Until so many messages are durable or lost, of all channels."""

        def is_there(figures: dict[str, Any]) -> bool:
            return sum(it['durable'] + it['lost'] for it in figures['channels']) >= count

        return self.until(is_there, f'of {count} messages not all came', patience)

    def end(self, how: int = signal.SIGTERM, status: Optional[int] = 0) -> float:
        """Ends it, and says how long that took."""
        start = time.monotonic()
        self.child.send_signal(how)
        try:
            found = self.child.wait(LONG)
        except subprocess.TimeoutExpired:
            self.child.kill()
            raise Wrong(f'the service does not end:\n{self.log()}') from None
        took = time.monotonic() - start
        if how != signal.SIGKILL and status is not None:
            must(found == status, f'status {found}:\n{self.log()}')
        return took

    def kill(self) -> None:
        if self.child.poll() is None:
            self.child.kill()
        self.child.wait()


def r10(words: list[str], image: bytes) -> tuple[int, str]:
    ran = subprocess.run([R10, *words], input=image, stdout=subprocess.PIPE, stderr=subprocess.PIPE)
    return ran.returncode, ran.stdout.decode() + (ran.stderr.decode() if ran.returncode else '')


def files(image: bytes) -> list[list[str]]:
    """The files of a medium, as r10 lists them: name, size, blocks, closed."""
    status, out = r10(['files'], image)
    must(status == 0, f'r10 files: {out}')
    return [line.split(' ')[2:] for line in out.splitlines()]


Entry = collections.namedtuple('Entry', 'channel count gap kind words')


def entries(image: bytes, file: int, channel: Optional[int] = None) -> list[Entry]:
    """The entries of a file, which r10 reads only if it is strict."""
    status, out = r10(['play', '--file', str(file), *(['--channel', str(channel)] if channel is not None else [])], image)
    must(status == 0, f'r10 play --file {file}: {out[:300]}')
    found = []
    for line in out.splitlines():
        _, place, count, gap, kind, *words = line.split(' ')
        found.append(Entry(int(place), int(count), gap, kind, words))
    return found


# what follows the numbers of a message of load goes on from one of these bytes
BODY = bytes(range(256)) * 257


def load_numbers(found: list[Entry]) -> list[tuple[int, int, int]]:
    """Run, number and gap of each message of load, whose bytes are compared with what they have to be."""
    numbers = []
    for entry in found:
        body = bytes.fromhex(entry.words[-1])
        run, number = int.from_bytes(body[:8], 'little'), int.from_bytes(body[8:16], 'little')
        wanted = BODY[number * 31 % 256 :][: len(body) - 16]
        must(body[16:] == wanted, f'message {number} of run {run} has other bytes')
        numbers.append((run, number, int(entry.gap.rstrip('+') or 0)))
    return numbers


def judge(image: bytes, acknowledged: dict[tuple[int, int], int], channels: Iterable[int]) -> dict[str, int]:
    """Compares a medium with what was acknowledged of it, by file and channel: how many messages are there, and how many are
    missing that no gap tells of, within a file, and before a file's first message."""
    listed = files(image)
    last: dict[int, tuple[int, int]] = {}
    for (file, channel), count in acknowledged.items():
        must(file < len(listed), f'file {file} is not there, and {count} messages of it on channel {channel} were acknowledged')
    total = collections.Counter(files=len(listed))
    for file in range(len(listed)):
        of: dict[int, list[Entry]] = collections.defaultdict(list)
        for entry in entries(image, file):
            of[entry.channel].append(entry)
        for channel in channels:
            numbers = load_numbers(of[channel])
            wanted = acknowledged.get((file, channel), 0)
            must(len(numbers) >= wanted, f'file {file} channel {channel}: {len(numbers)} messages, and {wanted} were acknowledged')
            for (run, before, _), (other, number, gap) in zip(numbers, numbers[1:]):
                if run == other:
                    must(number > before, f'file {file} channel {channel}: message {number} comes after {before}')
                    total['untold'] += max(0, number - before - 1 - gap)
            if numbers:
                run, number, gap = numbers[0]
                other, before = last.get(channel, (run, -1))
                total['untold_before'] += max(0, number - (before if other == run else -1) - 1 - gap)
                last[channel] = numbers[-1][:2]
            total['messages'] += len(numbers)
            total['acknowledged'] += wanted
    return dict(total)


def lines_of(text: str) -> dict[tuple[int, int], int]:
    """What the service's acknowledged lines say last, by file and channel. What is no whole line does not count."""
    found: dict[tuple[int, int], int] = {}
    for line in text.split('\n')[:-1]:
        if match := re.fullmatch(r'durable (\d+) (\d+) (\d+)', line):
            file, channel, count = map(int, match.groups())
            found[file, channel] = count
    return found


class Trail:
    """The operations of a run, in their order: writes, syncs, and lines."""

    def __init__(self, path: pathlib.Path) -> None:
        text, at = path.read_bytes(), 0
        self.steps: list[tuple[str, int, bytes]] = []
        while at < len(text):
            kind = chr(text[at])
            if kind == 'S':
                self.steps.append(('S', 0, b''))
                at += 1
                continue
            heads = 2 if kind == 'W' else 1
            begin = at + 1 + 8 * heads
            offset = int.from_bytes(text[at + 1 : at + 9], 'little') if kind == 'W' else 0
            length = int.from_bytes(text[begin - 8 : begin], 'little')
            if begin + length > len(text):
                break  # the last record of a killed service
            self.steps.append((kind, offset, text[begin : begin + length]))
            at = begin + length

    def cuts(
        self, image: bytes, places: list[int], chance: random.Random, ways: Iterable[int] = (0, 1, 2, 3)
    ) -> Iterable[tuple[int, int, bytes, str, list[int]]]:
        """The media that a loss of power after so many steps may leave, what was acknowledged before it, and the blocks that were
        written since the last sync. Of each of these there is one of its contents: by chance; the oldest of all; all old but one;
        all new but one."""
        left, unsure, said, at = bytearray(image), collections.OrderedDict[int, list[bytes]](), '', 0
        for place in places:
            for kind, offset, data in self.steps[at:place]:
                if kind == 'S':
                    unsure.clear()
                elif kind == 'A':
                    said += data.decode()
                else:
                    for start in range(0, len(data), 512):
                        block = (offset + start) // 512
                        unsure.setdefault(block, [bytes(left[512 * block : 512 * block + 512])]).append(data[start : start + 512])
                        left[512 * block : 512 * block + 512] = data[start : start + 512]
            at = place
            for way in ways:
                cut, special = bytearray(left), chance.choice(list(unsure)) if unsure else None
                for block, contents in unsure.items():
                    new, old = contents[-1], contents[0]
                    one = (
                        chance.choice(contents)
                        if way == 0
                        else old
                        if way == 1
                        else (new if block == special else old)
                        if way == 2
                        else old
                        if block == special
                        else new
                    )
                    cut[512 * block : 512 * block + 512] = one
                yield place, way, bytes(cut), said, list(unsure)


def report(name: str, start: float, text: str) -> None:
    print(f'{name}: {text} ({time.monotonic() - start:.1f} s)', flush=True)


def fault(why: str) -> None:
    print(f'recorder: {why}', file=sys.stderr)
    sys.exit(1)
