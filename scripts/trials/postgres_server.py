#!/usr/bin/env python3
"""A PostgreSQL server of one's own, for trials: on a UNIX socket in a folder of its own, gone when the trial ends.

    scripts/trials/postgres_server.py COMMAND ..    # runs a command with the server's DSN in CH10_DB, and in place of {} in its
                                                    # words

It takes the distribution's server (postgresql-15 or another) and listens on no port. Root cannot run it, so then another user does:
postgres or nobody.
"""
from __future__ import annotations

import contextlib
import ctypes
import glob
import os
import pwd
import shutil
import signal
import subprocess
import sys
import tempfile
import time
from typing import Callable, Iterator, List, Optional, Sequence

PARENT_DEATH = 1  # of prctl
MOST_START = 1200  # seconds until a server answers


class NotThere(Exception):
    """Why there is no server here."""


def folder_of_programs() -> str:
    """Where the newest server's programs are."""
    found = sorted(glob.glob('/usr/lib/postgresql/*/bin/postgres'),
                   key=lambda path: [int(part) for part in path.split('/')[4].split('.') if part.isdigit()])
    if found:
        return os.path.dirname(found[-1])
    here = shutil.which('postgres')
    if here and shutil.which('initdb'):
        return os.path.dirname(os.path.realpath(here))
    raise NotThere('no PostgreSQL server here (Debian: postgresql)')


def other_user() -> Optional[pwd.struct_passwd]:
    """Who runs the server where this program is root."""
    if os.geteuid() != 0:
        return None
    for name in ('postgres', 'nobody'):
        with contextlib.suppress(KeyError):
            return pwd.getpwnam(name)
    raise NotThere('root cannot run a PostgreSQL server, and there is no user postgres or nobody')


def turned_to(user: Optional[pwd.struct_passwd]) -> Callable[[], None]:
    """What a child does before it begins: becomes that user, and ends when this program does."""
    def turn() -> None:
        if user is not None:
            os.setgroups([])
            os.setgid(user.pw_gid)
            os.setuid(user.pw_uid)
        with contextlib.suppress(OSError, AttributeError):
            ctypes.CDLL(None).prctl(PARENT_DEATH, signal.SIGINT)
    return turn


def can_connect(programs: str, folder: str) -> bool:
    done = subprocess.run([os.path.join(programs, 'pg_isready'), '-q', '-h', folder, '-t', '1'], stdout=subprocess.DEVNULL,
                          stderr=subprocess.DEVNULL)
    return done.returncode == 0


class Server:
    """A server with one empty database, in a folder of its own."""

    def __init__(self, settings: Sequence[str] = ()) -> None:
        self.programs, self.user, self.settings = folder_of_programs(), other_user(), settings
        self.folder = tempfile.mkdtemp(prefix='ch10-pg-', dir='/tmp')
        self.dsn = 'host=%s user=postgres dbname=postgres' % self.folder
        self.running: Optional[subprocess.Popen] = None

    def make(self) -> None:
        os.chmod(self.folder, 0o755)
        if self.user is not None:
            os.chown(self.folder, self.user.pw_uid, self.user.pw_gid)
        made = subprocess.run([os.path.join(self.programs, 'initdb'), '-D', os.path.join(self.folder, 'data'), '-U', 'postgres',
                               '-A', 'trust', '-E', 'UTF8',
                               '--locale=C', '--no-sync'], stdin=subprocess.DEVNULL, stdout=subprocess.PIPE,
                              stderr=subprocess.STDOUT,
                              preexec_fn=turned_to(self.user), cwd=self.folder)
        if made.returncode:
            raise NotThere('initdb: ' + made.stdout.decode(errors='replace').strip().splitlines()[-1])

    def start(self) -> None:
        """Starts it, and waits until it answers: minutes, where the machine has much else to do."""
        words = [os.path.join(self.programs, 'postgres'), '-D', os.path.join(self.folder, 'data'), '-k', self.folder, '-c',
                 'listen_addresses=']
        for setting in self.settings:
            words += ['-c', setting]
        with open(os.path.join(self.folder, 'log'), 'ab') as log:
            self.running = subprocess.Popen(words, stdin=subprocess.DEVNULL, stdout=log, stderr=log,
                                            preexec_fn=turned_to(self.user), cwd=self.folder)
        end = time.monotonic() + MOST_START
        while not can_connect(self.programs, self.folder):
            if self.running.poll() is not None or time.monotonic() > end:
                with open(os.path.join(self.folder, 'log'), errors='replace') as log:
                    raise NotThere('the server does not start: ' + ' '.join(log.read().split())[-300:])
            time.sleep(0.05)

    def kill(self) -> None:
        """Kills it and the processes that it started, by their numbers, as a machine does that fails."""
        numbers = [self.running.pid] + children_of(self.running.pid)
        for number in numbers:
            with contextlib.suppress(ProcessLookupError):
                os.kill(number, signal.SIGKILL)
        self.running.wait()
        while any(os.path.exists('/proc/%d' % number) and not is_ended(number) for number in numbers):
            time.sleep(0.02)

    def stop(self) -> None:
        if self.running is not None and self.running.poll() is None:
            self.running.send_signal(signal.SIGINT)
            try:
                self.running.wait(30)
            except subprocess.TimeoutExpired:
                self.running.send_signal(signal.SIGQUIT)
                self.running.wait()

    def remove(self) -> None:
        self.stop()
        shutil.rmtree(self.folder, ignore_errors=True)


def status_of(number: int) -> List[str]:
    """State and parent of a process, and what follows."""
    with open('/proc/%d/stat' % number) as file:
        return file.read().rpartition(') ')[2].split(' ')


def is_ended(number: int) -> bool:
    try:
        return status_of(number)[0] in 'ZX'
    except OSError:
        return True


def children_of(parent: int) -> List[int]:
    found = []
    for name in os.listdir('/proc'):
        if name.isdigit():
            with contextlib.suppress(OSError):
                if int(status_of(int(name))[1]) == parent:
                    found.append(int(name))
    return found


@contextlib.contextmanager
def running_server(settings: Sequence[str] = ()) -> Iterator[Server]:
    """A server that runs; it is stopped and its folder removed at the end."""
    one = Server(settings)
    try:
        one.make()
        one.start()
        yield one
    finally:
        one.remove()


@contextlib.contextmanager
def server(settings: Sequence[str] = ()) -> Iterator[str]:
    """Starts a server and gives the DSN of its one empty database; stops it and removes its folder at the end."""
    with running_server(settings) as one:
        yield one.dsn


def main(words: List[str]) -> int:
    if not words:
        print(__doc__)
        return 2
    try:
        signal.signal(signal.SIGTERM, lambda *_: sys.exit(143))  # so that the server is stopped then too
        with server() as dsn:
            return subprocess.run([word.replace('{}', dsn) for word in words], env=dict(os.environ, CH10_DB=dsn)).returncode
    except NotThere as why:
        print('NOT TRIED: %s' % why)
        return 0


if __name__ == '__main__':
    sys.exit(main(sys.argv[1:]))
