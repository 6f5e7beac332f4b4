"""Bounds for trials that start processes: one that works or waits too long is ended, and what it was at is printed.

    with bounded('two calls at a time', dsn):
        ..

A trial may use so many seconds of processors, in this process and all below it, a server's too. That finds a loop. And it may
use next to nothing of them for so many seconds. That finds a wait for something that never comes. How long a trial takes is no
bound: on a slow machine, or one with much else to do, it takes long.
"""
from __future__ import annotations

import contextlib
import os
import pathlib
import resource
import signal
import sys
import threading
import time
from typing import Any, Callable, Dict, Iterator, List, NamedTuple, Optional

WORK, PASSED = 120.0, 600.0  # seconds of processors that a trial may take, and seconds in which it has to take
LEAST = 0.005  # of a processor
TICK = os.sysconf('SC_CLK_TCK')


class Hung(Exception):
    """A trial that was ended."""


class Process(NamedTuple):
    number: int
    parent: int
    state: str
    work: float
    name: str


def processes() -> Dict[int, Process]:
    """All that run here: each with the seconds of processors that it and those below it that have ended took."""
    found = {}
    for place in pathlib.Path('/proc').iterdir():
        if place.name.isdigit():
            with contextlib.suppress(OSError, IndexError):
                name, _, rest = (place / 'stat').read_text().rpartition(') ')
                fields = rest.split(' ')
                words = (place / 'cmdline').read_bytes().replace(b'\0', b' ').decode(errors='replace').strip()
                found[int(place.name)] = Process(int(place.name), int(fields[1]), fields[0], sum(map(int, fields[11:15])) / TICK,
                                                 words or name.partition('(')[2])
    return found


def below(top: int) -> List[Process]:
    """The processes below one."""
    every = processes()
    children: Dict[int, List[int]] = {}
    for one in every.values():
        children.setdefault(one.parent, []).append(one.number)
    made, left = [], list(children.get(top, []))
    while left:
        number = left.pop()
        made.append(every[number])
        left += children.get(number, [])
    return made


def work_so_far() -> float:
    """Seconds of processors of this process and of all below it, those that have ended too."""
    ended = resource.getrusage(resource.RUSAGE_CHILDREN)
    return time.process_time() + ended.ru_utime + ended.ru_stime + sum(one.work for one in below(os.getpid()))


ASKED = ("SELECT pid, state, coalesce(wait_event_type || ' ' || wait_event, '-'), now() - query_start, left(query, 300) FROM "
         "pg_stat_activity "
         "WHERE backend_type = 'client backend' AND pid <> pg_backend_pid()",
         'SELECT pid, mode, granted, count(*) FROM pg_locks WHERE pid <> pg_backend_pid() GROUP BY 1, 2, 3 ORDER BY 1, 2')


def said_by_server(dsn: str) -> List[str]:
    """What a server's sessions are at, and their locks."""
    try:
        import psycopg2
        with contextlib.closing(psycopg2.connect(dsn, connect_timeout=10)) as base:
            cursor = base.cursor()
            made = []
            for text in ASKED:
                cursor.execute(text)
                made += ['  ' + ' | '.join(map(str, row)) for row in cursor.fetchall()]
            return made
    except Exception as error:
        return ['  the server does not answer: %s' % ' '.join(str(error).split())]


def report(what: str, work: float, passed: float, dsn: Optional[str]) -> str:
    """What is printed of a trial that is ended."""
    lines = ['%s: ended after %.0f s, of which processors worked %.1f s; load of the machine %.1f'
             % (what, passed, work, os.getloadavg()[0])]
    lines += ['  %d %s %.1f s: %.200s' % (one.number, one.state, one.work, one.name) for one in below(os.getpid())]
    return '\n'.join(lines + (said_by_server(dsn) if dsn else []))


def end_all() -> None:
    """Ends the processes below this one. A server is asked to stop at once, and stops its own."""
    for one in below(os.getpid()):
        is_server = os.path.basename(one.name.split(' ')[0]) == 'postgres'
        if one.name.startswith('postgres:'):
            continue
        with contextlib.suppress(ProcessLookupError):
            os.kill(one.number, signal.SIGQUIT if is_server else signal.SIGKILL)


@contextlib.contextmanager
def bounded(what: str, dsn: Optional[str] = None, work: float = WORK, passed: float = PASSED,
            say: Callable[[str], Any] = lambda line: None) -> Iterator[None]:
    """Does what is inside, within bounds; else it ends all below this process, and raises Hung. Says at the end what it took."""
    start, before, over, found = time.monotonic(), work_so_far(), threading.Event(), []

    def watch() -> None:
        since, then = start, 0.0
        while not over.wait(0.5):
            used, now = work_so_far() - before - time.thread_time(), time.monotonic()
            is_quiet = now - since > passed and used - then < LEAST * (now - since)
            if used > work or is_quiet:
                found.append(report(what, used, now - start, dsn))
                end_all()
                signal.pthread_kill(threading.main_thread().ident, signal.SIGALRM)
                return
            if now - since > passed:
                since, then = now, used

    def ring(*_: Any) -> None:
        if not over.is_set():
            raise Hung(found[0])

    kept = signal.signal(signal.SIGALRM, ring)
    thread = threading.Thread(target=watch, daemon=True)
    thread.start()
    try:
        yield
    except Exception as error:
        over.set()
        thread.join()
        if found and not isinstance(error, Hung):
            raise Hung(found[0]) from error  # what came of the end
        raise
    finally:
        over.set()
        thread.join()
        signal.signal(signal.SIGALRM, kept)
    say('%s: %.1f s, of which processors worked %.1f s' % (what, time.monotonic() - start, work_so_far() - before))


def ends_on_term() -> None:
    """SIGTERM ends this process as an exception does: what it started is stopped, and its folders are removed. SIGINT does too,
    also where a shell that started this one in the background has it ignored: what is started here would ignore it too."""
    signal.signal(signal.SIGTERM, lambda *_: sys.exit(143))
    signal.signal(signal.SIGINT, signal.default_int_handler)
