#!/usr/bin/env python3
"""Trials of the queue of recordings in PostgreSQL, and of workers that take from it.

    scripts/trials/range_queue.py check [--times]    # in seconds: what range_trials.py check does of it
    scripts/trials/range_queue.py kills [COUNT]      # the server killed so many times, and a worker at each statement
    scripts/trials/range_queue.py network [KILLS]    # two workers in two network namespaces, one of them killed so many times, and
                                                     # cut off from the network
    scripts/trials/range_queue.py figures [--added N] [--recordings N] [--entries N] [--each N] [--bound SECONDS] [--jobs N]
                                                     # times and sizes of a large catalogue, and of days of entries

The server is one of its own. Where there is none, no driver, or no namespace, a line says what was NOT TRIED. No trial waits for a
time: it waits for what it looks for, and makes leases end by setting them back in the table.
"""
from __future__ import annotations

import argparse
import contextlib
import datetime
import itertools
import os
import pathlib
import random
import signal
import struct
import subprocess
import sys
import tempfile
import time
from concurrent.futures import ThreadPoolExecutor
from typing import Any, Callable, Dict, Iterator, List, Optional, Sequence, Tuple

sys.dont_write_bytecode = True
TOP = pathlib.Path(__file__).resolve().parents[2]
sys.path[1:1] = map(str, [TOP, *(TOP / 'scripts').iterdir()])  # modules of the other folders

from ch10.python import with_numpy  # noqa: E402

with_numpy()
from ch10 import queue_worker  # noqa: E402
from ch10.range_words import place  # noqa: E402
from ch10.store import open_store  # noqa: E402
from ch10.store_schema import ENTRIES  # noqa: E402
from ch10.work_queue import MOST_RETURNS, Item, Lost, Rules, WorkQueue, path_in  # noqa: E402
from made_kinds import FEW, text_body  # noqa: E402
from postgres_server import NotThere, Server, running_server, server  # noqa: E402
from range_calls import Bad, agree, ch10, ends_with_parent, program, state  # noqa: E402
from range_limits import Hung, bounded, ends_on_term  # noqa: E402
from range_recordings import packet, recording, time_body  # noqa: E402

RULES = Rules(3, 1000.0, 0.0)  # leases end where a trial says so
WORDS = ['--lease', '1000', '--pause', '1', '--patience', '1200', '--jobs', '1', '--load']
HOUR = "UPDATE queue SET due = now() - interval '1 hour' WHERE state <> 'apart'"
WAITS, ENDS_READER, ENDS_WORKER = 'WAITS', 'ENDS-READER', 'ENDS-WORKER'

# In place of the program: what a recording's setup text says decides whether it waits, or kills who reads it.
STAND_IN = r"""#!%s
import os, signal, sys, time
if sys.argv[1] == '--version':
    print('r10 stand-in')
    sys.exit()
folder, data = os.path.dirname(os.path.abspath(__file__)), sys.stdin.buffer.read()
reader = os.getppid()
with open('/proc/%%d/stat' %% reader) as stat:
    worker = int(stat.read().rpartition(') ')[2].split(' ')[1])
if b'ENDS-WORKER' in data:
    os.kill(worker, signal.SIGKILL)
if b'ENDS-' in data:
    os.kill(reader, signal.SIGKILL)
if b'WAITS' in data:
    open(os.path.join(folder, 'waits'), 'w').close()
    while not os.path.exists(os.path.join(folder, 'go')) and os.getppid() == reader:  # else nobody waits for it
        time.sleep(0.02)
print('strict')
"""


def stand_in(room: str) -> str:
    """Writes the program that waits or kills, into a folder of its own; answers its path."""
    folder = os.path.join(room, 'stand-in')
    os.makedirs(folder, exist_ok=True)
    path = os.path.join(folder, 'r10')
    if not os.path.exists(path):
        pathlib.Path(path).write_text(STAND_IN % sys.executable)
        os.chmod(path, 0o755)
    for name in ('waits', 'go'):
        with contextlib.suppress(OSError):
            os.unlink(os.path.join(folder, name))
    return path


def marked(word: str, number: int) -> bytes:
    """A short recording with a word in its setup text, of a day and content of its own."""
    text = ('G\\PN:%s %d;\r\n' % (word, number)).encode()
    moment = datetime.datetime(2024, 1, 1) + datetime.timedelta(days=number)
    return (packet(0, 0, 0x01, 0, struct.pack('<I', 0x0C) + text) + packet(1, 0, 0x11, 10, time_body(moment))
            + packet(5, 0, 0x50, 11, text_body([(2, b'ab')] * 5, 11, 1 << 31)))


def marked_range(folder: str, words: Sequence[str]) -> List[str]:
    """A folder with a recording for each word; their paths."""
    os.makedirs(folder)
    paths = []
    for number, word in enumerate(words):
        paths.append(os.path.join(folder, 'r%03d.ch10' % number))
        pathlib.Path(paths[-1]).write_bytes(marked(word, number))
    return paths


@contextlib.contextmanager
def opened(dsn: str) -> Iterator[Any]:
    """A session of the trial's own."""
    with contextlib.closing(open_store(dsn)) as store:
        yield store


def cleared(dsn: str) -> None:
    """Takes all out of a database."""
    with opened(dsn) as store:
        for table in ['queue', 'loaded', 'recording'] + [table for table, _ in ENTRIES.values()]:
            store.rows('DELETE FROM ' + table)


def queued(dsn: str, folder: str) -> None:
    """Puts the recordings of a folder into the queue by the command."""
    ch10(['catalogue', 'queue', '--db', dsn, folder])


def wait_for(what: str, is_so: Callable[[], Any]) -> None:
    """Waits for something; the bounds of the trial end what never comes."""
    while not is_so():
        time.sleep(0.02)
    del what


class Called:
    """A worker, as a program of its own, in a session of its own; what it writes is kept in files."""

    def __init__(self, room: str, dsn: str, made: Optional[str], more: Sequence[str] = (), before: Sequence[str] = ()) -> None:
        self.out = tempfile.TemporaryFile(dir=room)
        self.errors = tempfile.TemporaryFile(dir=room)
        words = [*before, sys.executable, str(TOP / 'scripts' / 'ch10.py'), 'catalogue', 'work', '--db', dsn, *WORDS, *more]
        words += ['--program', made] if made else ['--unjudged']
        self.process = subprocess.Popen(words, stdin=subprocess.DEVNULL, stdout=self.out, stderr=self.errors,
                                        preexec_fn=ends_with_parent, start_new_session=True)

    def said(self) -> str:
        """What it wrote, on both streams."""
        text = ''
        for file in (self.out, self.errors):
            file.seek(0)
            text += file.read().decode()
        return text

    def signal(self, number: int) -> None:
        """Sends a signal to it and its readers."""
        os.killpg(self.process.pid, number)

    def ended(self, status: int = 0) -> str:
        """Waits for its end, which has to be so; what it wrote."""
        found = self.process.wait()
        if found != status:
            raise Bad('a worker ends with %d, wanted %d: %s' % (found, status, self.said()[-600:]))
        return self.said()


def need_all_once(dsn: str, paths: Sequence[str], apart: Sequence[str] = ()) -> None:
    """That each recording stands in the catalogue once, with all of it and all of its entries, and that the queue has only what
    is set apart."""
    found = state(dsn)
    agree(found['halves'], 0, 'halves')
    with opened(dsn) as store:
        agree(sorted(path for path, in store.rows('SELECT path FROM place')),
              sorted(set(map(place, paths)) - set(map(place, apart))), 'places in the catalogue')
        agree([path for path, in store.rows('SELECT path FROM queue ORDER BY path')], sorted(map(place, apart)),
              'what is left in the queue')
        agree(store.rows('SELECT count(*) FROM channel c WHERE entries > 0 AND data_type IN (%s) AND NOT EXISTS (SELECT 1 FROM '
                         'loaded l WHERE l.recording = c.recording AND l.channel = c.channel)' % ', '.join(map(str, ENTRIES))),
              [(0,)], 'channels whose entries are not loaded')


# ---- the queue by itself

def check_takes(room: str, dsn: str) -> None:
    """Two sessions never get the same recording and never wait for each other; each try counts, and their number is bounded."""
    cleared(dsn)
    with opened(dsn) as one, opened(dsn) as other:
        first, second = WorkQueue(one, 'first'), WorkQueue(other, 'second')
        other.rows("SET lock_timeout = '60s'")  # which a take never meets, however slow the machine is
        first.put([('/%d' % number, '/%d' % number, '/') for number in range(3)], False)
        one.begin()
        with contextlib.ExitStack() as held:  # the first one's take is under way
            held.callback(one.rows, 'ROLLBACK')
            begin, end, one.begin, one.end = one.begin, one.end, lambda: None, lambda how: None
            held.callback(setattr, one, 'begin', begin)
            held.callback(setattr, one, 'end', end)
            mine, yours = first.take(RULES), second.take(RULES)
            agree((mine and mine.path, yours and yours.path), ('/0', '/1'), 'two takes at a time')
        taken = [second.take(RULES), first.take(RULES), second.take(RULES)]
        agree([it and it.path for it in taken], ['/0', '/2', None], 'takes one after the other')
        agree([it.tries for it in taken if it], [1, 1], 'a take that was undone counts nothing')
        item = taken[0]
        assert item
        second.need_mine(item)
        one.rows(HOUR)
        second.renew([(item, 'second')], RULES)
        agree([it and it.path for it in (first.take(RULES), first.take(RULES), first.take(RULES))], ['/1', '/2', None],
              'what is taken after an hour, but for one that was renewed')
        one.rows(HOUR)
        agree(len([it for it in iter(lambda: first.take(RULES), None)]), 3, 'takes after another hour')
        for act in (second.need_mine, second.done):
            with contextlib.suppress(Lost):
                act(item)
                raise Bad('a worker whose lease was taken over goes on: %s' % act.__name__)
        agree(second.failed(item, 'why', RULES), 'lost', 'a failure of who has it no more')
        one.rows(HOUR)
        second.renew([(item, 'second')], RULES)
        agree(one.rows("SELECT count(*) FROM queue WHERE due > now() - interval '1 minute'"), [(0,)], 'leases of others, renewed')


def check_bounds_of_tries(room: str, dsn: str) -> None:
    """A recording whose workers end without a word, one that fails, and one that is given back: each is set apart in the end."""
    ways: Dict[str, Tuple[int, str, Callable[[WorkQueue, Item], Any]]] = {
        'ends': (3, 'its worker ends ended, or was cut off', lambda queue, item: queue.store.rows(HOUR)),
        'fails': (3, 'broken', lambda queue, item: queue.failed(item, 'broken', RULES)),
        'returns': (MOST_RETURNS + 1, 'no disk', lambda queue, item: queue.give_back(item, 'no disk', RULES))}
    for name, (most, why, act) in ways.items():
        cleared(dsn)
        with opened(dsn) as store:
            queue = WorkQueue(store, name)
            queue.put([('/it', '/it', '/')], False)
            takes = 0
            while takes <= most:
                item = queue.take(RULES)
                if item is None:
                    break
                takes += 1
                act(queue, item)
            queue.sweep(RULES)
            agree((takes, [(where, reason) for where, reason, _ in queue.apart()]), (most, [('/it', why)]),
                  'tries of what ' + name)
            agree(queue.put([('/it', '/it', '/')], False), (0, []), 'what is set apart, queued again')
            agree((queue.has_work(), queue.take(RULES)), (False, None), 'what is set apart')
            queue.put([('/it', '/it', '/')], True)
            agree(queue.counts(), (1, 0, 0), 'what is set apart, queued with --again')


# ---- workers

def check_two_workers(room: str, dsn: str, made: str) -> None:
    """Two workers do all once, an image and a damaged recording too; what they say adds up."""
    cleared(dsn)
    folder = os.path.join(room, 'queued')
    os.makedirs(folder)
    for number in range(8):
        pathlib.Path(folder, 'r%03d.ch10' % number).write_bytes(recording(5, number, 20000, FEW))
    pathlib.Path(os.fsdecode(os.path.join(os.fsencode(folder), b'\xff \\x41.ch10'))).write_bytes(recording(5, 8, 20000, FEW))
    paths = [os.path.join(folder, name) for name in os.listdir(folder)]
    agree(sorted(os.fsdecode(path_in(place(path))) for path in paths), sorted(paths), 'paths that places lead back to')
    queued(dsn, folder)
    queued(dsn, folder)
    both = [Called(room, dsn, made, ['--jobs', '2']) for _ in range(2)]
    lines = [line for one in both for line in one.ended().splitlines()]
    agree(sum(line.startswith('added ') for line in lines), len(paths), 'lines of what two workers added')
    need_all_once(dsn, paths)
    for path in paths:
        os.utime(path, (0, 0))
    said = ch10(['catalogue', 'queue', '--db', dsn, folder]).splitlines()
    agree(said[0], '0 queued, 0 in the queue before, %d in the catalogue as they lie there' % len(paths), 'queued once more')


def check_poisoned(room: str, dsn: str) -> None:
    """A recording that kills its reader, and one that kills its worker: after so many tries they are set apart with their reasons,
    and all others are added."""
    cleared(dsn)
    folder, made = os.path.join(room, 'poisoned'), stand_in(room)
    paths = marked_range(folder, ['', ENDS_READER, ENDS_WORKER, '', ''])
    queued(dsn, folder)
    starts, most = 0, 2
    while True:
        starts += 1
        one = Called(room, dsn, made, ['--tries', str(most)])
        if one.process.wait() != -signal.SIGKILL:
            break
        agree(starts <= most, True, 'so few workers are killed')
        with opened(dsn) as store:
            store.rows(HOUR)
    said = one.ended(3)
    need_all_once(dsn, paths, paths[1:3])
    agree('set apart %s: its worker ch10 ' % paths[2] in said and 'ch10 catalogue queue lists them' in said, True,
          'what the last worker says: ' + said)
    with opened(dsn) as store:
        whys = [why for _, why, _ in WorkQueue(store).apart()]
        agree([why.startswith(front) for why, front in zip(whys, ('the process that read it ended', 'its worker ch10 '))],
              [True, True], 'the reasons %s' % whys)
    listed = ch10(['catalogue', 'queue', '--db', dsn]).splitlines()
    agree([line.split(':')[0] for line in listed[:2]], ['set apart ' + path for path in paths[1:3]], 'what the command lists')


def waiting_worker(room: str, dsn: str, name: str, more: Sequence[str] = (), before: Sequence[str] = (),
                   words: Sequence[str] = (WAITS, ''), at: Optional[str] = None) -> Tuple[Called, List[str], Callable[[], None]]:
    """A worker amid a recording, whose program waits; the paths of that and of others, and what lets the program go on. `at` is the
    database as the worker reaches it."""
    cleared(dsn)
    folder, made = os.path.join(room, name), stand_in(room)
    paths = marked_range(folder, words)
    queued(dsn, folder)
    one = Called(room, at or dsn, made, more, before)
    beside = os.path.dirname(made)
    wait_for('the program', lambda: os.path.exists(os.path.join(beside, 'waits')) or one.process.poll() is not None)
    return one, paths, lambda: pathlib.Path(beside, 'go').touch()


def check_stopped(room: str, dsn: str) -> None:
    """A worker that is stopped for an hour while it reads: another one does its work, and it writes nothing when it goes on."""
    one, paths, go = waiting_worker(room, dsn, 'stopped')
    one.signal(signal.SIGSTOP)
    with opened(dsn) as store:
        store.rows(HOUR)
        go()
        Called(room, dsn, stand_in_path(room)).ended()
        need_all_once(dsn, paths)
        kept = store.rows('SELECT xmin::text, id FROM recording ORDER BY id')
        places = store.rows('SELECT xmin::text, path FROM place ORDER BY path')
    one.signal(signal.SIGCONT)
    said = one.ended()
    agree('left %s: its lease has ended' % paths[0] in said, True, 'what the stopped worker says: ' + said)
    need_all_once(dsn, paths)
    with opened(dsn) as store:
        agree((store.rows('SELECT xmin::text, id FROM recording ORDER BY id'),
               store.rows('SELECT xmin::text, path FROM place ORDER BY path')), (kept, places), 'rows after a late worker')


def stand_in_path(room: str) -> str:
    """The program that is there already."""
    return os.path.join(room, 'stand-in', 'r10')


SESSIONS = ("SELECT state, wait_event_type FROM pg_stat_activity WHERE application_name LIKE 'ch10 %' "
            'AND datname = current_database()')


def check_stopped_inside(room: str, dsn: str) -> None:
    """A worker that is stopped amid its transaction: its session is ended after its lease, so that it holds up nobody."""
    one, paths, go = waiting_worker(room, dsn, 'inside')
    with opened(dsn) as store, opened(dsn) as other:
        other.begin()
        other.rows('LOCK TABLE place IN ACCESS EXCLUSIVE MODE')
        go()
        wait_for('its lock', lambda: ('active', 'Lock') in store.rows(SESSIONS) or one.process.poll() is not None)
        one.signal(signal.SIGSTOP)
        other.rows('COMMIT')
        wait_for('its session', lambda: any(it[0] == 'idle in transaction' for it in store.rows(SESSIONS)))
        store.rows(HOUR)
        Called(room, dsn, stand_in_path(room)).ended()
        need_all_once(dsn, paths)
    one.signal(signal.SIGCONT)
    one.ended()
    need_all_once(dsn, paths)


def check_sessions_ended(room: str, dsn: str) -> None:
    """A worker whose sessions are ended amid a recording goes on by new ones."""
    one, paths, go = waiting_worker(room, dsn, 'sessions')
    with opened(dsn) as store:
        store.rows('SELECT pg_terminate_backend(pid) FROM pg_stat_activity WHERE datname = current_database() '
                   'AND pid <> pg_backend_pid()')
    go()
    said = one.ended()
    agree('trying again' in said and 'the database is there again' in said, True, 'what is said of a lost database: ' + said)
    need_all_once(dsn, paths)


def check_folder_gone(room: str, dsn: str) -> None:
    """Where the disk of the recordings is gone no try counts, and the worker ends; when it is there again all is done."""
    cleared(dsn)
    folder = os.path.join(room, 'disk')
    paths = marked_range(folder, [''] * (queue_worker.MOST_FAILED + 1))
    queued(dsn, folder)
    for gone in (True, False):  # not there, and there but empty, as where it is not mounted
        os.rename(folder, folder + '-away')
        if not gone:
            os.mkdir(folder)
        said = Called(room, dsn, None, ['--pause', '1000']).ended(3)
        agree('recordings in a row could not be read' in said, True, 'what is said of a disk that is gone: ' + said)
        with opened(dsn) as store:
            agree(store.rows("SELECT state, max(tries), count(*) FROM queue GROUP BY state"), [('waiting', 0, len(paths))],
                  'the queue where the disk is gone')
            store.rows(HOUR)
        if not gone:
            os.rmdir(folder)
        os.rename(folder + '-away', folder)
    Called(room, dsn, None).ended()
    need_all_once(dsn, paths)


def check_ended_by_hand(room: str, dsn: str) -> None:
    """A worker that gets SIGTERM gives back what it has, and no try counts."""
    one, paths, go = waiting_worker(room, dsn, 'ended')
    one.process.terminate()
    one.ended(130)
    with opened(dsn) as store:
        agree(store.rows('SELECT path, state, tries, why FROM queue WHERE path = ?', (place(paths[0]),)),
              [(place(paths[0]), 'waiting', 0, 'its worker was stopped')], 'what it had')
    go()
    Called(room, dsn, stand_in_path(room)).ended()
    need_all_once(dsn, paths)


def check_too_long(room: str, dsn: str) -> None:
    """A recording that takes longer than it may is given up, and set apart after its tries."""
    one, paths, _ = waiting_worker(room, dsn, 'long', ['--longest', '1', '--tries', '2'], [], [WAITS])
    said = one.ended(3)
    agree('set apart %s: it took longer than 1 seconds' % paths[0] in said, True, 'what is said of it: ' + said)
    with opened(dsn) as store:
        agree(store.rows('SELECT path FROM queue'), [(place(paths[0]),)], 'what is set apart')


# ---- kills at each statement

def dies_at(dsn: str, statement: int) -> bool:
    """Takes all that waits, one after the other, in a process that is killed at its so-many-th statement; whether it was."""
    sys.stdout.flush()
    number = os.fork()
    if number == 0:
        try:
            ends_with_parent()
            made = itertools.count(1)

            def deadly(call: Callable) -> Callable:
                def one(*words: Any) -> Any:
                    if next(made) == statement:
                        os.kill(os.getpid(), signal.SIGKILL)
                    return call(*words)
                return one

            from ch10.store_postgres import Postgres
            for name in ('rows', 'copy'):
                setattr(Postgres, name, deadly(getattr(Postgres, name)))
            with opened(dsn) as store:
                queue = WorkQueue(store, 'ch10 dies %d' % os.getpid())
                act = queue_worker.work(dict(db=dsn, program=None, judge=None, anew=False, most=1 << 30, loads=True, channels=None,
                                             clock=[None, None, False], worker=queue.worker))
                for item in iter(lambda: queue.take(RULES._replace(tries=1000)), None):
                    answer = act({'item': list(item)})
                    if 'done' not in answer:
                        print('killed: %s' % answer, file=sys.stderr, flush=True)
                        os._exit(1)
            os._exit(0)
        finally:
            os._exit(99)
    status = os.waitpid(number, 0)[1]
    if os.WIFEXITED(status) and os.WEXITSTATUS(status):
        raise Bad('a worker ends with %d' % os.WEXITSTATUS(status))
    return os.WIFSIGNALED(status)


def check_kills(room: str, dsn: str, step: int) -> int:
    """A worker is killed at each step-th statement. Each recording is in the catalogue or in the queue then, and the next worker
    does the rest. Answers how many kills there were."""
    folder = os.path.join(room, 'killed')
    if not os.path.exists(folder):
        marked_range(folder, ['', ''])
    paths = [os.path.join(folder, name) for name in sorted(os.listdir(folder))]
    for statement in itertools.count(1, step):
        cleared(dsn)
        queued(dsn, folder)
        was_killed = dies_at(dsn, statement)
        with opened(dsn) as store:
            wait_for('its sessions', lambda: not store.rows(SESSIONS))
            agree(state(dsn)['halves'], 0, 'halves')
            agree(sorted({path for path, in store.rows('SELECT path FROM place UNION SELECT path FROM queue')}), sorted(paths),
                  'what is in the catalogue or in the queue after a kill at statement %d' % statement)
            store.rows(HOUR)
        agree(dies_at(dsn, 0), False, 'the next worker')
        need_all_once(dsn, paths)
        if not was_killed:
            return statement // step
    return 0


# ---- all of it

Trial = Callable[[str, str], Any]
TRIALS: List[Tuple[str, Trial]] = [
    ('takes', check_takes), ('bounds of tries', check_bounds_of_tries), ('stopped', check_stopped),
    ('stopped inside', check_stopped_inside), ('sessions ended', check_sessions_ended), ('folder gone', check_folder_gone),
    ('ended by hand', check_ended_by_hand), ('too long', check_too_long), ('poisoned', check_poisoned)]


def check_queue(room: str, dsn: str, made: str, trial: Callable[[str], Any], step: int = 9) -> int:
    """All trials of one machine, in a database; answers how many kills there were."""
    with trial('queue: two workers'):
        check_two_workers(room, dsn, made)
    for name, act in TRIALS:
        with trial('queue: ' + name):
            act(room, dsn)
    with trial('queue: kills'):
        return check_kills(room, dsn, step)


def check(say: Callable[[str], Any]) -> int:
    """The trials by themselves."""
    with tempfile.TemporaryDirectory(prefix='ch10-queue-') as room, server(['fsync=off']) as dsn:
        kills = check_queue(room, dsn, program(room), lambda what: bounded(what, dsn, say=say))
    print('queue: %d trials, and %d kills' % (len(TRIALS) + 1, kills))
    return 0


def kills(number: int) -> int:
    """A worker killed at each statement; and the server so many times amid two workers, which go on when it is there again."""
    with tempfile.TemporaryDirectory(prefix='ch10-queue-') as room, running_server() as one:
        with bounded('kills at each statement', one.dsn, work=3600, passed=1200, say=print):
            each = check_kills(room, one.dsn, 1)
        folder = os.path.join(room, 'served')
        os.makedirs(folder)
        paths = [os.path.join(folder, 'r%03d.ch10' % it) for it in range(20 * number)]
        for it, path in enumerate(paths):
            pathlib.Path(path).write_bytes(recording(3, it, 20000, FEW))
        cleared(one.dsn)
        queued(one.dsn, folder)
        with bounded('kills of the server', None, work=3600, passed=1200, say=print):
            workers = [Called(room, one.dsn, None, ['--tries', '100']) for _ in range(2)]
            for turn in range(number):
                with opened(one.dsn) as store:
                    wait_for('some', lambda: store.rows('SELECT count(*) FROM place')[0][0] > 15 * turn)
                one.kill()
                one.start()
            said = [it.ended() for it in workers]
            agree(any('the database is there again' in text for text in said), True, 'what workers say of a server that was killed')
            need_all_once(one.dsn, paths)
    print('queue: a worker killed at each of %d statements, and the server killed %d times: each recording once' % (each, number))
    return 0


# ---- two network namespaces

def made_ready(words: Sequence[str]) -> None:
    """Runs a command of the network, which has to end well."""
    done = subprocess.run(words, stdin=subprocess.DEVNULL, stdout=subprocess.PIPE, stderr=subprocess.STDOUT)
    if done.returncode:
        raise NotThere('%s: %s' % (' '.join(words), done.stdout.decode().strip()))


class Space:
    """A network namespace with one wire to this one. It is gone when its process is."""

    def __init__(self, number: int) -> None:
        self.wire = 'range%d' % number
        self.holder = subprocess.Popen(['unshare', '--net', 'sleep', 'infinity'], preexec_fn=ends_with_parent)
        own, there = '/proc/self/ns/net', '/proc/%d/ns/net' % self.holder.pid
        wait_for('a namespace', lambda: self.holder.poll() is not None or os.readlink(there) != os.readlink(own))
        self.before = ['nsenter', '-t', str(self.holder.pid), '-n']
        here, far = '10.98.%d.1' % number, '10.98.%d.2/24' % number
        made_ready(['ip', 'link', 'add', self.wire, 'type', 'veth', 'peer', 'name', 'eth0', 'netns', str(self.holder.pid)])
        for words in (['addr', 'add', here + '/24', 'dev', self.wire], ['link', 'set', self.wire, 'up']):
            made_ready(['ip', *words])
        for words in (['addr', 'add', far, 'dev', 'eth0'], ['link', 'set', 'eth0', 'up'], ['link', 'set', 'lo', 'up']):
            made_ready([*self.before, 'ip', *words])
        self.dsn = 'host=%s user=postgres dbname=postgres' % here

    def turn(self, way: str) -> None:
        """Puts the wire `up` or `down`."""
        made_ready(['ip', 'link', 'set', self.wire, way])


def network(kills: int) -> int:
    """Goes into a namespace of its own, and does the trial there."""
    for words in (['unshare', '--net', 'true'], ['ip', '-V'], ['nsenter', '--version']):
        try:
            made_ready(words)
        except OSError as error:
            raise NotThere('no namespaces of the network: %s: %s' % (words[0], error.strerror))
    return subprocess.run(['unshare', '--net', sys.executable, __file__, 'inside', str(kills)]).returncode


def inside(kills: int) -> int:
    """Two workers, each in a namespace of its own, which reach the server by a wire of their own alone."""
    made_ready(['ip', 'link', 'set', 'lo', 'up'])
    draw = random.Random(kills)
    with tempfile.TemporaryDirectory(prefix='ch10-queue-') as room, contextlib.ExitStack() as held:
        one = Server(['fsync=off', 'listen_addresses=*'])
        held.callback(one.remove)
        one.make()
        with open(os.path.join(one.folder, 'data', 'pg_hba.conf'), 'a') as access:
            access.write('host all all 10.98.0.0/16 trust\n')
        one.start()
        spaces = [Space(number) for number in (1, 2)]
        for it in spaces:
            held.callback(it.holder.kill)
        for act, name in ((killed_beside, 'kills'), (cut_off, 'cut off'), (cut_off_for_good, 'cut off for good')):
            with bounded('network: ' + name, one.dsn, passed=1200, work=3600, say=print):
                act(room, one.dsn, spaces, kills, draw)
    print('queue: two workers in two namespaces, one killed %d times, and cut off twice: each recording once' % kills)
    return 0


def killed_beside(room: str, dsn: str, spaces: Sequence[Space], kills: int, draw: random.Random) -> None:
    """One worker is killed at a random moment, alone or with its reader, and another one takes its place."""
    folder = os.path.join(room, 'network')
    os.makedirs(folder)
    paths = [os.path.join(folder, 'r%03d.ch10' % number) for number in range(20)]
    for number, path in enumerate(paths):
        pathlib.Path(path).write_bytes(recording(9, number, 20000, FEW))
    for turn in range(kills):
        cleared(dsn)
        queued(dsn, folder)
        workers = [Called(room, it.dsn, None, before=it.before) for it in spaces]
        many = draw.randrange(len(paths) - 2)
        with opened(dsn) as store:
            wait_for('some', lambda: store.rows('SELECT count(*) FROM place')[0][0] >= many)
            time.sleep(draw.random() * 0.1)
            if turn % 2:
                workers[0].signal(signal.SIGKILL)
            else:
                workers[0].process.kill()
            workers[0].process.wait()
            store.rows("UPDATE queue SET due = now() - interval '1 hour' WHERE worker LIKE ?",
                       ('ch10 %% %d %%' % workers[0].process.pid,))
            agree(state(dsn)['halves'], 0, 'halves after a kill')
        Called(room, spaces[0].dsn, None, before=spaces[0].before).ended()
        workers[1].ended()
        need_all_once(dsn, paths)


def cut_off(room: str, dsn: str, spaces: Sequence[Space], kills: int, draw: random.Random) -> None:
    """A worker loses the network amid a recording: another one does it, and when the network is there again the first writes
    nothing."""
    one, paths, go = waiting_worker(room, dsn, 'cut', before=spaces[0].before, at=spaces[0].dsn)
    spaces[0].turn('down')
    with opened(dsn) as store:
        store.rows(HOUR)
    go()
    Called(room, spaces[1].dsn, stand_in_path(room), before=spaces[1].before).ended()
    need_all_once(dsn, paths)
    spaces[0].turn('up')
    said = one.ended()
    agree('left %s: its lease has ended' % paths[0] in said, True, 'what the worker says that was cut off: ' + said)
    need_all_once(dsn, paths)


def cut_off_for_good(room: str, dsn: str, spaces: Sequence[Space], kills: int, draw: random.Random) -> None:
    """A worker that loses the network for good ends, with a line."""
    one, paths, go = waiting_worker(room, dsn, 'good', ['--patience', '10'], spaces[0].before, at=spaces[0].dsn)
    spaces[0].turn('down')
    go()
    start = time.monotonic()
    said = one.ended(3)
    agree('away for more than 10 seconds' in said, True, 'what the worker says that has no network: ' + said)
    print('a worker without a network ends after %.0f s' % (time.monotonic() - start))
    with opened(dsn) as store:
        store.rows(HOUR)
    Called(room, spaces[1].dsn, stand_in_path(room), before=spaces[1].before).ended()
    need_all_once(dsn, paths)


# ---- figures

DROPS = 5  # days
FIRST_DAY = datetime.date(2024, 1, 1)
# Entries of a day: messages of a hundred recordings, evenly over their first ten minutes each, of one bus.
MAKE_ENTRIES = """INSERT INTO {table} (recording, count, time, lost, channel, rt, tr, sa, wc, status1, bus, gap1, words)
SELECT {first} + n % 100, n * 600, timestamp '{day}' + (n % 100) * interval '14 minutes' + (n / 100) * interval '60 milliseconds',
0, 7, n % 31, (n % 2) = 1, n % 29 + 1, n % 32 + 1, 2048 * (n % 31), 0, 4.5,
decode(repeat(lpad(to_hex(n), 8, '0'), (n % 16 + 1)::int), 'hex')
FROM generate_series(0::bigint, {many} - 1) n"""
COPY_SUM = "md5(r.sha256 || '%d') || md5(r.sha256 || '%d more')"


def copies(store: Any, turn: int) -> None:
    """Each recording once more, with another sum and at another place, by SQL."""
    from ch10.catalogue import PLACE_COLUMNS
    from ch10.store_schema import CHANNEL_COLUMNS, RECORDING_COLUMNS
    other = COPY_SUM % (turn, turn)
    of = 'FROM recording r JOIN recording n ON n.sha256 = %s JOIN %%s t ON t.recording = r.id WHERE r.id <= %%d' % other
    last = store.rows('SELECT max(recording) FROM place WHERE path NOT LIKE ?', ('%.ch10.%',))[0][0]
    store.rows('INSERT INTO recording (%s) SELECT %s FROM recording r WHERE r.id <= %d' % (
        ', '.join(RECORDING_COLUMNS), ', '.join(other if name == 'sha256' else 'r.' + name for name in RECORDING_COLUMNS), last))
    for table, columns in (('channel', CHANNEL_COLUMNS + ('lower_name',)), ('attribute', ('code', 'value')),
                           ('damage', ('byte_offset', 'byte_length', 'reason'))):
        store.rows('INSERT INTO %s (recording, %s) SELECT n.id, %s %s' % (
            table, ', '.join(columns), ', '.join('t.' + name for name in columns), of % (table, last)))
    store.rows('INSERT INTO place (%s) SELECT %s %s' % (', '.join(PLACE_COLUMNS), ', '.join(
        'n.id' if name == 'recording' else "t.path || '.%d'" % turn if name == 'path' else 't.' + name for name in PLACE_COLUMNS),
        of % ('place', last)))


def timed_rows(store: Any, text: str) -> float:
    """The seconds that pass in a question: the median of five."""
    taken = []
    for _ in range(5):
        start = time.perf_counter()
        store.rows(text)
        taken.append(time.perf_counter() - start)
    return sorted(taken)[2]


def figures(asked: Any) -> int:
    """Times and sizes. Some recordings are added by two workers; the rest are copies of them by SQL. Entries are made by SQL, a day
    at a time, until there are enough or the time is over."""
    from range_trials import print_finds
    settings = ['shared_buffers=512MB', 'max_wal_size=4GB', 'wal_level=minimal', 'max_wal_senders=0', 'maintenance_work_mem=256MB']
    with tempfile.TemporaryDirectory(prefix='ch10-queue-') as room, server(settings) as dsn:
        folder = os.path.join(room, 'flights')
        os.makedirs(folder)
        size = 0
        for number in range(asked.added):
            data = recording(5, number, 20000, FEW)
            size += pathlib.Path(folder, 'r%05d.ch10' % number).write_bytes(data)
        print('load of the machine %.1f; %d recordings, %.1f MB' % (os.getloadavg()[0], asked.added, size / 1e6), flush=True)
        start = time.perf_counter()
        queued(dsn, folder)
        print('queued in %.1f s' % (time.perf_counter() - start), flush=True)
        start = time.perf_counter()
        for one in [Called(room, dsn, None, ['--jobs', '2']) for _ in range(2)]:
            one.ended()
        passed = time.perf_counter() - start
        print('two workers of two jobs: %.1f s, %.0f recordings a second, entries loaded too' % (passed, asked.added / passed))
        with opened(dsn) as store:
            start = time.perf_counter()
            turn = 0
            while store.rows('SELECT count(*) FROM recording')[0][0] < asked.recordings:
                turn += 1
                copies(store, turn)
            store.settle()
            print('%d recordings, %d channels, %.0f MB; the copies took %.1f s' % (
                store.rows('SELECT count(*) FROM recording')[0][0], store.rows('SELECT count(*) FROM channel')[0][0],
                store.rows('SELECT pg_database_size(current_database())')[0][0] / 1e6, time.perf_counter() - start), flush=True)
            print_finds('PostgreSQL', dsn)
            days(dsn, store, asked)
    return 0


def days(dsn: str, store: Any, asked: Any) -> None:
    """Days of entries: how long they take to make, to ask and to drop, and their size."""
    start = time.perf_counter()
    every = iter(range(-(-asked.entries // asked.each)))

    def some(_: int) -> List[Tuple[str, float]]:
        """Days, one after the other, by a session of its own."""
        found = []
        with opened(dsn) as own:
            while time.perf_counter() - start < asked.bound:
                number = next(every, None)
                if number is None:
                    break
                day = (FIRST_DAY + datetime.timedelta(days=number)).isoformat()
                begin = time.perf_counter()
                own.make_days([('entry_1553', day)])
                with own.transaction():
                    own.rows(MAKE_ENTRIES.format(table='entry_1553_' + day.replace('-', ''), first=1 + 100 * number, day=day,
                                                 many=asked.each))
                found.append((day, time.perf_counter() - begin))
        return found

    with ThreadPoolExecutor(asked.jobs) as pool:
        both = sorted(it for part in pool.map(some, range(asked.jobs)) for it in part)
    made, taken = [day for day, _ in both], [passed for _, passed in both]
    total = len(made) * asked.each
    print('%d entries of %d days made in %.0f s (a day: median %.1f s); load of the machine %.1f' % (
        total, len(made), time.perf_counter() - start, sorted(taken)[len(taken) // 2], os.getloadavg()[0]), flush=True)
    size = sum(store.rows('SELECT pg_total_relation_size(?::regclass)', ('entry_1553_' + day.replace('-', ''),))[0][0]
               for day in made)
    print('%.1f GB, %.0f bytes an entry' % (size / 1e9, size / total), flush=True)
    day = made[len(made) // 2]
    begin = time.perf_counter()
    store.rows('ANALYZE entry_1553')
    print('ANALYZE: %.1f s' % (time.perf_counter() - begin), flush=True)
    one = 1 + 100 * (len(made) // 2)
    within = "time >= '%s' AND time < timestamp '%s' + interval '%s'"
    for what, text in (
            ('a second of a recording',
             'SELECT * FROM entry_1553 WHERE recording = %d AND ' % one + within % (day, day, '1 second')),
            ('a terminal and subaddress of a recording',
             'SELECT count(*) FROM entry_1553 WHERE recording = %d AND rt = 5 AND sa = 6 AND ' % one
             + within % (day, day, '1 day')),
            ('all entries of a terminal over a day', 'SELECT * FROM entry_1553 WHERE rt = 5 AND ' + within % (day, day, '1 day')),
            ('messages of a day by terminal and subaddress', 'SELECT rt, sa, count(*) FROM entry_1553 WHERE %s GROUP BY rt, sa'
             % within % (day, day, '1 day')),
            ('a recording, whose day is not given', 'SELECT count(*) FROM entry_1553 WHERE recording = %d' % one)):
        print('%s: %.0f ms' % (what, timed_rows(store, text) * 1000), flush=True)
    begin = time.perf_counter()
    there = sum(many for _, many in store.rows('SELECT rt, count(*) FROM entry_1553 GROUP BY rt'))
    print('all entries by terminal, once: %.1f s' % (time.perf_counter() - begin), flush=True)
    drops = []
    for one_day in made[-min(DROPS, len(made) // 2 or 1):]:
        begin = time.perf_counter()
        store.rows('DROP TABLE entry_1553_' + one_day.replace('-', ''))
        drops.append((time.perf_counter() - begin) * 1000)
    left = there - len(drops) * asked.each
    print('%d of %d days dropped, one after the other: median %.0f ms, at most %.0f ms' % (
        len(drops), len(made), sorted(drops)[len(drops) // 2], max(drops)), flush=True)
    agree(store.rows('SELECT count(*) FROM entry_1553')[0][0], left, 'entries of the days that are left')

def main(words: List[str]) -> int:
    """The command."""
    from range_trials import to_other_python
    to_other_python()
    ends_on_term()
    try:
        if words[:1] == ['check']:
            return check(print if words[1:] == ['--times'] else lambda line: None)
        if words[:1] == ['kills'] and len(words) <= 2:
            return kills(int(words[1]) if words[1:] else 3)
        if words[:1] == ['network'] and len(words) <= 2:
            return network(int(words[1]) if words[1:] else 3)
        if words[:1] == ['inside']:
            return inside(int(words[1]))
        if words[:1] == ['figures']:
            parser = argparse.ArgumentParser()
            for name, default in (('added', 500), ('recordings', 10000), ('entries', 100000000), ('each', 1000000), ('bound', 900),
                                  ('jobs', 4)):
                parser.add_argument('--' + name, type=int, default=default)
            return figures(parser.parse_args(words[1:]))
    except NotThere as why:
        print('NOT TRIED: the queue: %s' % why)
        return 0
    print(__doc__)
    return 2


if __name__ == '__main__':
    try:
        sys.exit(main(sys.argv[1:]))
    except (Bad, Hung) as bad:
        print('range_queue: %s' % bad, file=sys.stderr)
        sys.exit(1)
