"""`ch10 catalogue queue` and `work`: recordings that wait in a database, and workers that take them, survey them and add them.

A worker has some hands. Each takes one recording at a time, and has a process of its own that reads it and writes what it found.
A recording that ends that process ends no worker. One that ends the whole worker had its try counted before.
"""
from __future__ import annotations

import contextlib
import os
import signal
import socket
import threading
import time
from functools import partial
from typing import Callable, Dict, Iterator, List, NamedTuple, Optional, Sequence, Tuple

from .arrays import Foreign
from .catalogue import (MOST_PLACE, Input, Progress, half_of_memory, inputs_of, need_file, put_recordings, tasks_of,
                        unread)
from .catalogue import work as catalogue_work
from .facts import program_of, version_of
from .inputs import Output, printable
from .load import NotLoaded, Wanted, copied_whole, put_entries, wanted_of, with_days
from .range_words import place as place_of
from .standard import Value, Words
from .store import Store, StoreError, open_store
from .work_queue import Item, Lost, Rules, WorkQueue, path_in
from .workers import Pool, Task, Worker, processors, said

POLL = 1.0  # seconds between two looks at a queue or a database that has nothing to give
MOST_END = 60.0  # seconds that the hands have to give back what they have
MOST_FAILED = 10  # recordings that a worker cannot read, one after the other, before it ends
# Classes of SQLSTATE of a database that lacks room, rights or rest, whatever the recording.
OF_DATABASE = ('08', '25', '28', '40', '42', '53', '55', '57', '58')


class Ended(OSError):
    """Why a worker ends before the queue does."""


# ---- in the process that reads: one recording into the catalogue

class Refused(Exception):
    """What is wrong with a recording, in one line."""


def work(setting: Task) -> Callable[[Task], Task]:
    """What reads a recording that was taken, and writes what it found, in a session of its own."""
    look, store = catalogue_work(setting), open_store(setting['db'], make=False)
    queue = WorkQueue(store, setting['worker'])
    queue.name_session()

    def act(task: Task) -> Task:
        """Does one, and answers what came of it."""
        item = Item(*task['item'])
        try:
            return {'done': finished(store, queue, item, found_in(item, look, setting), setting)}
        except Lost:
            return {'lost': True}
        except StoreError as error:
            code = getattr(error.__context__, 'pgcode', None) or getattr(error.__context__, 'sqlstate', None) or ''
            return {'database' if code[:2] in OF_DATABASE and is_open(store) else 'error': said(error), 'ends': True}
        except (Refused, OSError) as error:
            return {'gone' if is_gone(item.folder) else 'error': said(error)}

    return act


def is_open(store: Foreign) -> bool:
    """Whether a session still is one."""
    return not store.base.closed


def is_gone(folder: str) -> bool:
    """Whether a folder cannot be listed or is empty, as where its disk is not mounted."""
    try:
        with os.scandir(path_in(folder)) as names:
            return next(names, None) is None
    except OSError:
        return True


def found_in(item: Item, look: Callable[[Task], Task], setting: Task) -> List[Tuple[Task, Task]]:
    """What is found in a recording, or in each file of an image."""
    failed: List[Tuple[str, str]] = []
    found = []
    for task in tasks_of([Input(os.fsdecode(path_in(item.path)), item.place)], failed):
        task = dict(task, clock=setting['clock'])
        facts = look(task)
        if 'error' in facts:
            raise Refused(facts['error'])
        found.append((task, facts))
    if failed:
        raise Refused(failed[0][1])
    return found


def finished(store: Store, queue: WorkQueue, item: Item, found: Sequence[Tuple[Task, Task]], setting: Task) -> List[List[Value]]:
    """Puts what was found into the catalogue, and its entries into their tables where these are asked for. The end of the row in
    the queue is in the last of these transactions, and each asks at its end whether the row is this worker's."""
    loads = setting['loads']
    with store.transaction():
        ways = put_recordings(store, found, False)
        queue.need_mine(item) if loads else queue.done(item)
    entries = load_found(store, queue, item, found, setting) if loads else 0
    return [[task, {'verdict': facts['verdict'], 'sha256': facts['sha256']}, way, entries]
            for (task, facts), way in zip(found, ways)]


def load_found(store: Store, queue: WorkQueue, item: Item, found: Sequence[Tuple[Task, Task]], setting: Task) -> int:
    """The entries of a recording, or of the files of an image, in one transaction. Answers how many."""
    some = {one.number: one for one in (wanted_of(store, task, facts['sha256'], setting['channels']) for task, facts in found
                                        if task.get('fault') is None) if one.entries}
    able: List[Wanted] = []
    with Pool(1, dict(work='load', db=setting['db'])) as pool:
        for one, why in with_days(store, list(some.values()), pool):
            if why is not None:
                raise Refused(why)
            able.append(one)
    store.make_days({place for one in able for place in one.days})
    try:
        with store.transaction():
            entries = put_entries(store, able, copied_whole)
            queue.done(item)
        return entries
    except NotLoaded as bad:
        raise Refused(bad.why)


# ---- the worker

class Held(NamedTuple):
    """A recording that a hand has, until when its lease may be put off, and the name of the hand."""

    item: Item
    end: float
    worker: str


class Team:
    """The hands of one call, what they share, and the thread that puts off their leases."""

    def __init__(self, asked: Words, out: Output, setting: Task) -> None:
        self.asked, self.out, self.setting = asked, out, setting
        self.rules = Rules(asked.tries, asked.lease, asked.pause)
        self.over, self.lock = threading.Event(), threading.RLock()
        self.name = 'ch10 %s %d %s' % (''.join(filter(str.isalnum, socket.gethostname()))[:30], os.getpid(), os.urandom(4).hex())
        self.progress = Progress(out)
        self.held: Dict[str, Held] = {}
        self.error: Optional[BaseException] = None
        self.is_away = False
        self.failed_in_row = self.entries = self.apart = 0
        self.hands = [Hand(self, '%s %d' % (self.name, number)) for number in range(asked.jobs or processors())]

    def run(self) -> None:
        """Does all there is to do; ends its processes whatever happens."""
        beat = threading.Thread(target=self.beat, daemon=True)
        try:
            beat.start()
            for hand in self.hands:
                hand.ended.clear()
                threading.Thread(target=hand.serve, daemon=True).start()
            # (An interrupt amid `Thread.join` makes Python 3.11 take the thread for ended.)
            while not all(hand.ended.is_set() for hand in self.hands) and not self.over.is_set():
                self.over.wait(0.1)
        finally:
            self.over.set()
            end = time.monotonic() + MOST_END
            while not all(hand.ended.is_set() for hand in self.hands) and time.monotonic() < end:  # each gives back what it has
                for hand in self.hands:
                    hand.kill()
                time.sleep(0.05)
        if self.error is not None:
            raise self.error

    def end(self, error: BaseException) -> None:
        """Ends all hands, for the first reason that is given."""
        with self.lock:
            self.error = self.error or error
            self.over.set()

    def beat(self) -> None:
        """Puts off the ends of leases, in a session of its own, until the hands have ended. A recording that takes longer than it
        may is left to its lease. Then it looks after the leases of others."""
        store = None
        while not self.over.wait(self.rules.lease / 4):
            try:
                store = store or open_store(self.asked.db, make=False)
                held = [one for one in list(self.held.values()) if time.monotonic() < one.end]
                queue = WorkQueue(store)
                queue.renew([(one.item, one.worker) for one in held], self.rules)
                self.set_apart(queue.sweep(self.rules))
            except OSError:  # the hands say so
                with contextlib.suppress(Exception):
                    store.close()  # type: ignore
                store = None

    def say(self, line: str) -> None:
        """A line on standard output, at once."""
        with self.lock:
            self.out.line(printable(line))
            self.out.flush()

    def note(self, line: str) -> None:
        """A line on standard error, at once."""
        from .command import say
        say(line)

    def away(self, error: BaseException, since: float) -> None:
        """Says once that the database is away, and waits a little; after too long that is the end."""
        with self.lock:
            if not self.is_away:
                self.is_away = True
                self.note('%s; trying again' % said(error))
        if time.monotonic() - since > self.asked.patience:
            self.end(Ended(0, 'away for more than %d seconds: %s' % (self.asked.patience, said(error))))
        self.over.wait(POLL)

    def back(self) -> None:
        """Says that the database is there again."""
        with self.lock:
            if self.is_away:
                self.is_away = False
                self.note('the database is there again')

    def done(self, found: Sequence[Sequence[Value]]) -> None:
        """Counts and prints what a hand has added."""
        with self.lock:
            self.failed_in_row = 0
            for task, facts, way, _ in found:
                self.progress.say(task, facts, way)
            self.entries += found[0][3] if found else 0
            self.progress.flush()

    def failed(self, item: Item, why: str, state: str, is_read: bool) -> None:
        """Prints and counts that a recording was not added; the last of many in a row is the end, unless the database is to blame.
        `state` is what the queue has of it now."""
        with self.lock:
            if state == 'lost':
                self.say('left %s: its lease has ended, and another worker has it' % item.place)
                return
            if state == 'apart':
                self.set_apart([(item.place, why)])
            else:
                self.say('unread %s: %s' % (item.place, why))
            self.failed_in_row += is_read
            if self.failed_in_row >= MOST_FAILED:
                self.end(Ended(0, '%d recordings in a row could not be read, last %s: %s' % (MOST_FAILED, item.place, why)))

    def set_apart(self, some: Sequence[Tuple[str, str]]) -> None:
        """Counts and prints what is set apart."""
        with self.lock:
            self.apart += len(some)
            for place, why in some:
                self.say('set apart %s: %s' % (place, why))


class Hand:
    """Takes one recording after the other. Its process reads, and writes by a session of its own."""

    def __init__(self, team: Team, name: str) -> None:
        self.team, self.name = team, name
        self.reader = Worker(dict(team.setting, worker=name))
        self.pending: Optional[Callable[[WorkQueue], None]] = None  # what the database has yet to hear of a recording
        self.ended = threading.Event()
        self.ended.set()
        self.since: Optional[float] = None  # since when the database did nothing

    def kill(self) -> None:
        """Ends the process that reads, if there is one; the hand's own thread sees to the rest."""
        process = self.reader.process
        if process is not None:
            process.kill()

    def serve(self) -> None:
        """What a hand's thread does, until nothing waits and nothing is taken. A database that is away is tried again."""
        try:
            while not self.team.over.is_set() or self.pending:
                try:
                    with contextlib.closing(open_store(self.team.asked.db, make=False)) as store:
                        queue = WorkQueue(store, self.name)
                        while not self.team.over.is_set() or self.pending:
                            if not self.turn(queue):
                                return
                except StoreError as error:
                    if self.team.over.is_set():
                        return  # the lease ends by itself
                    self.since = self.since or time.monotonic()
                    self.team.away(error, self.since)
        except BaseException as error:
            self.team.end(error)
        finally:
            self.reader.close()
            self.ended.set()

    def turn(self, queue: WorkQueue) -> bool:
        """Does one recording, or waits for one. Answers whether there is, or may be, another one."""
        if self.pending:
            act, self.pending = self.pending, None
            try:
                act(queue)
            except StoreError:
                if not is_open(queue.store):
                    self.pending = act
                raise
            self.is_back()
            return True
        item = queue.take(self.team.rules)
        if item is None:
            self.team.set_apart(queue.sweep(self.team.rules))
            is_left = queue.has_work() or self.team.asked.stay
            self.is_back()
            if is_left:
                self.team.over.wait(POLL)
            return is_left
        self.team.held[self.name] = Held(item, time.monotonic() + self.team.asked.longest, self.name)
        try:
            with self.bounded() as late:
                answer = self.reader.do({'item': list(item)})
        finally:
            del self.team.held[self.name]
        if 'done' in answer:
            self.team.done(answer['done'])
            self.is_back()
            return True
        if 'ends' in answer or 'database' in answer or late.is_set():
            self.reader.close()  # a session may be broken
        if late.is_set():
            answer = {'error': 'it took longer than %d seconds' % self.team.asked.longest}
        self.pending = partial(self.report, item, answer)
        return True

    def is_back(self) -> None:
        """Notes that the database does its work."""
        self.since = None
        self.team.back()

    def report(self, item: Item, answer: Task, queue: WorkQueue) -> None:
        """Writes into the queue what came of a recording that was not added, and prints it."""
        team, rules = self.team, self.team.rules
        if 'lost' in answer:
            state, why = 'lost', ''
        elif team.over.is_set():
            why = 'its worker was stopped'
            state = queue.give_back(item, why, rules._replace(pause=0))
        elif 'error' in answer:
            why = answer['error']
            state = queue.failed(item, why, rules)
        elif 'gone' in answer:
            why = '%s; its folder %s is empty, or cannot be listed' % (answer['gone'], item.folder)
            state = queue.give_back(item, why, rules)
        else:
            why = answer['database']
            state = queue.give_back(item, why, rules)
        team.failed(item, why, state, 'database' not in answer)
        if 'database' in answer:
            raise StoreError(why)

    @contextlib.contextmanager
    def bounded(self) -> Iterator[threading.Event]:
        """Ends the process that reads if it takes too long; the event says whether it did."""
        late = threading.Event()

        def end() -> None:
            """What the timer does."""
            late.set()
            self.kill()

        timer = threading.Timer(self.team.asked.longest, end)
        timer.daemon = True
        timer.start()
        try:
            yield late
        finally:
            timer.cancel()


# ---- the commands

def work_on(asked: Words, data: None, out: Output) -> None:
    """`ch10 catalogue work`."""
    store = open_store(asked.db)
    try:
        WorkQueue(store)
        program = None if asked.unjudged else program_of(asked.program)
        memory = (asked.memory << 20 if asked.memory else half_of_memory()) // (asked.jobs or processors())
        setting = dict(work='queue_worker', db=asked.db, program=program, judge=program and version_of(program), anew=False,
                       most=memory, loads=asked.load or bool(asked.channel), channels=asked.channel,
                       clock=[asked.time_channel, asked.year, asked.time_from_end])
        team = Team(asked, out, setting)
        if threading.current_thread() is threading.main_thread():
            signal.signal(signal.SIGTERM, stop)
        team.run()
        if team.progress.ways['added']:
            with contextlib.suppress(StoreError):
                store.settle()
        ways = team.progress.ways
        out.line('%d added, %d judged anew, %d known before; %d of them faulty%s; %d set apart' % (
            ways['added'], ways['judged'], ways['known'], team.progress.faulty,
            '; %d entries loaded' % team.entries if setting['loads'] else '', team.apart))
        if team.apart:
            raise OSError(0, '%d recordings are set apart; ch10 catalogue queue lists them' % team.apart)
    finally:
        store.close()


def stop(*_: object) -> None:
    """What SIGTERM does: the same as Ctrl-C."""
    raise KeyboardInterrupt


def queue_up(asked: Words, data: None, out: Output) -> None:
    """`ch10 catalogue queue`."""
    failed: List[Tuple[str, str]] = []
    passed: List[str] = []
    store = open_store(asked.db)
    try:
        queue = WorkQueue(store)
        rows = {path: (path, place, folder) for path, place, folder in rows_of(asked, passed, failed)}
        known = set() if asked.again else known_in(store, list(rows.values()))
        some = [row for path, row in rows.items() if path not in known]
        new, refused = queue.put(some, asked.again)
        failed += [(place, 'another one in the queue has the same place') for place in refused]
        if asked.inputs:
            out.line('%d queued, %d in the queue before, %d in the catalogue as they lie there%s' % (
                new, len(some) - new - len(refused), len(known),
                '; %d others in the folders are no recordings' % len(passed) if passed else ''))
        else:
            for place, why, tries in queue.apart():
                out.line(printable('set apart %s: %s (tries: %d)' % (place, why, tries)))
        waiting, taken, apart = queue.counts()
        out.line('%d waiting, %d taken, %d set apart' % (waiting, taken, apart))
    finally:
        store.close()
    unread(failed, out)


def rows_of(asked: Words, passed: List[str], failed: List[Tuple[str, str]]) -> Iterator[Tuple[str, str, str]]:
    """Path, place and folder of each input of a call."""
    for given in asked.inputs:
        folder = given if os.path.isdir(given) else os.path.dirname(given) or '.'
        for path, place in inputs_of([given], asked.place, passed, failed, asked.db):
            try:
                need_file(path)
                texts = place_of(os.path.abspath(path)), place, place_of(os.path.abspath(folder))
                if max(len(text.encode()) for text in texts) > MOST_PLACE:
                    raise OSError(0, 'its place has more than %d bytes' % MOST_PLACE)
                yield texts
            except OSError as error:
                failed.append((place, error.strerror or str(error)))


def known_in(store: Store, rows: Sequence[Tuple[str, str, str]]) -> set:
    """The paths of recordings that the catalogue has at their places, seen there after they were last written to."""
    by_place = {place: path for path, place, _ in rows}
    places = sorted(by_place)
    found = set()
    for at in range(0, len(places), 500):
        some = places[at:at + 500]
        for place, seen in store.rows('SELECT path, min(seen) FROM place WHERE path IN (%s) GROUP BY path' % (
                ', '.join('?' * len(some))), some):
            with contextlib.suppress(OSError):
                written = os.stat(path_in(by_place[place])).st_mtime
                if time.strftime('%Y-%m-%d %H:%M:%S', time.gmtime(written)) < seen:
                    found.add(by_place[place])
    return found

