"""`ch10 catalogue add`: recordings and files of images, each once by its sum, with all that is kept of it in one transaction."""
from __future__ import annotations

import datetime
import mmap
import os
import stat
import sys
import time
from contextlib import suppress
from typing import Callable, Dict, Iterable, Iterator, List, NamedTuple, Optional, Sequence, Tuple

from .clocks import Asked
from .facts import facts_of, most, nothing_in, program_of, sum_of, verdict_of_image, version_of
from .inputs import Output, date_of, is_recording, printable, shown
from .medium import directory
from .range_words import place as place_of
from .standard import Data, Fault, Words, Wrong
from .store import Store, StoreError, file_of, open_store
from .store_schema import CASE, CHANNEL_COLUMNS, RECORDING_COLUMNS
from .workers import Pool, Room, Task, processors

SMALL = 1 << 26  # bytes of a file that is read; a larger one is mapped
ENDINGS = ('.ch10', '.c10', '.img')
PLACE_COLUMNS = ('path', 'file_number', 'recording', 'volume', 'file_name', 'closed', 'listed_size', 'seen')
MOST_TOGETHER, MOST_WAIT = 64, 1.0  # recordings, or seconds, that a transaction takes together
AHEAD = 32  # recordings for each worker, whose facts wait while others go into the database
MOST_PLACE = 2000  # bytes, for an index takes no more
TAKEN_OUT = 'the database: somebody took a recording out of the catalogue meanwhile; the next call adds it'
CHANGED = 'it was changed while it was read'
MOST_TICK = 10 ** 8  # nanoseconds in which a file system may give two writes the same time, and more
NAME = CHANNEL_COLUMNS.index('name')
PARAMETERS = 900  # values in one statement, of which some builds of SQLite take no more than 999


# ---- inputs

class Input(NamedTuple):
    """A file to add: how it is opened, and where it is said to lie."""

    path: str
    place: str


def inputs_of(paths: Sequence[str], base: Optional[str], passed: List[str], failed: List[Tuple[str, str]],
              dsn: Optional[str] = None) -> Iterator[Input]:
    """The files of a call: those that it names, and of a folder those below it that look like recordings or images; the others are
    counted in `passed`, the database of this DSN too, and folders that cannot be read go to `failed`."""
    def unreadable(error: OSError) -> None:
        failed.append((place_of(error.filename), error.strerror or str(error)))

    for path in paths:
        if os.path.isdir(path):
            for folder, folders, names in os.walk(path, onerror=unreadable):
                folders.sort()
                for name in sorted(names):
                    found = os.path.join(folder, name)
                    if looks_right(found) and not is_database(found, dsn):
                        yield Input(found, placed(found, os.path.relpath(found, path), base))
                    else:
                        passed.append(found)
        else:
            yield Input(path, placed(path, os.path.basename(path), base))


def is_database(path: str, dsn: Optional[str]) -> bool:
    """Whether a file is the database of a DSN."""
    file = file_of(dsn)
    try:
        return file is not None and os.path.samefile(path, file)
    except OSError:
        return False


def need_inputs(asked: Words) -> None:
    """That no input of a call is its database, which an empty file would become."""
    for path in asked.inputs:
        if is_database(path, asked.db):
            raise Wrong('%r is the database itself, and no input' % path[:200])


def placed(path: str, rest: str, base: Optional[str]) -> str:
    """Where a file is said to lie. `..` after a link leads to where the link does, and not to where its name stands."""
    if base is not None:
        return '%s/%s' % (base.rstrip('/'), place_of(rest))
    folder, name = os.path.split(path)
    return place_of(os.path.join(os.path.realpath(folder), name) if '..' in folder.split('/') else os.path.abspath(path))


def looks_right(path: str) -> bool:
    """Whether a file in a folder is a recording or an image by its name or its first bytes."""
    if path.lower().endswith(ENDINGS):
        return True
    if not os.path.isfile(path):
        return False
    try:
        with open(path, 'rb') as file:
            front = file.read(520)
    except OSError:
        return True  # which is said where it is added
    return is_recording(front) or front[512:520] == b'FORTYtwo'


def need_file(path: str) -> None:
    """That a path leads to a file: a pipe would have to be waited for."""
    if not stat.S_ISREG(os.stat(path).st_mode):
        raise OSError(0, 'no regular file')


def opened(path: str) -> Data:
    """The bytes of a file: read where it is small, else mapped."""
    need_file(path)
    with open(path, 'rb') as file:
        return file.read() if os.fstat(file.fileno()).st_size <= SMALL else mmap.mmap(file.fileno(), 0, access=mmap.ACCESS_READ)


class Mark:
    """What tells that a file was changed: which one lies at a path, its size, and when it was written to. It is taken before the
    file is read."""

    def __init__(self, path: str) -> None:
        self.path = path
        self.taken = self.now()
        self.is_sharp = time.time_ns() - self.taken[3] > MOST_TICK

    def now(self) -> Tuple[int, ...]:
        """Device, file, size, and the times of the last write and change in nanoseconds, as they are now."""
        state = os.stat(self.path)
        return state.st_dev, state.st_ino, state.st_size, state.st_mtime_ns, state.st_ctime_ns

    def need_same(self, begin: int, end: int, sum_: str, is_all: bool) -> None:
        """That the file has these bytes still, or is all of them, after it was read: who reads what is written to meanwhile may see
        some of both."""
        if self.is_sharp and self.now() == self.taken:
            return
        data = opened(self.path)
        with memoryview(data)[begin:end] as view:
            if is_all and len(data) != end or sum_of(view) != sum_:
                raise OSError(0, CHANGED)


def tasks_of(inputs: Iterable[Input], failed: List[Tuple[str, str]]) -> Iterator[Task]:
    """What is to be done for each input: one task for a recording, one for each file of an image."""
    seen: Dict[str, str] = {}
    for path, place in inputs:
        try:
            need_file(path)
            if len(place.encode()) > MOST_PLACE:
                raise OSError(0, 'its place has more than %d bytes' % MOST_PLACE)
            if seen.setdefault(place, path) != path and not os.path.samefile(seen[place], path):
                raise OSError(0, 'another input of this call has the same place: %s' % place_of(seen[place]))
            with open(path, 'rb') as file:
                size, front = os.fstat(file.fileno()).st_size, file.read(520)
            if is_recording(front) or front[512:520] != b'FORTYtwo':
                yield dict(path=path, place=place, begin=0, end=size, number=-1, files=0, bytes=size, mapped=size > SMALL)
                continue
            for task in image_tasks(path, place, opened(path)):
                yield dict(task, mapped=size > SMALL)
        except OSError as error:
            failed.append((place, error.strerror or str(error)))


def image_tasks(path: str, place: str, data: Data) -> Iterator[Task]:
    """A task for each file of an image; one with a fault where its directory cannot be read."""
    try:
        volume, files = directory(data)
    except Fault as fault:
        yield dict(path=path, place=place, begin=0, end=len(data), number=-1, files=0, bytes=len(data), fault=str(fault))
        return
    for number, file in enumerate(files):
        begin = min(512 * file.first, len(data))
        end = min(begin + file.size, len(data))
        yield dict(path=path, place=place, begin=begin, end=end, number=number, files=len(files), bytes=end - begin,
                   volume=shown(volume),
                   name=shown(file.name), closed=file.closed, listed=most(file.size))


def asked_for(task: Task) -> Asked:
    """What a call says of the times of an input, with the date of its file."""
    try:
        date = date_of(os.stat(task['path']))
    except OSError:
        date = None
    return Asked(*task['clock'])._replace(date=date) if task.get('clock') else Asked(date=date)


# ---- one of them, in a process of its own or in this one

def work(setting: Task) -> Callable[[Task], Task]:
    """What looks at one task, by the program and the database of a setting."""
    store = open_store(setting['db'], make=False)

    def look(task: Task) -> Task:
        try:
            mark, data = Mark(task['path']), opened(task['path'])
        except OSError as error:
            return {'error': error.strerror or str(error)}
        is_all = task['number'] < 0
        begin, end = task['begin'], len(data) if is_all else min(task['end'], len(data))
        with memoryview(data)[begin:end] as view:
            sum_ = sum_of(view)
            known = store.rows('SELECT verdict FROM recording WHERE sha256 = ?', (sum_,))
            if known and not setting['anew'] and (known[0][0] != 'unjudged' or setting['program'] is None):
                return {'sha256': sum_, 'verdict': known[0][0], 'known': True}
            program = setting['program'] if len(view) <= setting['most'] else None
            if 'fault' in task:
                found = nothing_in(len(view))
                found.update(verdict_of_image(program, view, Fault(task['fault'])))
        if 'fault' not in task:
            found = facts_of(data, begin, end, program, asked=asked_for(task))
        mark.need_same(begin, end, sum_, is_all)
        found.update(sha256=sum_, judge=setting['judge'] if found['verdict'] != 'unjudged' else None)
        return found

    look.close = store.close  # type: ignore
    return look


# ---- into the database

def now() -> str:
    """The time by UTC, to the second, as text."""
    return datetime.datetime.now(datetime.timezone.utc).replace(tzinfo=None).isoformat(' ', 'seconds')


def record(store: Store, found: Sequence[Tuple[Task, Task]], anew: bool) -> List[str]:
    """Puts what was found into the database, all of it or nothing. Answers of each whether it was `added`, `judged` (it had no
    verdict before), or `known`."""
    with store.transaction():
        return put_recordings(store, found, anew)


def put_recordings(store: Store, found: Sequence[Tuple[Task, Task]], anew: bool) -> List[str]:
    """The same inside a transaction of the caller's."""
    ways: Dict[str, str] = {}
    moment = now()
    fresh = {facts['sha256']: facts for _, facts in found if not facts.get('known')}
    new = store.insert_new('recording', RECORDING_COLUMNS, [
        tuple(dict(fresh[key], added=moment)[name] for name in RECORDING_COLUMNS) for key in sorted(fresh)], 1)
    sums = {facts['sha256'] for _, facts in found}
    ids = dict(recordings_of(store, sorted(sums)))
    if len(ids) < len(sums):
        raise StoreError(TAKEN_OUT)
    for key in sorted(fresh):
        ways[key] = 'added' if (key,) in new else replace(store, ids[key], fresh[key], anew)
    details(store, [(ids[key], fresh[key]) for key in sorted(fresh) if ways[key] != 'known'])
    put_places(store, found, ids, moment)
    return [ways.pop(facts['sha256'], 'known') for _, facts in found]


def recordings_of(store: Store, sums: Sequence[str]) -> Iterator[Tuple[str, int]]:
    """Sum and id of those recordings that are in the catalogue."""
    for at in range(0, len(sums), PARAMETERS):
        some = sums[at:at + PARAMETERS]
        for sum_, number in store.rows('SELECT sha256, id FROM recording WHERE sha256 IN (%s)' % ', '.join('?' * len(some)), some):
            yield sum_, number


def replace(store: Store, number: int, facts: Task, anew: bool) -> str:
    """Takes what was found in place of what stood there, where it had no verdict or the call asks for it."""
    there = store.rows('SELECT verdict FROM recording WHERE id = ?' + store.for_update, (number,))
    if not there:
        raise StoreError(TAKEN_OUT)
    if not anew and (there[0][0] != 'unjudged' or facts['verdict'] == 'unjudged'):
        return 'known'
    names = [name for name in RECORDING_COLUMNS if name not in ('sha256', 'added')]
    store.rows('UPDATE recording SET %s WHERE id = ?' % ', '.join(name + ' = ?' for name in names),
               [facts[name] for name in names] + [number])
    for table in ('channel', 'damage', 'attribute', 'unread', 'remark'):
        store.rows('DELETE FROM %s WHERE recording = ?' % table, (number,))
    return 'judged'


def details(store: Store, found: Sequence[Tuple[int, Task]]) -> None:
    """The rows that belong to recordings."""
    store.insert('channel', ('recording',) + CHANNEL_COLUMNS + ('lower_name',), (
        (number, *row, row[NAME] and row[NAME].translate(CASE)) for number, facts in found for row in facts['channels']))
    store.insert('damage', ('recording', 'byte_offset', 'byte_length', 'reason'), (
        (number, *row) for number, facts in found for row in facts['damage']))
    store.insert('attribute', ('recording', 'code', 'value'), (
        (number, *row) for number, facts in found for row in facts['attributes']))
    store.insert('unread', ('recording', 'channel', 'data_type', 'packets', 'why'), (
        (number, *row) for number, facts in found for row in facts['unread']))
    store.insert('remark', ('recording', 'number', 'remark'), (
        (number, *row) for number, facts in found for row in facts['remarks']))


def put_places(store: Store, found: Sequence[Tuple[Task, Task]], ids: Dict[str, int], moment: str) -> None:
    """Where the recordings lie; a file that has others now than before has those."""
    rows, files = {}, {}
    for task, facts in found:
        rows[task['place'], task['number']] = (task['place'], task['number'], ids[facts['sha256']], task.get('volume'),
                                               task.get('name'), task.get('closed'),
                                               task.get('listed'), moment)
        files[task['place']] = task['files']
    plain = sorted(place for place, number in files.items() if number == 0)
    for at in range(0, len(plain), PARAMETERS):
        some = plain[at:at + PARAMETERS]
        store.rows('DELETE FROM place WHERE file_number >= 0 AND path IN (%s)' % ', '.join('?' * len(some)), some)
    for place in sorted(set(files) - set(plain)):
        store.rows('DELETE FROM place WHERE path = ? AND (file_number < 0 OR file_number >= ?)', (place, files[place]))
    every = [rows[key] for key in sorted(rows)]
    step = PARAMETERS // len(PLACE_COLUMNS)
    for at in range(0, len(every), step):
        some = every[at:at + step]
        store.rows('INSERT INTO place (%s) VALUES %s ON CONFLICT (path, file_number) DO UPDATE SET %s' % (
            ', '.join(PLACE_COLUMNS), ', '.join(['(%s)' % ', '.join('?' * len(PLACE_COLUMNS))] * len(some)),
            ', '.join('%s = excluded.%s' % (name, name) for name in PLACE_COLUMNS[2:])), [value for row in some for value in row])


# ---- the command

class Progress:
    """What is said while files are added: a bar on a terminal, one line a file elsewhere."""

    def __init__(self, out: Output) -> None:
        self.out, self.is_bar = out, out.to.isatty() and sys.stderr is not None and sys.stderr.isatty()
        self.files = self.bytes = self.faulty = 0
        self.ways = dict.fromkeys(('added', 'judged', 'known'), 0)
        self.start = self.last = time.monotonic()

    def say(self, task: Task, facts: Task, way: str) -> None:
        """Counts a recording, and says in a line what became of it, unless there is a bar."""
        self.files += 1
        self.bytes += task['bytes']
        self.ways[way] += 1
        self.faulty += facts['verdict'] == 'faulty'
        if not self.is_bar:
            self.out.line('%s %s %s %s' % (way, facts['verdict'], facts['sha256'][:16], title(task)))

    def flush(self, is_end: bool = False) -> None:
        """Draws the bar, or writes the lines that wait."""
        if self.is_bar:
            passed = time.monotonic() - self.start
            sys.stderr.write('\r\x1b[K%d files, %.0f MB, %.0f MB/s, %d faulty%s' % (
                self.files, self.bytes / 1e6, self.bytes / 1e6 / max(passed, 1e-3), self.faulty, '\n' if is_end else ''))
            sys.stderr.flush()
        else:
            self.out.flush()


def title(task: Task) -> str:
    """Where an input lies, as a line says it."""
    place = printable(task['place'])
    return place if task['number'] < 0 else '%s file %d %s' % (place, task['number'], task['name'])


Added = Tuple[Task, Task, str]


def added(store: Store, asked: Words, failed: List[Tuple[str, str]], passed: List[str]) -> Iterator[List[Added]]:
    """Adds the inputs of a call, and gives what was done with each, a transaction's worth at a time. What can't be read goes to
    `failed`."""
    program = None if asked.unjudged else program_of(asked.program)
    memory = asked.memory << 20 if asked.memory else half_of_memory()
    setting = dict(work='catalogue', db=asked.db, program=program, judge=program and version_of(program), anew=asked.anew,
                   most=memory)
    held: List[Tuple[Task, Task]] = []
    last = time.monotonic()
    with Pool(asked.jobs or processors(), setting, Room(memory), AHEAD) as pool:
        tasks = tasks_of(inputs_of(asked.inputs, asked.place, passed, failed, asked.db), failed)
        for task, facts in pool.done(dict(task, clock=[asked.time_channel, asked.year, asked.time_from_end]) for task in tasks):
            if 'error' in facts:
                failed.append((title(task), facts['error']))
                continue
            held.append((task, facts))
            if len(held) >= MOST_TOGETHER or time.monotonic() - last >= MOST_WAIT:
                yield [(*pair, way) for pair, way in zip(held, record(store, held, asked.anew))]
                held, last = [], time.monotonic()
        if held:
            yield [(*pair, way) for pair, way in zip(held, record(store, held, asked.anew))]


def add(asked: Words, data: None, out: Output) -> None:
    """`ch10 catalogue add`."""
    failed: List[Tuple[str, str]] = []
    passed: List[str] = []
    progress = Progress(out)
    need_inputs(asked)
    store = open_store(asked.db)
    try:
        for some in added(store, asked, failed, passed):
            for task, facts, way in some:
                progress.say(task, facts, way)
            progress.flush()
        progress.flush(is_end=True)
        if progress.ways['added'] + progress.ways['judged']:
            with suppress(StoreError):  # as where another program is at work: all is added, and the next call does this
                store.settle()
    finally:
        store.close()
    out.line('%d added, %d judged anew, %d known before; %d of them faulty%s' % (
        progress.ways['added'], progress.ways['judged'], progress.ways['known'], progress.faulty,
        '; %d others in the folders are no recordings' % len(passed) if passed else ''))
    unread(failed, out)


def unread(failed: Sequence[Tuple[str, str]], out: Optional[Output] = None) -> None:
    """Says what could not be read, where something could not: a line for each, and then how many."""
    if out:
        for place, why in failed:
            out.line('unread %s: %s' % (printable(place), printable(why)))
        out.flush()
    if failed:
        raise OSError(0, '%d of the inputs could not be read, first %s: %s' % (len(failed), failed[0][0], failed[0][1]))


def half_of_memory() -> int:
    """Half of the bytes that are free, for what the program holds while it judges."""
    try:
        with open('/proc/meminfo') as file:
            for line in file:
                if line.startswith('MemAvailable:'):
                    return int(line.split()[1]) << 9
    except OSError:
        pass
    return 1 << 31
