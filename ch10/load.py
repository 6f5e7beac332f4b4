"""`ch10 load`: the entries of recordings into tables by kind, each recording's once, all of it or nothing."""
from __future__ import annotations

import datetime
import struct
from bisect import bisect_right
from contextlib import closing, contextmanager
from typing import Callable, Dict, FrozenSet, Iterable, Iterator, List, NamedTuple, Optional, Sequence, Set, Tuple

from .bodies import counted
from .catalogue import TAKEN_OUT, Mark, added, asked_for, need_inputs, now, opened, title, unread
from .clocks import BITS, NOTHING, Asked, Timing
from .entry_rows import END, FRONT, TABLES, Reader, days_of, flat, packed
from .facts import sum_of
from .inputs import Output, unread_text
from .kinds import by_type
from .packets import Packet, loss_of, packets
from .segments import Segments
from .standard import SETUP, Data, Facts, Fault, Value, Words
from .store import Store, StoreError, open_store, partition_of
from .survey import name_of, said_in, time_of_header
from .tmats import attributes
from .workers import Pool, Task, processors

PART = 1 << 22  # bytes of a recording that a worker reads at a time
TOGETHER = 1 << 26  # bytes of recordings that are loaded together, and in SQLite in one transaction
SHARE = 1 << 22  # bytes of recordings that a worker loads in one transaction
LARGE = 1 << 26  # bytes of a recording whose parts all workers read
# Tables of days that a transaction reaches into: a server has room for 6,400 locks, if nobody changed that, and each takes some.
MOST_DAYS = 1000
CHANGED = 'its entries are not those of the catalogue: was the file changed meanwhile?'
SPREAD = 'its entries lie on too many days: they would take more than %d tables' % MOST_DAYS

STATES = by_type('last_state')

Days = FrozenSet[Tuple[str, str]]


class Wanted(NamedTuple):
    """A recording to load: where its bytes are, its id and sum, of each wanted channel and type how many entries it has, and its
    first and last civil time.

    Where the engine keeps days apart, `days` has the tables and the days that its entries go to, and `day` the one that all of them
    lie on, if it is one.
    """

    task: Task
    number: int
    sum: str
    entries: Dict[Tuple[int, int], int]
    times: Tuple[Optional[str], Optional[str]]
    days: Days = frozenset()
    day: Optional[str] = None

    def size(self) -> int:
        """The bytes of the recording."""
        return self.task['end'] - self.task['begin']


class NotLoaded(Exception):
    """A recording that could not be read to its end, and why."""

    def __init__(self, number: int, why: str) -> None:
        Exception.__init__(self, why)
        self.number, self.why = number, why


# ---- where a recording is cut, and what has to be known at each cut

class Layout:
    """The cuts of a recording, at packets: of each where it stands, the loss report right before it, and the last state of each
    channel whose packets have one."""

    def __init__(self, data: Data, begin: int, end: int, passed: Dict[int, int], asked: Asked = NOTHING) -> None:
        self.cuts: List[Tuple[int, Optional[Tuple[int, int]], Dict[int, int]]] = []
        self.bases: List[Tuple[int, int]] = [(0, 0)]  # from which place on which instant is that of count 0
        timing, setup, self.segments = Timing(), b'', Segments(data, begin)
        states: Dict[int, int] = {}
        report, last = None, -PART
        for packet in packets(data, begin, end, False, passed):
            base = timing.sessions.base_of(packet.channel, packet.kind, packet.counter, packet.sequence, packet.offset)
            if base is None:
                base = self.bases[-1][1]
            elif base != self.bases[-1][1]:
                if timing.sessions.run_of(base >> BITS) == base >> BITS > self.bases[-1][1] >> BITS:
                    states = {}
                self.bases.append((packet.offset, base))
            if packet.offset - last >= PART:
                last = packet.offset
                self.cuts.append((last, report, dict(states)))
            report = loss_of(packet)
            self.segments.note(packet)
            if packet.second is not None:
                timing.add_header(packet.counter + base, time_of_header(packet), packet.offset)
            told = said_in(packet)
            if told is not None:
                timing.add(packet.channel, packet.counter + base, told, packet.offset, packet.flags)
            elif packet.kind == SETUP and packet.word is not None:
                setup = setup or bytes(packet.body[4:])
            elif packet.kind in STATES and packet.word is not None:
                state = STATES[packet.kind](packet.body)
                if state is not None:
                    states[packet.channel] = state
        self.clock = timing.clock(asked, attributes(setup))
        self.sessions = timing.sessions
        self.end = end - begin

    def base(self, offset: int) -> int:
        """The instant of count 0 of the session of a packet that begins there."""
        if len(self.bases) == 1:
            return 0
        return self.bases[bisect_right(self.bases, (offset, 1 << 64)) - 1][1]

    def session(self, offset: int) -> int:
        """The session of a packet that begins there; one that goes on from another, as the counter's bits were full, is that."""
        return self.sessions.run_of(self.base(offset) >> BITS)


class Held:
    """The bytes of a recording, which are those of the catalogue, and its layout."""

    def __init__(self, path: str, begin: int, end: int, sum_: str, passed: Dict[int, int], asked: Asked = NOTHING) -> None:
        self.mark, self.data = Mark(path), opened(path)
        self.begin, self.end, self.sum, self.passed = begin, end, sum_, passed
        with memoryview(self.data)[begin:end] as view:
            if sum_of(view) != sum_:
                raise Fault(CHANGED)
        self.layout = Layout(self.data, begin, end, passed, asked)

    def packets(self) -> Iterator[Packet]:
        """All packets, messages in segments joined."""
        return self.layout.segments.among(packets(self.data, self.begin, self.end, False, self.passed))

    def part(self, cut: int) -> Iterator[Packet]:
        """The packets of a part; their offsets count from the recording's first byte."""
        cuts = self.layout.cuts
        start = cuts[cut][0]
        end = cuts[cut + 1][0] if cut + 1 < len(cuts) else self.layout.end
        inside = {offset - start: length for offset, length in self.passed.items() if start <= offset < end}
        for packet in packets(self.data, self.begin + start, self.begin + end, False, inside):
            yield self.layout.segments.joined(packet._replace(offset=packet.offset + start))

    def packed(self, number: int, wanted: Set[Tuple[int, int]], cut: int) -> Dict[int, Tuple[int, bytes]]:
        """The wanted entries of a part, as COPY takes them."""
        _, report, states = self.layout.cuts[cut]
        return packed(Reader(number, wanted, report, dict(states), self.layout), self.part(cut), self.layout.clock)

    def need_same(self) -> None:
        """That what was read is still what was summed."""
        self.mark.need_same(self.begin, self.end, self.sum, False)


def work(setting: Task) -> Callable[[Task], Task]:
    """What reads one part of a recording, or loads some whole ones by a session of its own; in a process of its own or in this
    one."""
    kept: Facts = {}

    def look(task: Task) -> Task:
        if 'share' in task:
            if 'store' not in kept:
                kept['store'] = open_store(setting['db'], make=False)
            failed: List[Tuple[str, str]] = []
            kept['store'].make_days([(table, day) for table, day in task['days']], task['share'])
            loaded, entries = load_those(kept['store'], [received(*one) for one in task['some']], copied_whole, failed)
            return {'loaded': sorted(loaded), 'entries': entries, 'failed': failed}
        key = (task['path'], task['begin'])
        if kept.get('key') != key:
            kept.pop('key', None)
            passed = {int(offset): length for offset, length in task['passed']}
            kept.update(held=Held(task['path'], task['begin'], task['end'], task['sum'], passed, asked_for(task)), key=key)
        held = kept['held']
        wanted = {(channel, kind) for channel, kind in task['wanted']}
        if task.get('asks_days'):
            return {'days': days_in(held, wanted)}
        found = held.packed(task['number'], wanted, task['cut'])
        held.need_same()
        return {'kinds': [[kind, number] for kind, (number, _) in found.items()], 'parts': [part for _, part in found.values()]}

    look.close = lambda: kept['store'].close() if 'store' in kept else None  # type: ignore
    return look


def days_in(held: Held, wanted: Set[Tuple[int, int]]) -> Optional[List[List[int]]]:
    """The data types and days, by their numbers, that a recording has wanted entries of; None where these are too many."""
    found: Set[Tuple[int, int]] = set()
    clock = held.layout.clock
    if clock is None or not clock.dated:
        return []
    for packet, there in counted(packet for packet in held.packets() if (packet.channel, packet.kind) in wanted):
        if there:
            base = held.layout.base(packet.offset)
            found.update((packet.kind, day) for day in days_of([base + count for count in there], clock))
            if len(found) > MOST_DAYS:
                return None
    return [list(one) for one in sorted(found)]


# ---- what is to be loaded

def wanted_of(store: Store, task: Task, sum_: str, chosen: Optional[Sequence[int]]) -> Wanted:
    """What is to be loaded of a recording: the chosen channels with entries that are not loaded yet."""
    found = store.rows('SELECT id, first_time, last_time FROM recording WHERE sha256 = ?', (sum_,))
    if not found:
        raise StoreError(TAKEN_OUT)
    number, first, last = found[0]
    if store.rows("SELECT 1 FROM remark WHERE recording = ? AND remark LIKE 'times:%' LIMIT 1", (number,)):
        first = last = None  # which may not be those of all entries
    there = set(store.rows('SELECT channel, data_type FROM loaded WHERE recording = ?', (number,)))
    rows = store.rows(
        'SELECT channel, data_type, entries FROM channel WHERE recording = ? AND entries > 0 ORDER BY channel, data_type',
        (number,))
    return Wanted(task, number, sum_, {(channel, kind): entries for channel, kind, entries in rows
                                 if kind in TABLES and (channel, kind) not in there and (not chosen or channel in chosen)},
                  (first, last))


def claimed(store: Store, some: Sequence[Wanted]) -> List[Wanted]:
    """Inside a transaction: takes note of what is loaded now, and leaves out what another program has loaded meanwhile. In an order
    that all programs keep, so that none waits for another that waits for it."""
    moment = now()
    rows = sorted((one.number, channel, kind, entries, moment) for one in some for (channel, kind), entries in one.entries.items())
    new: Set[Tuple] = set()
    for at in range(0, len(rows), 500):
        new |= store.insert_new('loaded', ('recording', 'channel', 'data_type', 'entries', 'loaded'), rows[at:at + 500], 3)
    return [one._replace(entries={key: entries for key, entries in one.entries.items() if (one.number, *key) in new})
            for one in some]


def damage_in(store: Store, number: int) -> Dict[int, int]:
    """The stretches of a recording that are passed over: lengths by offsets."""
    rows = store.rows('SELECT byte_offset, byte_length FROM damage WHERE recording = ?', (number,))
    return {offset: length for offset, length in rows}


def day_text(day: int) -> str:
    """A day by its number, as YYYY-MM-DD."""
    return datetime.date.fromordinal(day).isoformat()


def with_days(store: Store, some: Sequence[Wanted], pool: Pool) -> Iterator[Tuple[Wanted, Optional[str]]]:
    """Each recording with its days, or with why it cannot be loaded. One that lies within two days has both; another is read for
    them, for its clock was set."""
    asked: List[Wanted] = []
    for one in some:
        first, last = (time and len(time) == 27 and datetime.date.fromisoformat(time[:10]).toordinal() for time in one.times)
        if first and last and last - first <= 1:
            yield one._replace(days=days_named((kind, day) for _, kind in one.entries for day in (first, last)),
                               day=day_text(first) if first == last else None), None
        else:
            asked.append(one)
    damage = {one.number: damage_in(store, one.number) for one in asked}
    by_number = {one.number: one for one in asked}
    tasks = [dict(task_of(one, damage[one.number]), asks_days=True) for one in asked]
    for task, found in pool.done(tasks):
        one = by_number[task['number']]
        if 'error' in found:
            yield one, found['error']
        elif found['days'] is None:
            yield one, SPREAD
        else:
            yield one._replace(days=days_named((kind, day) for kind, day in found['days'])), None


def days_named(found: Iterable[Tuple[int, int]]) -> Days:
    """Tables and days, by data types and the numbers of days."""
    return frozenset((TABLES[kind].name, day_text(day)) for kind, day in found)


def together(some: Sequence[Wanted], most_days: int, most_bytes: int) -> Iterator[List[Wanted]]:
    """Recordings by transactions: as many as do not reach into too many days, and have not too many bytes."""
    held: List[Wanted] = []
    days: Set[Tuple[str, str]] = set()
    size = 0
    for one in some:
        if held and (len(days | one.days) > most_days or size + one.size() > most_bytes):
            yield held
            held, days, size = [], set(), 0
        held.append(one)
        days |= one.days
        size += one.size()
    if held:
        yield held


# ---- into the database

# Puts entries into the tables, inside a transaction, and answers of each recording how many.
Put = Callable[[Store, Sequence[Wanted]], Dict[int, int]]


def load_all(store: Store, some: Sequence[Wanted], pool: Optional[Pool], failed: List[Tuple[str, str]]) -> Tuple[Set[int], int]:
    """Loads some recordings, and answers the ids of those that were loaded, and how many entries. What cannot be read is left out,
    and goes to `failed`."""
    if pool is None:
        return load_those(store, some, inserted, failed)
    able = []
    for one, why in with_days(store, some, pool):
        if why is None:
            able.append(one)
        else:
            failed.append((title(one.task), why))
    workers, most = pool, MOST_DAYS // pool.number
    loaded, total = load_by_workers([one for one in able if one.size() <= LARGE and len(one.days) <= most], pool, failed)
    for group in together([one for one in able if one.size() > LARGE or len(one.days) > most], MOST_DAYS, LARGE):
        store.make_days({place for one in group for place in one.days})
        numbers, entries = load_those(store, group, lambda store, rest: copied(store, rest, workers), failed)
        loaded, total = loaded | numbers, total + entries
    return loaded, total


def load_by_workers(some: Sequence[Wanted], pool: Pool, failed: List[Tuple[str, str]]) -> Tuple[Set[int], int]:
    """Loads recordings in shares, each by a worker in a transaction of its own session. Where a worker ended, each recording of its
    share is tried once more alone."""
    loaded: Set[int] = set()
    total = 0
    shares = list(together(some, MOST_DAYS // pool.number, SHARE))
    while shares:
        again: List[List[Wanted]] = []
        with closing(pool.done(map(task_of_share, range(len(shares)), shares))) as done:
            for task, found in done:
                share = shares[task['share']]
                if 'error' not in found:
                    loaded, total = loaded | set(found['loaded']), total + found['entries']
                    failed += [(place, why) for place, why in found['failed']]
                elif len(share) > 1:
                    again += [[one] for one in share]
                else:
                    failed.append((title(share[0].task), found['error']))
        shares = again
    return loaded, total


def task_of_share(number: int, share: Sequence[Wanted]) -> Task:
    """The task of a worker that loads some recordings whole."""
    return dict(share=number, some=[sent(one) for one in share], days=sorted({place for one in share for place in one.days}),
                mapped=any(one.task.get('mapped') for one in share))


def sent(one: Wanted) -> List[Value]:
    """What a worker has to know of a recording, as JSON takes it."""
    return [one.task, one.number, one.sum, [[channel, kind, entries] for (channel, kind), entries in one.entries.items()], one.day]


def received(task: Task, number: int, sum_: str, entries: Sequence[Sequence[int]], day: Optional[str]) -> Wanted:
    """What a worker knows of a recording, of what was sent."""
    return Wanted(task, number, sum_, {(channel, kind): many for channel, kind, many in entries}, (None, None), day=day)


def load_those(store: Store, some: Sequence[Wanted], put: Put, failed: List[Tuple[str, str]]) -> Tuple[Set[int], int]:
    """Loads some recordings in one transaction; where one of them cannot be read, in another one without it."""
    rest = list(some)
    while rest:
        try:
            return {one.number for one in rest}, load_once(store, rest, put)
        except NotLoaded as bad:
            failed += [(title(one.task), bad.why) for one in rest if one.number == bad.number]
            rest = [one for one in rest if one.number != bad.number]
    return set(), 0


def load_once(store: Store, some: Sequence[Wanted], put: Put) -> int:
    """Loads some recordings in one transaction, and answers how many entries."""
    with store.transaction():
        return put_entries(store, some, put)


def put_entries(store: Store, some: Sequence[Wanted], put: Put) -> int:
    """The same inside a transaction of the caller's."""
    total = 0
    rest = [one for one in claimed(store, some) if one.entries]
    counted = put(store, rest)
    for one in rest:
        entries = sum(one.entries.values())
        if counted.get(one.number, 0) != entries:
            raise NotLoaded(one.number, CHANGED)
        total += entries
    return total


def copied(store: Store, some: Sequence[Wanted], pool: Pool) -> Dict[int, int]:
    """Loads by COPY what workers make of the parts. Answers of each recording how many entries."""
    counted: Dict[int, int] = {}
    by_number = {one.number: one for one in some}
    with closing(pool.done(parts_of(store, some))) as done:
        for task, found in done:
            if 'error' in found:
                raise NotLoaded(task['number'], found['error'])
            for (kind, number), part in zip(found['kinds'], found['parts']):
                copy(store, by_number[task['number']], kind, part)
                counted[task['number']] = counted.get(task['number'], 0) + number
    return counted


def copied_whole(store: Store, some: Sequence[Wanted]) -> Dict[int, int]:
    """The same by a process that reads all of a recording by itself, part by part."""
    counted: Dict[int, int] = {}
    for one in some:
        held = held_of(one, damage_in(store, one.number))
        for cut in range(len(held.layout.cuts)):
            with only_changed(one):
                found = held.packed(one.number, set(one.entries), cut)
            for kind, (number, part) in found.items():
                copy(store, one, kind, part)
                counted[one.number] = counted.get(one.number, 0) + number
        with only_changed(one):
            held.need_same()
    return counted


def copy(store: Store, one: Wanted, kind: int, part: bytes) -> None:
    """Some entries of a recording into the table of their kind; where all lie on one day, into that day's."""
    table = TABLES[kind]
    name = partition_of(table.name, one.day) if one.day else table.name
    store.copy('COPY %s (%s) FROM STDIN (FORMAT binary)' % (name, ', '.join(table.names)), (FRONT, part, END))


def task_of(one: Wanted, passed: Dict[int, int]) -> Task:
    """The task of a worker that reads a part of a recording."""
    task = one.task
    return dict(path=task['path'], begin=task['begin'], end=task['end'], number=one.number, sum=one.sum, wanted=sorted(one.entries),
                passed=sorted(passed.items()), mapped=task.get('mapped', False), clock=task.get('clock'))


def parts_of(store: Store, some: Sequence[Wanted]) -> Iterator[Task]:
    """The parts of some recordings, as tasks."""
    damage = {one.number: damage_in(store, one.number) for one in some}
    for one in some:
        made = task_of(one, damage[one.number])
        cuts = len(held_of(one, damage[one.number]).layout.cuts) if one.size() > PART else 1
        for cut in range(cuts):
            yield dict(made, cut=cut)


def held_of(one: Wanted, passed: Dict[int, int]) -> Held:
    """The bytes of a recording. A NotLoaded where they are not those of the catalogue."""
    with only_changed(one):
        return Held(one.task['path'], one.task['begin'], one.task['end'], one.sum, passed, asked_for(one.task))


@contextmanager
def only_changed(one: Wanted) -> Iterator[None]:
    """What is wrong inside is wrong with a recording, which is left out then."""
    try:
        yield
    except StoreError:
        raise
    except OSError as error:
        raise NotLoaded(one.number, error.strerror or str(error))
    except (Fault, struct.error):
        raise NotLoaded(one.number, CHANGED)


def without_times(counts: Sequence[int]) -> Sequence[Optional[str]]:
    """The texts of instants that have no time: none."""
    return (None,) * len(counts)


def inserted(store: Store, some: Sequence[Wanted]) -> Dict[int, int]:
    """Loads by INSERT, in this process. Answers of each recording how many entries."""
    counted: Dict[int, int] = {}
    for one in some:
        held = held_of(one, damage_in(store, one.number))
        clock = held.layout.clock
        reader = Reader(one.number, set(one.entries), None, {}, held.layout)
        found = reader.columns(held.packets(), clock.texts if clock and clock.dated else without_times)
        with only_changed(one):
            for kind, columns in found:
                store.insert(TABLES[kind].name, TABLES[kind].names, zip(*flat(columns)))
                counted[one.number] = counted.get(one.number, 0) + len(columns[0])
            held.need_same()
    return counted


# ---- the command

def load(asked: Words, data: None, out: Output) -> None:
    """`ch10 load`."""
    failed: List[Tuple[str, str]] = []
    asked.anew = asked.time_channel is not None or asked.year is not None or asked.time_from_end
    need_inputs(asked)
    store = open_store(asked.db)
    pool = None
    try:
        found = [(task, facts['sha256']) for some in added(store, asked, failed, []) for task, facts, _ in some
                 if task.get('fault') is None]
        if store.engine == 'postgresql':
            pool = Pool(asked.jobs or processors(), dict(work='load', db=asked.db))
        total = recordings = not_read = 0
        for batch in batches(found, TOGETHER * (pool.number if pool else 1)):
            for task, sum_ in batch:
                not_read += say_remarks(store, task, sum_, asked.channel, out)
            some = [wanted_of(store, task, sum_, asked.channel) for task, sum_ in batch]
            some = list({one.number: one for one in some if one.entries}.values())
            numbers, entries = load_all(store, some, pool, failed)
            total, recordings = total + entries, recordings + len(numbers)
            ways = {id(one.task): 'loaded' if one.number in numbers else None for one in some}  # none of those that failed
            for task, sum_ in batch:
                if ways.get(id(task), 'known'):
                    out.line('%s %s %s' % (ways.get(id(task), 'known'), sum_[:16], title(task)))
            out.flush()
    finally:
        if pool is not None:
            pool.__exit__(None, None, None)
        store.close()
    out.line('%d entries of %d recordings loaded' % (total, recordings))
    unread(failed, out)
    if not_read:
        raise Fault('%d channel%s packets of a kind that is loaded which were not read' % (
            not_read, ' has' if not_read == 1 else 's have'))


def say_remarks(store: Store, task: Task, sum_: str, chosen: Optional[Sequence[int]], out: Output) -> int:
    """Says what of a recording's times is doubtful and what of it was not read; and of how many channels whose kind is loaded
    something was not."""
    found = store.rows('SELECT id FROM recording WHERE sha256 = ?', (sum_,))
    if not found:
        raise StoreError(TAKEN_OUT)
    number = found[0][0]
    for remark, in store.rows('SELECT remark FROM remark WHERE recording = ? ORDER BY number', (number,)):
        out.note('%s: %s' % (title(task), remark))
    bad = 0
    for channel, kind, number_of, why in store.rows(
            'SELECT channel, data_type, packets, why FROM unread WHERE recording = ? ORDER BY channel, data_type, why', (number,)):
        if not chosen or channel in chosen:
            out.note('%s: %s' % (title(task), unread_text(channel, name_of(kind), number_of, why)))
            bad += kind in TABLES
    return bad


def batches(found: Sequence[Tuple[Task, str]], most: int) -> Iterator[List[Tuple[Task, str]]]:
    """Recordings together, up to some bytes; a larger one by itself."""
    some: List[Tuple[Task, str]] = []
    size = 0
    for task, sum_ in found:
        if some and size + task['bytes'] > most:
            yield some
            some, size = [], 0
        some.append((task, sum_))
        size += task['bytes']
    if some:
        yield some
