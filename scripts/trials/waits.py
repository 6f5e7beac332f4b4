#!/usr/bin/env python3
"""A model of what the workers of a session wait for: every order in which their steps can come, for small sessions.

    scripts/trials/waits.py            the sessions below, as the sources have it: the gate runs this
    scripts/trials/waits.py --old      the order that the sources had once, and a shortest way into its dead end
    scripts/trials/waits.py --slips    each of the wrong orders in SLIPS, one at a time: each has to be found

A session has up to two feeds, two readers, an order and three messages, though no session has all of them. A step is one that
no other worker sees half done: a load or a store of a number that workers share, the taking of a lock, a message put into a
lane or taken out of it, the falling asleep on a number. Each worker may be stopped by its gate; each call under the lock may
end its worker, as where the recorder failed or memory was refused; a pump takes nothing while nothing is recorded, and the
order begins or ends that. A feed that a stop ends is one whose source has fewer messages. A thread that can't be made runs its
work when its maker has done its own. Sleepers wake only where they are woken.

Of the states that can be reached it says that
  - in each some worker can do a step, until all have ended (no dead end);
  - no way goes round (nobody spins), so that each way comes to an end;
  - where a worker sleeps and there is something for it to do, another is about to wake it (no wake-up is lost);
  - where the writer ended by itself and something is recorded, no message is left in a lane.
Each step names the text in the sources that it stands for. A text must stand there once, and the texts of a file in this order.
Status 1 where one of these is not so, 2 for a wrong option.
"""
from __future__ import annotations

import argparse
import itertools
import pathlib
import re
import shutil
import subprocess
import sys
from collections.abc import Iterator
from typing import NamedTuple

TOP = pathlib.Path(__file__).resolve().parents[2]
SHARED = 'crates/r10_shared/src/'

# ---- the texts that the steps stand for, in the order of each file: which steps, of which worker, and the text

TEXTS: dict[str, list[tuple[str, str]]] = {
    SHARED + 'waiting.rt': [
        ('feed: looks for who waits', 'pub(crate) fn wake_writer(&self) { self.coming.notify_one(); }'),
        ('feed: over, looks for who waits', 'self.over.fetch_add(1, Ordering::SeqCst); self.coming.notify_one();'),
        ('writer: loads over', 'self.over.load(Ordering::SeqCst) >= self.all'),
        ('writer: announces', 'self.coming.prepare_wait()'),
        ('writer: adds to shown, looks for who waits', 'self.shown.fetch_add(1, Ordering::SeqCst); self.showing.notify_all();'),
        ('writer: stores written, looks for who waits', 'self.written.store(true, Ordering::SeqCst); self.showing.notify_all();'),
        ('reader: announces', 'self.showing.prepare_wait()'),
        ('reader: loads written', 'self.written.load(Ordering::SeqCst)'),
        ('reader: loads shown', 'self.shown.load(Ordering::SeqCst)'),
    ],
    SHARED + 'source.rt': [
        ('feed: passes the gate, is stopped',
         'let passed = gate.pass(worker); if passed { feed_all(rt, stop, source, port, gauge, progress) } else {'),
        ('feed: has no more', 'if stop.is_asked() { return Tally { accepted, refused }; }'),
        ('feed: has more, pushes, is refused', 'let pumped = pump_source(&mut source, port, 1);'),
        ('feed: has no more', 'if pumped.ended { return Tally { accepted, refused }; }'),
        ('feed: looks for who waits', 'if pumped.accepted > 0 { progress.wake_writer(); }'),
    ],
    SHARED + 'running.rt': [
        ('feed: pushes', 'feed.tally = feed .line .feed(rt, gate, worker, stop, source, &mut feed.gauge, progress);'),
        ('feed: over', 'progress.end_one();'),
    ],
    SHARED + 'rounds.rt': [
        ('writer: has a lane more, pumps, has gone round', 'for place in 0..channels { match pump_at(held, place) {'),
        ('writer: pump ends it', 'Turn::Over => return Turn::Over,'),
        ('writer: commits, commit ends it', 'let turn = match held.commit_all(rt) {'),
    ],
    SHARED + 'writing.rt': [
        ('writer: adds to shown', 'if round.committed { at.tell(); }'),
        ('writer: loads over, turns',
         'let last = at.is_over(); let round = at.round(last); tell_of(at, round); after(last, round.turn)'),
        ('writer: announces, loads the epoch, goes on', 'let wait = at.announce(); match writer_turn(at) { Turn::Moved => true,'),
        ('writer: is told, is not told, sleeps, does not sleep', 'Turn::Idle => { at.sleep(wait); true }'),
        ('writer: turns', 'Turn::Idle => wait_for_more(at),'),
    ],
    SHARED + 'giving.rt': [
        ('control: looks for who waits, order ends it', 'let on = goes_on(at.ask(order)); at.wake(); on'),
        ('control: has more, has no more', 'for order in orders { if !give_one(at, order) { return; } }'),
    ],
    SHARED + 'watching.rt': [
        ('reader: announces, loads the epoch, loads written, loads shown',
         'let wait = at.announce(); let last = at.is_ended(); let shown = at.commit_count();'),
        ('reader: is told, is not told, sleeps, does not sleep',
         'if !is_due(last, shown, seen) { at.sleep(wait); return Looked { shown, on: true }; }'),
        ('reader: goes on, reads, read ends it', 'drop(wait); let answer = at.read(reading);'),
    ],
    SHARED + 'desk.rt': [
        ('writer: loads over', 'self.progress.is_over()'),
        ('writer: locks, unlocks', 'held.look(); go_round(self.rt, held, last)'),
        ('writer: adds to shown, looks for who waits', 'self.progress.show();'),
        ('writer: announces', 'self.progress.await_more()'),
        ('control: locks, orders, unlocks', 'held.look(); order.perform(self.rt, held)'),
        ('control: looks for who waits', 'self.progress.wake_writer();'),
        ('reader: announces', 'self.progress.await_shown()'),
        ('reader: loads written', 'self.progress.is_written()'),
        ('reader: loads shown', 'self.progress.commit_count()'),
        ('reader: reads', 'reading.read_next(self.rt, self.alloc, self.cabinet)'),
    ],
    SHARED + 'working.rt': [
        ('writer: passes the gate, is stopped, stores written',
         'if gate.pass(worker) { let mut desk = SharedRecorder { rt, cabinet, progress, }; write(rt, &mut desk); } '
         'progress.end_writing();'),
        ('control: passes the gate, is stopped, over',
         'if gate.pass(worker) { let mut desk = SharedRecorder { rt, cabinet, progress, }; give(&mut desk, orders); } '
         'progress.end_one();'),
    ],
    SHARED + 'readers.rt': [
        ('reader: passes the gate, is stopped',
         'if gate.pass(worker) { reading.pass_over(alloc); let mut desk = ReadersDesk { rt, alloc, cabinet, progress, }; watch(rt, '
         '&mut desk, reading); }'),
    ],
    SHARED + 'reading.rt': [
        ('reader: locks, reads, read ends it, unlocks', 'match self.player.advance(rt, cabinet) {'),
    ],
    SHARED + 'session.rt': [
        ('writer: begins',
         '|| write_on(rt, cabinet, gate, first, progress), || give_orders(rt, cabinet, gate, first.wrapping_add(1), orders, '
         'progress),'),
        ('reader: begins', 'thread::join_mut(rt, &mut reading, &mut writing);'),
        ('feed: begins', 'thread::join_mut(rt, &mut others, &mut feeding);'),
        ('control: begins', 'thread::join_mut(rt, &mut others, &mut feeding);'),
    ],
}

# Of the toolchain, which is looked at where it is there: steps of every worker.
KIT_TEXTS: dict[str, list[tuple[str, str]]] = {
    'crossbeam_utils/src/sync/event_count.rt': [
        ('announces', 'self.waiters.fetch_add(1, SeqCst);'),
        ('loads the epoch', 'epoch: self.epoch.load(SeqCst),'),
        ('looks for who waits, ends their waits, wakes',
         'pub fn notify_one(&self) { if self.waiters.load(SeqCst) != 0 { self.epoch.fetch_add(1, SeqCst); self.epoch.wake_one(); } '
         '}'),
        ('looks for who waits, ends their waits, wakes',
         'pub fn notify_all(&self) { if self.waiters.load(SeqCst) != 0 { self.epoch.fetch_add(1, SeqCst); self.epoch.wake_all(); } '
         '}'),
        ('is told, is not told, sleeps, does not sleep',
         'if epoch.load(SeqCst) != self.epoch { break; } epoch.park(rt, (self.epoch & 0xffff_ffff) as u32);'),
        ('goes on', 'of.waiters.fetch_sub(1, SeqCst);'),
    ],
    'core/src/thread/lent.rt': [('begins', '// Calls f in a new thread, or last where none can be made, and g in this one.')],
    'core/src/thread.rt': [('begins', '// Calls f in a new thread, or last where none can be made, and g in this one.')],
    'std/src/thread/fork.rt': [('begins', 'join_mut(rt, &mut front, &mut back);')],
}

# Wrong orders, each of which is to be found.
SLIPS = {
    'old-reader': 'a reader loads the end, then what was shown, and sleeps on that number',
    'old-writer': 'a writer that finds nothing goes round again at once',
    'old-joins': 'of two workers the one that waits for the other is begun last where no thread can be made',
    'no-look': 'a writer announces that it waits, and sleeps without another round',
    'no-announce': 'a writer looks, and announces that it waits when it sleeps',
    'late-over': 'a feed looks for a waiting writer before it counts itself as ended',
    'late-message': 'a feed looks for a waiting writer before it puts its message into the lane',
    'late-written': 'the writer looks for waiting readers before it says that it has ended',
    'quiet-order': 'control does not tell the writer of an order',
    'quiet-end': 'control does not tell the writer of its end',
}


class Size(NamedTuple):
    """A session: how many messages each feed has, how many readers and orders, whether something is recorded at first, and which
    threads can't be made."""

    feeds: tuple[int, ...]
    readers: int
    orders: int
    recording: bool
    refused: frozenset[str] = frozenset()

    def __str__(self) -> str:
        gone = ', no thread for ' + ' and '.join(sorted(self.refused)) if self.refused else ''
        now = 'recording' if self.recording else 'idle'
        return f'feeds {list(self.feeds)}, readers {self.readers}, orders {self.orders}, {now}{gone}'


class Shared(NamedTuple):
    """What workers share. Of a worker a set has the bit of its place among the workers."""

    recording: bool
    lanes: tuple[int, ...]  # how many messages wait
    lock: bool = False
    over: int = 0
    written: bool = False
    coming: int = 0  # who announced a wait for more: EventCount::waiters
    showing: int = 0  # who announced a wait for what is shown
    armed: int = 0  # who has loaded the epoch and not gone on
    told: int = 0  # for whom the epoch is another than it loaded. Of old: the number of what was shown
    fresh: int = 0  # for which readers something was shown since they loaded it
    asleep: int = 0
    done: int = 0


class Local(NamedTuple):
    """What a worker keeps: where it stands, by its next step, and what it knows."""

    at: str = 'begin'
    left: int = 0  # messages or orders
    last: bool = False
    due: bool = False  # of the writer: something was moved
    announced: bool = False
    place: int = 0
    end: bool = False  # a call ended it
    back: str = ''  # where it stands behind a wake-up


Way = tuple[str, Shared, Local]

ROOM = 2  # a lane's capacity
TELLING = ('look', 'raise', 'wake')

# Steps that are a worker's own: nobody else loads what they change, or can while the worker has the lock; a lock that is given back
# hinders nobody; and between the end of a wait and the waking nobody falls asleep, so that it is all one when the sleeper wakes.
# Nobody sees when such a step comes: it comes at once.
OWN = {'begin', 'gate', 'next', 'round', 'commit', 'read', 'order', 'unlock', 'turn', 'wake'}


class Model:
    """The workers of a session, and their steps."""

    def __init__(self, size: Size, slip: str) -> None:
        self.size = size
        self.slip = slip
        self.workers = [f'feed {i}' for i in range(len(size.feeds))] + ['writer', 'control']
        self.workers += [f'reader {i}' for i in range(size.readers)]
        self.bit = {worker: 1 << place for place, worker in enumerate(self.workers)}
        self.all_readers = sum(bit for worker, bit in self.bit.items() if worker[0] == 'r')
        self.everybody = (1 << len(self.workers)) - 1
        self.after = self.starts()
        self.came: set[str] = set()  # which steps came, of which kind of worker
        self.kinds = {'f': self.feed, 'w': self.write, 'c': self.control, 'r': self.read}

    def starts(self) -> dict[str, int]:
        """Behind whose end each worker begins, as threads are refused."""
        feeds = [w for w in self.workers if w[0] == 'f']
        readers = [w for w in self.workers if w[0] == 'r']
        joins = {'others': (['writer', 'control'] + readers, feeds), 'reading': (readers, ['writer', 'control']),
                 'writing': (['writer'], ['control'])}
        if self.slip == 'old-joins':
            joins = {name: (second, first) for name, (first, second) in joins.items()}
        joins['a feed'] = (feeds[:1], feeds[1:])
        joins['a reader'] = (readers[:1], readers[1:])
        after = dict.fromkeys(self.workers, 0)
        for name in self.size.refused:
            for worker in joins[name][0]:
                after[worker] |= sum(self.bit[first] for first in joins[name][1])
        return after

    def start(self) -> tuple[Shared, list[Local]]:
        left = {**{f'feed {i}': messages for i, messages in enumerate(self.size.feeds)}, 'control': self.size.orders}
        shared = Shared(self.size.recording, (0,) * len(self.size.feeds), fresh=self.all_readers)
        return shared, [Local(left=left.get(worker, 0)) for worker in self.workers]

    # ---- steps, each of its worker: what it does, and what is so behind it

    def steps(self, worker: str, s: Shared, me: Local) -> list[Way]:
        if me.at == 'begin':
            return [('begins', s, me._replace(at='gate'))] if s.done & self.after[worker] == self.after[worker] else []
        if s.asleep & self.bit[worker] or s.done & self.bit[worker]:
            return []
        if me.at == 'lock':
            return [('locks', s._replace(lock=True), me._replace(at=me.back, back=''))] if not s.lock else []
        return list(self.kinds[worker[0]](worker, s, me))

    def ends(self, worker: str, s: Shared, me: Local, what: str) -> Way:
        return (what, s._replace(done=s.done | self.bit[worker]), me._replace(at='done', back='', last=False, due=False))

    def goes_back(self, worker: str, s: Shared, me: Local, what: str) -> Way:
        if me.back == 'done':
            return self.ends(worker, s, me, what)
        return (what, s, me._replace(at=me.back, back=''))

    def tells(self, worker: str, s: Shared, me: Local, whom: int, waiting: bool) -> Iterator[Way]:
        """EventCount::notify_one and notify_all: looks whether a wait was announced, ends it, and wakes who sleeps."""
        if me.at == 'look':
            goes_on = 'looks for who waits', s, me._replace(at='raise')
            yield goes_on if waiting else self.goes_back(worker, s, me, 'looks for who waits')
        elif me.at == 'raise':
            yield ('ends their waits', s if self.slip == 'old-reader' and worker == 'writer'
                   else s._replace(told=s.told | whom & s.armed), me._replace(at='wake'))
        else:
            yield self.goes_back(worker, s._replace(asleep=s.asleep & ~whom), me, 'wakes')

    def waits(self, worker: str, s: Shared, me: Local) -> Iterator[Way]:
        """Key::wait: looks whether the wait has ended, and sleeps."""
        told = bool(s.told & self.bit[worker])
        if me.at == 'check':
            yield ('is told', s, me._replace(at='cancel')) if told else ('is not told', s, me._replace(at='park'))
        else:
            yield ('does not sleep', s,
                   me._replace(at='check')) if told else ('sleeps', s._replace(asleep=s.asleep | self.bit[worker]),
                                                          me._replace(at='check'))

    def counts_itself(self, worker: str, s: Shared, me: Local) -> Way:
        """A feed, or control, counts itself as ended, and tells the writer."""
        if self.slip == 'late-over' and worker[0] == 'f' and me.at == 'over':
            return ('tells first', s, me._replace(at='look', back='late'))
        now = s._replace(over=s.over + 1)
        if me.at == 'late' or (self.slip == 'quiet-end' and worker[0] == 'c'):
            return self.ends(worker, now, me, 'over')
        return ('over', now, me._replace(at='look', back='done'))

    def feed(self, worker: str, s: Shared, me: Local) -> Iterator[Way]:
        place = int(worker[-1])
        if me.at == 'gate':
            yield ('passes the gate', s, me._replace(at='next'))
            yield ('is stopped', s, me._replace(at='over', left=0))
        elif me.at == 'next':
            if not me.left:
                yield ('has no more', s, me._replace(at='over'))
            elif self.slip == 'late-message':
                yield ('tells first', s, me._replace(at='look', back='push'))
            else:
                yield ('has more', s, me._replace(at='push'))
        elif me.at == 'push':
            if s.lanes[place] == ROOM:
                yield ('is refused', s, me._replace(at='next', left=me.left - 1))
                return
            now = s._replace(lanes=s.lanes[:place] + (s.lanes[place] + 1,) + s.lanes[place + 1:])
            if self.slip == 'late-message':
                yield ('pushes', now, me._replace(at='next', left=me.left - 1))
            else:
                yield ('pushes', now, me._replace(at='look', left=me.left - 1, back='next'))
        elif me.at in ('over', 'late'):
            yield self.counts_itself(worker, s, me)
        else:
            yield from self.tells(worker, s, me, self.bit['writer'], s.coming > 0)

    def control(self, worker: str, s: Shared, me: Local) -> Iterator[Way]:
        if me.at == 'gate':
            yield ('passes the gate', s, me._replace(at='next'))
            yield ('is stopped', s, me._replace(at='over', left=0))
        elif me.at == 'next':
            yield ('has more', s, me._replace(at='lock', back='order')) if me.left else ('has no more', s, me._replace(at='over'))
        elif me.at == 'order':
            yield ('orders', s._replace(recording=not s.recording), me._replace(at='unlock', left=me.left - 1))
            yield ('order ends it', s, me._replace(at='unlock', left=0))
        elif me.at == 'unlock':
            now = s._replace(lock=False)
            yield ('unlocks', now, me._replace(at='next') if self.slip == 'quiet-order' else me._replace(at='look', back='next'))
        elif me.at == 'over':
            yield self.counts_itself(worker, s, me)
        else:
            yield from self.tells(worker, s, me, self.bit['writer'], s.coming > 0)

    def write(self, worker: str, s: Shared, me: Local) -> Iterator[Way]:
        me_bit = self.bit[worker]
        if me.at == 'gate':
            yield ('passes the gate', s, me._replace(at='load'))
            yield ('is stopped', s, me._replace(at='written', end=True))
        elif me.at == 'load':
            yield ('loads over', s, me._replace(at='lock', back='round', last=s.over > len(self.size.feeds), due=False, place=0))
        elif me.at == 'round':
            if me.place < len(s.lanes):
                yield ('has a lane more', s, me._replace(at='pump'))
            else:
                yield ('has gone round', s, me._replace(at='commit' if me.due or me.last else 'unlock', place=0))
        elif me.at == 'pump':
            moved = s.recording and s.lanes[me.place] > 0
            now = s._replace(lanes=s.lanes[:me.place] + (0,) + s.lanes[me.place + 1:]) if moved else s
            yield ('pumps', now, me._replace(at='round', place=me.place + 1, due=me.due or moved))
            yield ('pump ends it', s, me._replace(at='unlock', place=0, end=True))
        elif me.at == 'commit':
            yield ('commits', s, me._replace(at='unlock', back='shown'))
            yield ('commit ends it', s, me._replace(at='unlock', back='shown', end=True))
        elif me.at == 'shown':
            told = s.told | self.all_readers if self.slip == 'old-reader' else s.told
            yield ('adds to shown', s._replace(fresh=self.all_readers, told=told), me._replace(at='look'))
        elif me.at in TELLING:
            yield from self.tells(worker, s, me, self.all_readers, s.showing > 0 or self.slip == 'old-reader')
        elif me.at == 'unlock':
            yield ('unlocks', s._replace(lock=False), me._replace(at='shown', back='turn') if me.back else me._replace(at='turn'))
        elif me.at == 'turn':
            asks_again = me.announced and self.slip != 'no-announce'
            if me.end or (me.last and not me.due):
                to = 'written'
            elif me.due or self.slip == 'old-writer':
                to = 'load'
            else:
                to = 'check' if asks_again else 'announce'
            yield ('turns', s, me._replace(at='cancel' if me.announced and to != 'check' else to,
                                           back=to if me.announced and to != 'check' else '', last=False, due=False))
        elif me.at == 'announce':
            yield ('announces', s._replace(coming=1), me._replace(at='epoch', announced=True))
        elif me.at == 'epoch':
            yield ('loads the epoch', s._replace(armed=s.armed | me_bit),
                   me._replace(at='check' if self.slip in ('no-look', 'no-announce') else 'load'))
        elif me.at == 'cancel':
            yield ('goes on', s._replace(coming=0, armed=s.armed & ~me_bit, told=s.told & ~me_bit),
                   me._replace(at=me.back or 'load', back='', announced=False))
        elif me.at in ('written', 'late'):
            now = s._replace(written=True)
            if me.at == 'late':
                yield self.ends(worker, now, me, 'stores written')
            elif self.slip == 'late-written':
                yield ('tells first', s, me._replace(at='look', back='late'))
            else:
                yield ('stores written', now, me._replace(at='shown' if self.slip == 'old-reader' else 'look', back='done'))
        else:
            yield from self.waits(worker, s, me)

    def read(self, worker: str, s: Shared, me: Local) -> Iterator[Way]:
        me_bit = self.bit[worker]
        old = self.slip == 'old-reader'
        if me.at == 'gate':
            yield ('passes the gate', s, me._replace(at='load' if old else 'announce'))
            yield self.ends(worker, s, me, 'is stopped')
        elif me.at == 'announce':
            yield ('announces', s._replace(showing=s.showing + 1), me._replace(at='epoch'))
        elif me.at == 'epoch':
            yield ('loads the epoch', s._replace(armed=s.armed | me_bit), me._replace(at='load'))
        elif me.at == 'load':
            yield ('loads written', s, me._replace(at='shown', last=s.written))
        elif me.at == 'shown':
            due = bool(s.fresh & me_bit) or me.last
            now = s._replace(fresh=s.fresh & ~me_bit)
            if old:
                yield ('loads shown', now._replace(told=s.told & ~me_bit),
                       me._replace(at='lock', back='read') if due else me._replace(at='park'))
            else:
                yield ('loads shown', now, me._replace(at='cancel', due=True) if due else me._replace(at='check'))
        elif me.at == 'cancel':
            now = s._replace(showing=s.showing - 1, armed=s.armed & ~me_bit, told=s.told & ~me_bit)
            yield ('goes on', now, me._replace(at='lock', back='read') if me.due else me._replace(at='announce'))
        elif me.at == 'read':
            yield ('reads', s, me._replace(at='unlock'))
            yield ('read ends it', s, me._replace(at='unlock', last=True))
        elif me.at == 'unlock':
            now = s._replace(lock=False)
            yield self.ends(worker, now, me, 'unlocks') if me.last else ('unlocks', now,
                                                                         me._replace(at='park' if old else 'announce', due=False))
        elif old and me.at == 'check':
            yield ('is woken', s, me._replace(at='load'))
        else:
            yield from self.waits(worker, s, me)

    # ---- what is to be so

    def fault(self, s: Shared, all_of: list[Local]) -> str:
        """What is wrong in a state in which somebody sleeps or all have ended, if something is."""
        them = dict(zip(self.workers, all_of))
        if s.done == self.everybody:
            return 'a message is left in a lane' if s.recording and any(s.lanes) and not them['writer'].end else ''
        due = (s.recording and any(s.lanes)) or s.over > len(self.size.feeds)
        # (an order that was asked is told when the lock is given back)
        telling = any(me.at in TELLING or me.at == 'unlock' and worker == 'control' for worker, me in them.items()
                      if worker[0] in 'fc')
        if s.asleep & self.bit['writer'] and due and not telling:
            return 'the writer sleeps, there is something to do, and nobody is about to wake it'
        late = s.asleep & (self.all_readers if s.written else s.fresh)
        if late and them['writer'].at not in TELLING + ('shown',):
            return 'a reader sleeps, there is something to read, and nobody is about to wake it'
        return ''

    def look(self, most: int) -> tuple[int, str, list[str]]:
        """How many states there are, and if something is wrong, what, and a shortest way there."""
        # each part has a number, by which what can come of it is looked up
        shared: dict[Shared, int] = {}
        locals_: dict[Local, int] = {}
        shareds: list[Shared] = []
        locals_list: list[Local] = []
        known: list[dict[tuple[int, int], tuple[bool, list[tuple[str, int, int]]]]] = [{} for _ in self.workers]

        def of_shared(s: Shared) -> int:
            if s not in shared:
                shared[s] = len(shareds)
                shareds.append(s)
            return shared[s]

        def of_local(me: Local) -> int:
            if me not in locals_:
                locals_[me] = len(locals_list)
                locals_list.append(me)
            return locals_[me]

        def ways_of(place: int, at: int, mine: int) -> tuple[bool, list[tuple[str, int, int]]]:
            me = locals_list[mine]
            found = self.steps(self.workers[place], shareds[at], me)
            self.came.update(f'{self.workers[place].split()[0]}: {what}' for what, _, _ in found)
            result = (me.at in OWN, [(what, of_shared(s), of_local(new)) for what, s, new in found])
            known[place][at, mine] = result
            return result

        begun, locals_begun = self.start()
        first = (of_shared(begun), *(of_local(me) for me in locals_begun))
        number = {first: 0}
        states, came, edges, into = [first], [(-1, '', '')], [], [0]
        for place, state in enumerate(states):  # (grows as it goes)
            at = state[0]
            s = shareds[at]
            reached = []
            for who, mine in enumerate(state[1:]):
                own, ways = known[who].get((at, mine)) or ways_of(who, at, mine)
                if own and ways:
                    reached = [(who, way) for way in ways]
                    break
                reached += [(who, way) for way in ways]
                if ways and s.done & self.bit['writer']:
                    break  # (without a writer nobody sees what the others do)
            wrong = 'a dead end' if not reached and s.done != self.everybody else ''
            if not wrong and (s.asleep or not reached):
                wrong = self.fault(s, [locals_list[mine] for mine in state[1:]])
            if wrong:
                return len(states), wrong, self.way(came, place)
            to = []
            for who, (what, new_at, new_mine) in reached:
                new = (new_at, *state[1:who + 1], new_mine, *state[who + 2:])
                there = number.setdefault(new, len(states))
                if there == len(states):
                    states.append(new)
                    came.append((place, self.workers[who], what))
                    into.append(0)
                into[there] += 1
                to.append(there)
            edges.append(to)
            if len(states) > most:
                return len(states), f'more than {most} states', []
        # whether a way goes round: take away, again and again, what no way leads to
        free = [0] if into[0] == 0 else []
        gone = 0
        while free:
            gone += 1
            for there in edges[free.pop()]:
                into[there] -= 1
                if into[there] == 0:
                    free.append(there)
        return len(states), '' if gone == len(states) else 'a way goes round: somebody spins', []

    @staticmethod
    def way(came: list[tuple[int, str, str]], place: int) -> list[str]:
        """The steps to a state."""
        steps = []
        while came[place][0] >= 0:
            place, worker, what = came[place]
            steps.append(f'{worker} {what}')
        return steps[::-1]


def subsets(words: list[str]) -> Iterator[frozenset[str]]:
    """Each set of these but the empty one."""
    for number in range(1, len(words) + 1):
        yield from (frozenset(chosen) for chosen in itertools.combinations(words, number))


def sizes() -> list[Size]:
    """The sessions: those with all threads, and small ones in which each set of threads is refused."""
    found: list[Size] = []
    for recording, orders in ((True, 0), (False, 1), (True, 1)):
        found += [Size((3,), 0, orders, recording), Size((), 1, orders, recording)]
    found += [Size((2, 1), 0, 0, True), Size((), 2, 0, True), Size((1,), 1, 0, True)]
    found += [Size((1, 1), 0, 1, False, refused) for refused in subsets(['others', 'writing', 'a feed'])]
    found += [Size((1,), 1, 0, True, refused) for refused in subsets(['others', 'reading', 'writing'])]
    found += [Size((), 2, 1, True, refused | {'a reader'}) for refused in subsets(['reading', 'writing'])]
    return found


def squeezed(text: str) -> str:
    return re.sub(r'\s+', ' ', text)


def missing_texts() -> list[str]:
    """Which texts don't stand in their file once, or not behind the one before."""
    found = []
    files = [(TOP / name, texts) for name, texts in TEXTS.items()]
    if shutil.which('rt'):
        kit = pathlib.Path(subprocess.run(['rt', 'doc'], capture_output=True, text=True, check=True).stdout.strip())
        files += [(kit.parent / 'rattle' / name, texts) for name, texts in KIT_TEXTS.items()]
    for path, texts in files:
        source = squeezed(path.read_text(encoding='utf-8'))
        last = -1
        for step, text in texts:
            at = source.find(squeezed(text))
            if source.count(squeezed(text)) != 1:
                found.append(f'{path.name}: stands there {source.count(squeezed(text))} times, and not once ({step}): {text}')
            elif at < last:
                found.append(f'{path.name}: stands before the step before it ({step}): {text}')
            last = max(last, at)
    return found


def nameless(came: set[str]) -> list[str]:
    """Which of these steps name no text."""
    named = set()
    for steps, _ in itertools.chain.from_iterable([*TEXTS.values(), *KIT_TEXTS.values()]):
        kind, of, words = steps.rpartition(': ')
        named.update(f'{one}: {word}' for one in ([kind] if of else ['feed', 'writer', 'control', 'reader'])
                     for word in words.split(', '))
    return sorted(came - named)


def check(slip: str, chosen: list[Size], most: int) -> tuple[int, set[str], str, Size | None, list[str]]:
    """Looks at these sessions up to the first in which something is wrong: how many states, which steps came, what is wrong, where,
    and the way there."""
    states, came = 0, set()
    for size in chosen:
        model = Model(size, slip)
        seen, wrong, way = model.look(most)
        states += seen
        came |= model.came
        if wrong:
            return states, came, wrong, size, way
    return states, came, '', None, []


def main() -> int:
    words = argparse.ArgumentParser(description=__doc__, formatter_class=argparse.RawDescriptionHelpFormatter)
    words.add_argument('--old', action='store_true')
    words.add_argument('--slips', action='store_true')
    words.add_argument('--each', action='store_true', help='a line for each session')
    given = words.parse_args()
    if given.old:
        seen, wrong, way = Model(Size((), 1, 0, True), 'old-reader').look(1_000_000)
        print(f'old order, no feed, one reader: {wrong or "nothing found"}')
        print(' / '.join(way))
        return 0 if wrong else 1
    if given.slips:
        passed = 0
        for slip, what in SLIPS.items():
            _, _, wrong, size, _ = check(slip, sizes(), 2_000_000)
            print(f'{slip} ({what}): {wrong or "NOT FOUND"}, {size}')
            passed += int(not wrong)
        return 1 if passed else 0
    gone = [] if given.each else missing_texts()
    for line in gone:
        print('waits:', line)
    if given.each:
        for size in sizes():
            print(f'{Model(size, "").look(5_000_000)[:2]} {size}', flush=True)
        return 0
    states, came, wrong, size, way = check('', sizes(), 5_000_000)
    for step in nameless(came):
        gone.append(step)
        print('waits: a step that names no text:', step)
    if wrong:
        print(f'waits: {wrong}: {size}')
        print(' / '.join(way))
        return 1
    print(f'waits: {len(sizes())} sessions, {states} states: no dead end, no lost wake-up, nobody spins')
    return 1 if gone else 0


if __name__ == '__main__':
    sys.exit(main())
