"""A queue of recordings in PostgreSQL, for workers on many machines.

A row of the table `queue` is a recording that waits, that a worker has taken, or that is set apart. To take one is a transaction of
its own: the try counts before anything is read, so a recording that ends its worker is counted too. The worker has it until `due`,
by the server's clock, and puts that off as long as it lives. What it found goes into the catalogue in one transaction with the end
of the row, and only while the row is its own. So a worker that comes back after its lease writes nothing.
"""
from __future__ import annotations

import re
from typing import List, NamedTuple, Optional, Sequence, Tuple

from .standard import Wrong
from .store import Store

# What ends the sessions of workers, by their names.
END_SESSION = ('SELECT pg_terminate_backend(pid) FROM pg_stat_activity WHERE usename = current_user AND pid <> pg_backend_pid() '
               'AND application_name %s')
WAS_CUT_OFF = "'its worker ' || queue.worker || ' ended, or was cut off'"
MOST_RETURNS = 100  # times that a recording is given back without a try counted, before it is set apart
TOGETHER = 200  # rows in one statement


class Item(NamedTuple):
    """A recording that was taken: its row, its path and place as the catalogue has them, the folder that was given, and which try
    this is."""

    number: int
    path: str
    place: str
    folder: str
    tries: int


class Lost(Exception):
    """The lease of a recording has ended, and another worker has it, or it is done."""


class Rules(NamedTuple):
    """How recordings are tried: how often, how many seconds a lease lasts, and how many are between two tries."""

    tries: int
    lease: float
    pause: float


def path_in(text: str) -> bytes:
    """The path whose place this is: the other way round than `range_words.place`."""
    return re.sub(rb'\\x([0-9a-f]{2})', lambda found: bytes.fromhex(found[1].decode()), text.encode())


class WorkQueue:
    """The queue by one session. `worker` is who takes: a name that no other one has, which its session has too."""

    def __init__(self, store: Store, worker: str = '') -> None:
        if store.engine != 'postgresql':
            raise Wrong('a queue needs a database of PostgreSQL; ch10 catalogue add does without one')
        self.store, self.worker = store, worker

    def name_session(self) -> None:
        """Gives the session the worker's name, by which others end it when its lease has ended."""
        self.store.rows("SELECT set_config('application_name', ?, false)", (self.worker,))

    # ---- what waits

    def put(self, rows: Sequence[Tuple[str, str, str]], again: bool) -> Tuple[int, List[str]]:
        """Puts recordings into the queue: path, place and folder of each. Answers how many are new, and the places of those that
        are refused, as another path in the queue has the same place. What is there stays as it is; with `again`, what is set
        apart waits anew."""
        new, refused = 0, []
        for at in range(0, len(rows), TOGETHER):
            some = rows[at:at + TOGETHER]
            added = {path for path, in self.store.rows('INSERT INTO queue (path, place, folder) VALUES %s ON CONFLICT DO NOTHING '
                                                       'RETURNING path' % ', '.join(['(?, ?, ?)'] * len(some)),
                                                       [value for row in some for value in row])}
            new += len(added)
            left = {place: path for path, place, _ in some if path not in added}
            marks = ', '.join('?' * len(left))
            if left:
                refused += [place for path, place in self.store.rows(
                    'SELECT path, place FROM queue WHERE place IN (%s)' % marks, list(left)) if left[place] != path]
            if left and again:
                self.store.rows("UPDATE queue SET state = 'waiting', tries = 0, returns = 0, due = now() WHERE state = 'apart' "
                                'AND path IN (%s)' % marks, list(left.values()))
        return new, refused

    def counts(self) -> Tuple[int, int, int]:
        """How many wait, are taken, and are set apart."""
        found = {state: many for state, many in self.store.rows('SELECT state, count(*) FROM queue GROUP BY state')}
        return found.get('waiting', 0), found.get('taken', 0), found.get('apart', 0)

    def has_work(self) -> bool:
        """Whether one waits or is taken: a worker that has one may yet end."""
        return bool(self.store.rows("SELECT 1 FROM queue WHERE state <> 'apart' LIMIT 1"))

    def apart(self) -> List[Tuple[str, str, int]]:
        """Those that are set apart: place, reason, and tries."""
        return [(place, why, tries) for place, why, tries in self.store.rows(
            "SELECT place, why, tries FROM queue WHERE state = 'apart' ORDER BY id")]

    # ---- taking

    def sweep(self, rules: Rules) -> List[Tuple[str, str]]:
        """Ends the sessions of workers whose leases have ended, which may stand amid a transaction; and sets apart what has had all
        its tries. Answers the place and reason of each."""
        self.store.rows(END_SESSION % "IN (SELECT worker FROM queue WHERE state = 'taken' AND due <= now())")
        return [(place, why) for place, why in self.store.rows(
            "UPDATE queue SET state = 'apart', why = %s, worker = NULL WHERE id IN (SELECT id FROM queue WHERE state = 'taken' "
            'AND due <= now() AND tries >= ? ORDER BY id FOR UPDATE SKIP LOCKED) RETURNING place, why' % WAS_CUT_OFF,
            (rules.tries,))]

    def take(self, rules: Rules) -> Optional[Item]:
        """Takes the recording that waits longest, or one whose worker's lease has ended, and ends that one's session; None where
        there is none now. Two workers never wait for each other here, and never get the same one."""
        with self.store.transaction():
            found = self.store.rows(
                "WITH old AS (SELECT id, worker FROM queue WHERE state <> 'apart' AND due <= now() AND (state = 'waiting' OR "
                'tries < ?) ORDER BY due, id LIMIT 1 FOR UPDATE SKIP LOCKED) '
                "UPDATE queue SET why = CASE WHEN state = 'taken' THEN %s ELSE why END, state = 'taken', tries = tries + 1, "
                'worker = ?, due = now() + make_interval(secs => ?) FROM old WHERE queue.id = old.id '
                'RETURNING queue.id, path, place, folder, tries, old.worker' % WAS_CUT_OFF,
                (rules.tries, self.worker, rules.lease))
            if found and found[0][5] is not None:
                self.store.rows(END_SESSION % '= ?', (found[0][5],))
        return Item(*found[0][:5]) if found else None

    def renew(self, items: Sequence[Tuple[Item, str]], rules: Rules) -> None:
        """Puts off the end of leases of workers, but for rows that a transaction has in its hands now."""
        for item, worker in items:
            self.store.rows(
                'UPDATE queue SET due = now() + make_interval(secs => ?) WHERE id = (SELECT id FROM queue WHERE id = ? AND '
                "worker = ? AND tries = ? AND state = 'taken' FOR UPDATE SKIP LOCKED)",
                (rules.lease, item.number, worker, item.tries))

    # ---- the end of a try

    MINE = "id = ? AND worker = ? AND tries = ? AND state = 'taken'"

    def mine(self, item: Item) -> Tuple[int, str, int]:
        """The values of MINE."""
        return item.number, self.worker, item.tries

    # (These come last in a transaction. What is locked cannot have its lease put off, and a transaction may take long.)

    def need_mine(self, item: Item) -> None:
        """At the end of a transaction: that a recording is this worker's still, and stays so until then."""
        if not self.store.rows('SELECT 1 FROM queue WHERE %s FOR UPDATE' % self.MINE, self.mine(item)):
            raise Lost()

    def done(self, item: Item) -> None:
        """At the end of the transaction that has put the last of a recording into the catalogue: takes it out of the queue."""
        if not self.store.rows('DELETE FROM queue WHERE %s RETURNING id' % self.MINE, self.mine(item)):
            raise Lost()

    def failed(self, item: Item, why: str, rules: Rules) -> str:
        """Notes that a try failed. Answers whether the recording is now `waiting` for another one or set `apart`, or `lost`."""
        return self.ended(item, why, rules, item.tries < rules.tries, 0)

    def give_back(self, item: Item, why: str, rules: Rules) -> str:
        """The same where the recording is not to blame: the try does not count, up to a bound."""
        found = self.store.rows('SELECT returns FROM queue WHERE ' + self.MINE, self.mine(item))
        return self.ended(item, why, rules, bool(found) and found[0][0] < MOST_RETURNS, 1)

    def ended(self, item: Item, why: str, rules: Rules, again: bool, returns: int) -> str:
        """Puts a recording back, or sets it apart."""
        found = self.store.rows(
            'UPDATE queue SET state = ?, why = ?, worker = NULL, tries = tries - ?, returns = returns + ?, '
            'due = now() + make_interval(secs => ?) WHERE %s RETURNING state' % self.MINE,
            ('waiting' if again else 'apart', why, returns, returns, rules.pause, *self.mine(item)))
        return str(found[0][0]) if found else 'lost'
