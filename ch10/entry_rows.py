"""The entries of a recording as rows of tables, one table for each kind, and the same rows as PostgreSQL's COPY takes them in
binary."""
from __future__ import annotations

import struct
from typing import Callable, Container, Dict, Iterable, Iterator, List, NamedTuple, Optional, Sequence, Set, Tuple, TYPE_CHECKING

from .arrays import numpy
from .bodies import OWN, before_of, by_kind, in_some, read
from .clocks import Clock
from .columns import Group, Numbering, columns_of
from .kinds import KINDS
from .packets import UNTOLD, Packet, loss_of, lost_before
from .standard import Key, Value
from .store_schema import COMMON, MOST_NUMBER

if TYPE_CHECKING:
    from .load import Layout

DAY = 864000000000  # in units of 100 ns, as times are counted here
YEAR_2000 = 730120 * DAY  # where PostgreSQL's times begin
CALENDAR = range(DAY, 3652060 * DAY)  # the years 1 to 9999
FIXED = {'BIGINT': ('q', 8), 'INTEGER': ('i', 4), 'SMALLINT': ('h', 2), 'BOOLEAN': ('?', 1), '{time}': ('q', 8), 'REAL': ('f', 4),
         '{text}3': ('3s', 3)}


# ---- reading; columns that stand together are one of tuples, each made once for each value


class Table(NamedTuple):
    """A kind of entries: its table's name and own columns, and how many columns stand together at the end of a row."""

    name: str
    columns: Sequence[Tuple[str, str]]
    together: Sequence[int] = ()

    @property
    def names(self) -> List[str]:
        """The columns, those of all tables first."""
        return [name for name, _ in COMMON] + [name for name, _ in self.columns]


TABLES = {kind.type: Table(kind.table, kind.own, kind.together) for kind in KINDS}


class Kept(dict):
    """Values by a key, each made once; begun anew where there are very many."""

    def __init__(self, make: Callable[[Value], Value]) -> None:
        dict.__init__(self)
        self.make = make

    def __missing__(self, key: Value) -> Value:
        if len(self) > 1 << 16:
            self.clear()
        self[key] = made = self.make(key)
        return made


def flat(columns: Sequence[Sequence[Value]]) -> Iterator[Sequence[Value]]:
    """Columns, each by itself."""
    for column in columns:
        if type(column[0]) is tuple:
            yield from zip(*column)
        else:
            yield column


# ---- PostgreSQL's binary form

FRONT = b'PGCOPY\n\xff\r\n\0' + bytes(8)
END = b'\xff\xff'
LENGTH = struct.Struct('>i')
NULL = LENGTH.pack(-1)


class Packer:
    """Makes rows of one table into bytes: the columns of one length by one struct for many rows, what may be NULL or vary in length
    put after them."""

    MOST = 256  # rows of one struct

    def __init__(self, table: Table) -> None:
        self.kinds = [kind.split(' ')[0] for _, kind in COMMON] + [kind for _, kind in table.columns]
        self.fixed = len(self.kinds) - sum(table.together)
        self.texts = [place for place in range(self.fixed) if self.kinds[place].startswith('{text}')]
        self.made: Dict[int, Tuple[struct.Struct, List[Value]]] = {}
        self.tails, at = [], self.fixed
        for number in table.together:
            self.tails.append(self.tail(self.kinds[at:at + number]))
            at += number

    def tail(self, kinds: List[str]) -> Callable[[Value], bytes]:
        """What makes the columns that stand together into bytes: one of bytes anew each time, others once for each value."""
        if kinds == ['{bytes}']:
            return counted
        if len(kinds) == 1:
            return Kept(lambda value: self.pack_one((value,), kinds)).__getitem__
        return Kept(lambda values: self.pack_one(values, kinds)).__getitem__

    def form(self, number: int) -> Tuple[struct.Struct, List[Value]]:
        """The struct of so many rows without NULL in a column of one length, and its arguments with room for their values."""
        if number not in self.made:
            text = 'h'
            words: List[Value] = [len(self.kinds)]
            for kind in self.kinds[:self.fixed]:
                text, words = text + 'i' + FIXED[kind][0], words + [FIXED[kind][1], None]
            self.made[number] = struct.Struct('>' + text * number), words * number
        return self.made[number]

    def pack(self, columns: Sequence[Sequence[Value]]) -> bytes:
        """The bytes of rows that are given by columns."""
        number = len(columns[0])
        if number <= self.MOST:
            return self.pack_some(columns)
        return b''.join(self.pack_some([column[at:at + self.MOST] for column in columns]) for at in range(0, number, self.MOST))

    def pack_some(self, given: Sequence[Sequence[Value]]) -> bytes:
        """The bytes of so many rows as one struct takes."""
        fixed, columns, number = self.fixed, list(given), len(given[0])
        if any(None in column for column in columns[:fixed]):
            fronts = [struct.pack('>h', len(self.kinds)) + self.pack_one(row, self.kinds) for row in zip(*columns[:fixed])]
        else:
            for place in self.texts:
                columns[place] = [value.encode() for value in columns[place]]
            form, words = self.form(number)
            step = 2 * fixed + 1
            for place in range(fixed):
                words[2 + 2 * place::step] = columns[place]
            made = form.pack(*words)
            if not self.tails:
                return made
            size = form.size // number
            fronts = [made[at:at + size] for at in range(0, len(made), size)]
        parts = [fronts] + [list(map(tail, column)) for tail, column in zip(self.tails, columns[fixed:])]
        return b''.join([part for row in zip(*parts) for part in row])

    @staticmethod
    def pack_one(values: Sequence[Value], kinds: Sequence[str]) -> bytes:
        """Some values, of which some may be NULL."""
        parts = []
        for kind, value in zip(kinds, values):
            if kind not in FIXED or value is None:
                parts.append(counted(value))
            else:
                value = value.encode() if kind.startswith('{text}') else value
                parts.append(struct.pack('>i' + FIXED[kind][0], FIXED[kind][1], value))
        return b''.join(parts)


def counted(value: Value) -> bytes:
    """A value of varying length after its length."""
    if value is None:
        return NULL
    data = value if type(value) is bytes else value.encode()
    return LENGTH.pack(len(data)) + data


def moments(counts: Sequence[int], clock: Optional[Clock]) -> Sequence[Optional[int]]:
    """The civil times of some instants as PostgreSQL counts them, in microseconds from 2000 on; None where there is no date, or
    none that the calendar has."""
    if clock is None or not clock.dated:
        return (None,) * len(counts)
    low, high = min(counts), max(counts)
    clock.at(low)
    if clock.start <= low and high < clock.stop and low + clock.ahead in CALENDAR and high + clock.ahead in CALENDAR:
        ahead = clock.ahead - YEAR_2000
        return [(count + ahead) // 10 for count in counts]
    return [(ticks - YEAR_2000) // 10 if ticks in CALENDAR else None for ticks in map(clock.at, counts)]


def days_of(counts: Sequence[int], clock: Clock) -> Set[int]:
    """The days of some instants, by their numbers from day 1 of the year 1 on."""
    low, high = min(counts), max(counts)
    first = clock.at(low)
    if clock.start <= low and high < clock.stop and first // DAY == (high + clock.ahead) // DAY:
        return {first // DAY} if first in CALENDAR else set()
    return {ticks // DAY for ticks in map(clock.at, counts) if ticks in CALENDAR}


class Reader:
    """Goes over packets and gives the rows of those channels that are wanted, those of some packets at a time, as columns.

    `layout` has what is known of the recording: `base` gives the instant of count 0 of the session of a packet that begins at a
    place, and `session` what tells the session.
    """

    def __init__(self, number: int, wanted: Container[Key], report: Optional[Tuple[int, int]], states: Dict[int, int],
                 layout: Layout) -> None:
        self.number, self.wanted, self.report, self.states = number, wanted, report, states
        self.base, self.session = layout.base, layout.session
        self.numbering = Numbering()

    def columns(self, packets: Iterable[Packet],
                times: Callable[[Sequence[int]], Sequence[Value]]) -> Iterator[Tuple[int, List[Sequence[Value]]]]:
        """The data type and the columns of those packets that have rows."""
        following = session = None
        for held in in_some(packets):
            losses: List[int] = []
            begin = 0
            for at, packet in enumerate(held):
                if self.session(packet.offset) != session:
                    yield from self.some(held[begin:at], losses[begin:], times)
                    begin = at
                    if session is not None:
                        self.states.clear()  # which are of the session before
                    session = self.session(packet.offset)
                if following is not None and packet.offset != following:
                    self.report = None  # it stood before something that was passed over
                losses.append(lost_before(packet, self.report))
                self.report = loss_of(packet)
                following = packet.offset + packet.length
            yield from self.some(held[begin:], losses[begin:], times)

    def some(self, packets: List[Packet], losses: List[int],
             times: Callable[[Sequence[int]], Sequence[Value]]) -> Iterator[Tuple[int, List[Sequence[Value]]]]:
        """The same of some packets, before each of which so many messages were lost."""
        for kind, places in by_kind(packets).items():
            before = before_of([packets[place] for place in places], self.states)
            held = [at for at, place in enumerate(places) if (packets[place].channel, kind) in self.wanted]
            if not held:
                continue
            some = [packets[places[at]] for at in held]
            block, number = read(some, self.numbering, before and [before[at] for at in held])
            if not len(block):
                continue
            lost: List[Optional[int]] = [0] * len(block)
            at = 0
            for place, many in zip(held, number.tolist()):
                gone = losses[places[place]]
                if many and gone:
                    lost[at] = None if gone == UNTOLD else min(gone, MOST_NUMBER)
                at += many
            counts = instants = block.count.tolist()
            bases = numpy.array([self.base(packet.offset) for packet in some], numpy.int64)
            if bases.any():
                instants = (block.count + bases[block.of]).tolist()
            channels = [self.numbering.channels[one] for one in block.channel.tolist()]
            front = [(self.number,) * len(counts), counts, times(instants), lost, channels]
            yield kind, front + own_columns(kind, OWN[kind](block))


def own_columns(kind: int, groups: Sequence[Group]) -> List[Sequence[Value]]:
    """The columns of a kind's table: those by themselves, then those that stand together, as tuples."""
    first = len(groups) - len(TABLES[kind].together)
    return list(columns_of(groups[:first])) + [group.values() for group in groups[first:]]


def packed(reader: Reader, packets: Iterable[Packet], clock: Optional[Clock]) -> Dict[int, Tuple[int, bytes]]:
    """The rows of some packets in PostgreSQL's binary form: of each kind how many, and the bytes without front and end."""
    parts: Dict[int, List[bytes]] = {}
    totals: Dict[int, int] = {}
    packers = {kind: Packer(table) for kind, table in TABLES.items()}
    for kind, columns in reader.columns(packets, lambda counts: moments(counts, clock)):
        parts.setdefault(kind, []).append(packers[kind].pack(columns))
        totals[kind] = totals.get(kind, 0) + len(columns[0])
    return {kind: (totals[kind], b''.join(some)) for kind, some in parts.items()}
