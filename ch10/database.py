"""The entries of a recording, or of each file of an image, as a database of SQLite: a table for each kind, and tables of files,
channels, losses and damage."""
from __future__ import annotations

from argparse import Namespace
from copy import copy
from functools import lru_cache
import os
import sqlite3
from typing import Iterable, Iterator, List, Optional, Sequence, Tuple

from .arrays import Array, numpy
from .bodies import MEANT, by_kind, read
from .clocks import Clock, TimeLine, asked_of
from .columns import NONE, Block, columns_of
from .doubts import KINDS_READ, NO_SETUP, doubts_of, has_no_setup, judge, unread_in
from .fields import Reader
from .inputs import Output, is_recording, listed, shown, the_file
from .kinds import KINDS, REAL, TEXT, WHOLE
from .measured import Measured, asked_for
from .medium import File, bytes_of
from .packets import UNTOLD, Packet
from .parallel import LIMIT, jobs_of, side_by_side
from .replay import Ordered, Part
from .standard import COUNT_BITS, Data, Fault, Value, Wrong
from .store_schema import MOST_NUMBER
from .survey import Survey, counts_of, name_of
from .times import SECOND, civil
from .vector import Decimals, between, in_order

FRONT = (('file', WHOLE), ('channel', WHOLE), ('name', TEXT), ('count', WHOLE), ('time', TEXT), ('lost', WHOLE))
TABLES = {kind.type: kind.word for kind in sorted(KINDS, key=lambda kind: kind.type)}
COLUMNS = {kind.type: FRONT + kind.columns for kind in KINDS}
OTHERS = (
    ('files', (('file', WHOLE), ('name', TEXT), ('closed', WHOLE), ('bytes', WHOLE), ('packets', WHOLE), ('first', WHOLE),
               ('last', WHOLE), ('first_time', TEXT),
               ('last_time', TEXT), ('fault', TEXT), ('unread', WHOLE))),
    ('channels', (('file', WHOLE), ('channel', WHOLE), ('name', TEXT), ('type', TEXT), ('packets', WHOLE), ('entries', WHOLE),
                  ('bytes', WHOLE), ('first', WHOLE),
                  ('last', WHOLE), ('first_time', TEXT), ('last_time', TEXT), ('rate', REAL), ('losses', WHOLE), ('lost', WHOLE),
                  ('untold', WHOLE), ('jumps', WHOLE),
                  ('opaque', WHOLE), ('bad', WHOLE))),
    ('losses', (('file', WHOLE), ('channel', WHOLE), ('type', TEXT), ('count', WHOLE), ('time', TEXT), ('lost', WHOLE))),
    ('damage', (('file', WHOLE), ('offset', WHOLE), ('length', WHOLE), ('why', TEXT), ('channel', WHOLE), ('type', TEXT))),
    ('clocks', (('file', WHOLE), ('channel', WHOLE), ('packets', WHOLE), ('no_time', WHOLE), ('steps_back', WHOLE),
                ('seconds_without', WHOLE), ('drift_ppm', REAL))),
    ('clock_jumps', (('file', WHOLE), ('channel', WHOLE), ('offset', WHOLE), ('count', WHOLE), ('seconds', REAL))),
    ('setup', (('file', WHOLE), ('attribute', TEXT), ('value', TEXT))),
    ('unread', (('file', WHOLE), ('channel', WHOLE), ('type', TEXT), ('packets', WHOLE), ('why', TEXT))),
    ('notes', (('file', WHOLE), ('note', TEXT))),
)


def schema() -> Iterator[str]:
    """The statements that make the tables."""
    for name, columns in OTHERS:
        yield 'CREATE TABLE "%s" (%s)' % (name, ', '.join('"%s" %s' % column for column in columns))
    for kind, name in TABLES.items():
        yield 'CREATE TABLE "%s" (%s)' % (name, ', '.join('"%s" %s' % column for column in COLUMNS[kind]))


MOST_MEASUREMENTS = 1900  # of a kind; a table of SQLite has 2,000 columns


def columns_for(measured: Measured) -> Iterator[Tuple[int, str]]:
    """Of each measurement that is a column of a kind's table that kind, and the statement that makes the column."""
    for kind, numbers in measured.by_kind.items():
        if kind not in TABLES:
            continue
        if len(numbers) > MOST_MEASUREMENTS:
            raise Wrong('%d measurements of %s are more than the %d that a table has room for' % (
                len(numbers), TABLES[kind], MOST_MEASUREMENTS))
        names = {column.lower() for column, _ in COLUMNS[kind]}
        for number in numbers:
            name = measured.all[number].name
            if name.lower() in names:
                raise Wrong('the measurement %r has the name of another column of the table %s' % (name[:40], TABLES[kind]))
            names.add(name.lower())
            yield kind, 'ALTER TABLE "%s" ADD COLUMN "%s" REAL' % (TABLES[kind], name.replace('"', '""'))


# How a column says None by another value, of numbers and of texts: a text is no number, and no number a text.
NONE_AS, EMPTY = ("nullif(?, '')", 'nullif(?, 0)'), ('', 0)


def literal(column: Sequence[Value]) -> Optional[str]:
    """The one value of a column, as a statement of SQL says it; None where there are several, or where it is better bound."""
    value = column[0]
    if value.__class__ not in PLAIN or value != column[-1] or column.count(value) < len(column):
        return None
    if value is None:
        return 'NULL'
    if value.__class__ is str:
        return "'%s'" % value if value.isascii() and value.isprintable() and "'" not in value else None
    return '%d' % value if value % 1 == 0 and 0 <= value < 1 << 53 else None


PLAIN = (None.__class__, bool, int, float, str)


class Database:
    """A new database in a file beside the one that is asked for, whose place it takes when it is whole."""

    def __init__(self, path: str) -> None:
        if os.path.exists(path):
            raise Wrong('%r is there already: give --out another name' % path[:60])
        self.path, self.part = path, path + '.part'
        if os.path.exists(self.part):
            raise Wrong('%r is there already, as a call that was ended leaves it: remove it, or give --out another name'
                        % self.part[:60])
        self.base = sqlite3.connect(self.part, isolation_level=None)
        for line in ('PRAGMA journal_mode = OFF', 'PRAGMA synchronous = OFF', 'BEGIN', *schema()):
            self.base.execute(line)
        self.inserts = {name: 'INSERT INTO "%s" VALUES (%s)' % (name, ', '.join('?' * len(columns))) for name, columns in OTHERS}
        for kind, name in TABLES.items():
            self.inserts[name] = 'INSERT INTO "%s" VALUES (%s)' % (name, ', '.join('?' * len(COLUMNS[kind])))

        self.measured: Optional[Measured] = None

    def measure(self, measured: Optional[Measured]) -> None:
        """Makes the columns of measurements: those of the first file that has some, whose names those of others have to have."""
        if measured is None:
            return
        names = [(one.name, one.kind) for one in measured.all]
        if self.measured is not None and names != [(one.name, one.kind) for one in self.measured.all]:
            raise Wrong('the files have other measurements: --file N takes one of them')
        for kind, line in columns_for(measured) if self.measured is None else ():
            self.base.execute(line)
            self.inserts[TABLES[kind]] = self.inserts[TABLES[kind]][:-1] + ', ?)'
        self.measured = measured

    def add(self, table: str, rows: Iterable[Sequence[Value]]) -> None:
        """Adds rows to a table, each with all its columns."""
        self.base.executemany(self.inserts[table], rows)

    def add_columns(self, kind: int, columns: Sequence[Sequence[Value]], more: Sequence[Sequence[Value]] = ()) -> None:
        """Adds rows to a kind's table, given as columns; then those of measurements.

        Python's sqlite3 takes long to bind None, and what is the same in each row need not be bound: it stands in the statement.
        """
        words: List[str] = []
        some: List[Sequence[Value]] = []
        for (_, form), column in zip(COLUMNS[kind], columns):
            word = literal(column)
            if word is None and None in column:
                word, column = NONE_AS[form == TEXT], [EMPTY[form == TEXT] if value is None else value for value in column]
                some.append(column)
            elif word is None:
                some.append(column)
            words.append(word or '?')
        words, some = words + ['?'] * len(more), [*some, *more]
        rows: Iterable[Tuple] = zip(*some) if some else [()] * len(columns[0])
        self.base.executemany('INSERT INTO "%s" VALUES (%s)' % (TABLES[kind], ', '.join(words)), rows)

    def name_of(self, place: int) -> str:
        """Where the database of a process is."""
        return '%s.%d' % (self.part, place)

    def share(self, place: int) -> Database:
        """A database for a process, with the tables of this one."""
        made = copy(self)
        made.base = sqlite3.connect(self.name_of(place), isolation_level=None)
        for line in ('PRAGMA journal_mode = OFF', 'PRAGMA synchronous = OFF', 'BEGIN', *schema()):
            made.base.execute(line)
        for _, line in columns_for(self.measured) if self.measured else ():
            made.base.execute(line)
        return made

    def take(self, place: int) -> None:
        """Adds what the database of a process has."""
        self.base.execute('COMMIT')
        self.base.execute('ATTACH ? AS share', (self.name_of(place),))
        self.base.execute('BEGIN')
        for name in ('losses', *TABLES.values()):
            self.base.execute('INSERT INTO main."%s" SELECT * FROM share."%s" ORDER BY rowid' % (name, name))
        self.base.execute('COMMIT')
        self.base.execute('DETACH share')
        self.base.execute('BEGIN')

    def close(self) -> None:
        """Makes what was added the file that was asked for."""
        self.base.execute('COMMIT')
        for kind, name in TABLES.items():
            self.base.execute('CREATE INDEX "%s_by_count" ON "%s" (file, channel, count)' % (name, name))
        self.base.close()
        with open(self.part, 'rb') as written:
            os.fsync(written.fileno())
        os.replace(self.part, self.path)

    def give_up(self) -> None:
        """Closes and removes the file beside the place."""
        self.base.close()
        os.remove(self.part)


def as_sqlite(asked: Namespace, data: Data, out: Output) -> None:
    """`ch10 sqlite`. What is wrong with the recording is raised when the database is whole."""
    if not asked.out:
        raise Wrong('sqlite takes --out FILE; see ch10 sqlite --help')
    try:
        base = Database(asked.out)
    except sqlite3.Error as error:
        raise OSError(str(error))
    try:
        first = written(asked, data, base, out)
        base.close()
    except sqlite3.Error as error:
        base.give_up()
        raise OSError(str(error))
    except BaseException:
        base.give_up()
        raise
    if first:
        raise first


def written(asked: Namespace, data: Data, base: Database, out: Output) -> Optional[Fault]:
    """Adds each recording, and answers the first fault."""
    if is_recording(data):
        if asked.file is not None:
            raise Fault('the input is a recording and no image: it has no files')
        return add(asked, data, 0, len(data), base, 0, None, out)
    _, files = listed(data)
    first = None
    for number in range(len(files)) if asked.file is None else [asked.file]:
        file = the_file(files, number)
        try:
            begin, end = bytes_of(data, file)
        except Fault as fault:
            base.add('files', [(number, shown(file.name), int(file.closed), file.size) + (None,) * 5 + (str(fault), file.size)])
            first = first or fault
            continue
        first = add(asked, data, begin, end, base, number, file, out) or first
    return first


def add(asked: Namespace, data: Data, begin: int, end: int, base: Database, number: int, file: Optional[File],
        out: Output) -> Optional[Fault]:
    """Adds one recording, and answers what is wrong with it."""
    jobs = jobs_of(asked.jobs, end - begin)
    survey = Survey(data, begin, end, asked.keep_going, asked=asked_of(asked), jobs=jobs)
    clock, ends = survey.clock, survey.ends() if survey.rows else []

    def civil(count: Optional[int]) -> Optional[str]:
        return clock.text(count) if clock and count is not None else None

    base.add('files', [(number, file and shown(file.name), file and int(file.closed), end - begin, len(survey.lows),
                        *(counts_of(ends) if ends else (None, None)), *(clock.ends(ends) if clock else (None, None)),
                        survey.fault and str(survey.fault), end - begin - survey.size)])
    base.add('channels', [(number, row.channel, survey.names.channel(row.channel) or None, name_of(row.kind), row.packets,
                           row.entries if row.has_entries() else None, row.bytes, *row.counts(), civil(row.first()),
                           civil(row.last()), row.rate(),
                           row.losses, row.lost and min(row.lost, MOST_NUMBER), row.untold, row.jumps, row.opaque,
                           row.bad) for row in survey.rows])
    base.add('damage', [(number, one.offset, one.length, one.why, one.channel, None if one.kind is None else name_of(one.kind))
                        for one in survey.damage])
    for line in survey.times:
        add_clock(base, number, line, ends)
    base.add('unread', [(number, one.channel, name_of(one.kind), one.packets, one.why) for one in unread_in(survey)])
    base.add('notes', [(number, line) for line in doubts_of(survey) + ([NO_SETUP] if has_no_setup(survey) else [])])
    base.add('setup', [(number, name, value) for name, value in survey.names.attributes.items()])
    ordered, reader = Ordered(data, begin, survey, asked.channel), Reader(survey.names, asked.turned_labels)
    base.measure(asked_for(asked, survey, out))
    add_parts(base, number, ordered, reader, jobs)
    try:
        judge(survey, out, KINDS_READ, asked.channel)
    except Fault as fault:
        return fault
    return None


def add_clock(base: Database, number: int, line: TimeLine, ends: Sequence[Tuple[int, int]]) -> None:
    """Adds what a time channel says of its clock, and its jumps."""
    drift = line.drift()
    base.add('clocks', [(number, line.channel, line.packets, line.packets - len(line.told), line.steps_back(), line.without(ends),
                         drift and drift[0])])
    base.add('clock_jumps', [(number, line.channel, jump.offset, jump.instant & COUNT_BITS, jump.by / 10 ** 7)
                             for jump in line.jumps()])


def add_parts(base: Database, number: int, ordered: Ordered, reader: Reader, jobs: int) -> None:
    """Adds the entries of all parts. Of several processes each makes a database of its own of parts that follow one another; these
    are put together in their order."""
    parts = ordered.parts()
    jobs = min(jobs, len(parts), LIMIT)
    if jobs < 2 or not hasattr(os, 'fork'):
        for part in parts:
            add_part(base, number, ordered, part, reader)
        return
    shares = [(place, parts[len(parts) * place // jobs:len(parts) * (place + 1) // jobs]) for place in range(jobs)]

    def made(share: Tuple[int, List[Part]]) -> None:
        own = base.share(share[0])
        for part in share[1]:
            add_part(own, number, ordered, part, reader)
        own.base.execute('COMMIT')
        own.base.close()

    try:
        side_by_side(made, shares)
        for place, _ in shares:
            base.take(place)
    finally:
        for place, _ in shares:
            if os.path.exists(base.name_of(place)):
                os.remove(base.name_of(place))


def add_part(base: Database, number: int, ordered: Ordered, part: Part, reader: Reader) -> None:
    """Adds the entries of a part, by their instants."""
    clock, found = ordered.survey.clock, list(ordered.packets(part))
    losses: List[Tuple[int, tuple]] = []
    for kind, places in by_kind([packet for _, packet, _, _ in found]).items():
        some = [found[place] for place in places]
        block = block_of(some, ordered, part, reader)
        if not len(block):
            continue
        counts, lost = (block.count & COUNT_BITS).tolist(), lost_of(block)
        times = times_of(clock, block.count)
        names = [reader.names.channel(channel) or None for channel in reader.numbering.channels]
        channels = block.columns['number'].tolist()
        columns: List[Sequence] = [[number] * len(block), channels, list(map(names.__getitem__, block.channel.tolist())), counts,
                                   times, lost, *columns_of(MEANT[kind](block, reader))]
        more = base.measured.rows(block, reader.numbering) if base.measured else None
        base.add_columns(kind, columns, () if more is None else list(zip(*map(more, range(len(block))))))
        for at in numpy.flatnonzero(block.columns['flagged']).tolist():
            losses.append((int(block.columns['order'][at]),
                           (number, channels[at], name_of(kind), counts[at], times[at], lost[at])))
    losses.sort(key=lambda one: one[0])
    base.add('losses', [row for _, row in losses])


def times_of(clock: Optional[Clock], instants: Array) -> Sequence[Optional[str]]:
    """The civil times of some instants, as texts."""
    if clock is None:
        return [None] * len(instants)
    low, high = int(instants.min()), int(instants.max())
    if not clock.is_plain(low, high):
        return clock.texts(instants.tolist())
    starts = numpy.array(clock.starts, numpy.int64)
    places = numpy.maximum(numpy.searchsorted(starts, instants, 'right') - 1, 0) if high >= starts[0] else 0
    ticks = instants + numpy.array(clock.aheads, numpy.int64)[places]
    first, last = int(ticks.min()) // SECOND, int(ticks.max()) // SECOND
    if last - first > len(instants):
        return clock.texts(instants.tolist())
    seconds = [civil(second * SECOND, clock.dated) or '' for second in range(first, last + 1)]
    wide = len(seconds[0])
    if not wide or any(len(second) != wide for second in seconds):
        return clock.texts(instants.tolist())
    ticks -= first * SECOND
    second = ticks // SECOND
    rows = numpy.empty((len(ticks), wide + 8), numpy.uint8)
    rows[:, :wide] = numpy.frombuffer(''.join(seconds).encode(), numpy.uint8).reshape(-1, wide)[second]
    rows[:, wide] = ord('.')
    rows[:, wide + 1:] = decimals().right(ticks - second * SECOND, 2)[:, 1:]
    text = str(rows, 'ascii')
    return [text[at:at + wide + 8] for at in range(0, len(text), wide + 8)]


@lru_cache(maxsize=None)
def decimals() -> Decimals:
    """What makes numbers into digits."""
    return Decimals()


def block_of(some: Sequence[Tuple[int, Packet, int, bool]], ordered: Ordered, part: Part, reader: Reader) -> Block:
    """The entries that packets of one kind have in a part, in the order of a replay, with their instants in place of their counts.

    Their columns: `number`, the channel; `order`, the number of the packet; `lost`, how many were lost before, as far as a column
    takes it, or UNTOLD; `flagged`, whether a loss is told there.
    """
    packets = [packet for _, packet, _, _ in some]
    states = [ordered.states.get(place) for place, _, _, _ in some]
    block, many = read(packets, reader.numbering, [NONE if one is None else one for one in states])
    block.count = block.count + numpy.array([ordered.base(place) for place, _, _, _ in some], numpy.int64)[block.of]
    lost, flagged = numpy.zeros(len(block), numpy.int64), numpy.zeros(len(block), bool)
    for first, own, (_, packet, gone, _) in zip((numpy.cumsum(many) - many).tolist(), many.tolist(), some):
        if own and packet.flags & 0x10:
            lost[first], flagged[first] = min(gone, MOST_NUMBER), True
    block.columns.update(lost=lost, flagged=flagged,
                         number=numpy.array([packet.channel for packet in packets], numpy.int64)[block.of],
                         order=numpy.array([place for place, _, _, _ in some], numpy.int64)[block.of])
    return between(in_order(block), part.low, part.high)


def lost_of(block: Block) -> List[Optional[int]]:
    """How many were lost before each entry; none where it is not known how many."""
    found: List[Optional[int]] = block.columns['lost'].tolist()
    for at in numpy.flatnonzero(block.columns['lost'] == UNTOLD).tolist():
        found[at] = None
    return found
