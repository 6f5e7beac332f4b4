"""Recordings for programs of analysis: `ch10.open(path)`, with times as numpy's, and entries as columns.

    import ch10
    with ch10.open('flight.ch10') as held:
        recording = held.recordings[0]
        for channel in recording.channels:
            print(channel.number, channel.type, channel.name, channel.entries, channel.first, channel.last)
        table = recording.table('1553', channels=[7])
        table['rt'], table['time'], table.array(), table.frame()     # columns, a structured array, a DataFrame of pandas
        for entry in recording.entries('uart'):
            print(entry.time, entry.channel, entry.value)

Columns are those of the kind's table in a database of many recordings, after `count`, `time`, `lost`, `channel` and `quality` (how
good the time is, as `--quality` has it). Times are
datetime64[ns], NaT where there is none, or none with a year. Whole numbers that are not there are -1, also of messages lost where
the recording does not tell how many. Words of 1553 and of 16PP194 are arrays of unsigned numbers, other bytes are bytes.
"""
from __future__ import annotations

import mmap
import os
from typing import Dict, Iterator, List, NamedTuple, Optional, Sequence, Union

from .arrays import Array, Foreign, numpy
from .bodies import OWN, read
from .clocks import Asked
from .columns import NONE, Numbering, columns_of
from .doubts import quality_of
from .inputs import is_recording, listed
from .kinds import BUS, BY_NAME, WEAPONS, Kind
from .medium import bytes_of
from .packets import UNTOLD
from .replay import Ordered, Part
from .standard import COUNT_BITS, Data, Facts, Value, Wrong
from .survey import Row, Survey, name_of

DAY = 864000000000  # in units of 100 ns
YEAR_1970, FIRST_DAY, LAST_DAY = 719163 * DAY, DAY, 3652060 * DAY
NO_TIME = -(1 << 63)
SIZES = {'SMALLINT': 'i2', 'INTEGER': 'i4', 'BIGINT': 'i8', 'BOOLEAN': '?', 'REAL': 'f4'}
WORDS = {BUS: ('words', '>u2'), WEAPONS: ('words', '>u4')}
FRONT = (('count', 'u8'), ('time', 'M8[ns]'), ('lost', 'i8'), ('channel', 'u2'), ('quality', 'O'))


class Channel(NamedTuple):
    """A channel and type of data of a recording.

    .number     the channel's number; .type, the kind's name, or else the family and number of the data type; .name, by the setup
                text, or ''
    .packets    how many; .entries, how many are read, or None of a type that has none; .bytes, of all packets
    .losses     packets before which messages were lost; .lost, how many messages, as far as the recording tells
    .first      the first time, a datetime64[ns], or NaT; .last, the last one
    """
    number: int
    type: str
    name: str
    packets: int
    entries: Optional[int]
    bytes: int
    losses: int
    lost: int
    first: Value
    last: Value


class Entry(NamedTuple):
    """An entry: its count, its time (a datetime64[ns]), how many messages were lost before it (-1: not known), its channel, and
    the columns of its kind by their names."""
    count: int  # type: ignore[assignment]
    time: Value
    lost: int
    channel: int
    value: Facts


class Table:
    """Columns of entries of one kind: .columns, by their names, each a numpy array of one length. .ticks are their times in units
    of 100 ns since 1970, or NO_TIME: datetime64[ns] has none after the year 2261."""

    def __init__(self, kind: Kind, columns: Dict[str, Array], ticks: Array) -> None:
        self.kind, self.columns, self.ticks = kind.name, columns, ticks

    def __len__(self) -> int:
        return len(self.columns['count'])

    def __getitem__(self, name: str) -> Array:
        return self.columns[name]

    def array(self) -> Array:
        """The columns as one structured array, a field for each. Texts, bytes and words are objects in it."""
        made = numpy.empty(len(self), [(name, column.dtype) for name, column in self.columns.items()])
        for name, column in self.columns.items():
            made[name] = column
        return made

    def frame(self) -> Foreign:
        """The columns as a DataFrame of pandas; a Wrong where that is not installed. Words are lists of numbers in it."""
        try:
            from pandas import DataFrame  # type: ignore
        except ImportError:
            raise Wrong('pandas is not installed: apt-get install python3-pandas')
        return DataFrame({name: [None if one is None else one.tolist() if isinstance(one, numpy.ndarray) else one for one in column]
                          if column.dtype == object else column for name, column in self.columns.items()})

    def words(self, number: int) -> Array:
        """The first so many words of each entry of a bus, as columns of numbers; -1 where an entry has fewer."""
        made = numpy.full((len(self), number), -1, numpy.int64)
        for row, some in zip(made, self.columns['words']):
            row[:min(len(some), number)] = some[:number]
        return made


class Recording:
    """One recording of an input."""

    def __init__(self, data: Data, begin: int, end: int, name: str, asked: Asked, goes_on: bool = True) -> None:
        self.data, self.begin, self.end, self.name = data, begin, end, name
        self.survey = Survey(data, begin, end, goes_on, asked=asked)

    @property
    def channels(self) -> List[Channel]:
        """What each channel and type has."""
        return [self.channel(row) for row in self.survey.rows if row.packets]

    def channel(self, row: Row) -> Channel:
        """What one of them has."""
        first, last = self.times(numpy.array([row.first(), row.last()], numpy.int64))
        return Channel(row.channel, name_of(row.kind), self.survey.names.channel(row.channel), row.packets,
                       row.entries if row.has_entries() else None, row.bytes, row.losses, row.lost, first, last)

    def times(self, instants: Array) -> Array:
        """The civil times of some instants."""
        return moments(self.ticks(instants))

    def ticks(self, instants: Array) -> Array:
        """The same in units of 100 ns since 1970, or NO_TIME."""
        clock = self.survey.clock
        if clock is None or not clock.dated:
            return numpy.full(len(instants), NO_TIME, numpy.int64)
        told = [clock.at(instant) for instant in instants.tolist()]
        return numpy.array([one - YEAR_1970 if FIRST_DAY <= one < LAST_DAY else NO_TIME for one in told], numpy.int64)

    def qualities(self, instants: Array, keys: Array) -> Array:
        """How good the times of some instants are. A key has in bit 0 whether the packet's counter is out of step, and above it
        which bit of a message of 1553 the stamp is of."""
        clock = self.survey.clock
        starts = numpy.array(clock.starts if clock else [], numpy.int64)
        pieces = numpy.maximum(numpy.searchsorted(starts, instants, 'right') - 1, 0)
        some, numbers = numpy.unique(pieces << 3 | keys, return_inverse=True)
        texts = [quality_of(self.survey, int(starts[key >> 3]) if len(starts) else 0, key & 1 == 1, key >> 1 & 3)
                 for key in some.tolist()]
        return objects(texts)[numbers.reshape(-1)]

    def parts(self, kind: str, channels: Optional[Sequence[int]] = None) -> Iterator[Table]:
        """The entries of a kind, some at a time, in order of time; a Wrong where there is no such kind."""
        if kind not in BY_NAME:
            raise Wrong('there is no kind %r; there are %s' % (kind[:20], ', '.join(sorted(BY_NAME))))
        ordered = Ordered(self.data, self.begin, self.survey, None if channels is None else list(channels))
        for part in ordered.parts():
            found = self.part(BY_NAME[kind], ordered, part)
            if found is not None and len(found):
                yield found

    def part(self, kind: Kind, ordered: Ordered, part: Part) -> Optional[Table]:
        """Those of one part of the recording, or None."""
        some = [one for one in ordered.packets(part) if one[1].kind == kind.type and one[1].word is not None]
        if not some:
            return None
        states = [ordered.states.get(number) for number, _, _, _ in some]
        numbering = Numbering()
        block, many = read([packet for _, packet, _, _ in some], numbering, [NONE if one is None else one for one in states])
        lost, at = numpy.zeros(len(block), numpy.int64), 0
        for (_, _, gone, _), number in zip(some, many.tolist()):
            if number:
                lost[at] = -1 if gone == UNTOLD else min(gone, (1 << 63) - 1)
            at += number
        instants = block.count + numpy.array([ordered.base(number) for number, _, _, _ in some], numpy.int64)[block.of]
        channel = numpy.array(numbering.channels, numpy.int64)[block.channel]
        held = numpy.flatnonzero((instants >= part.low) & (instants < min(part.high, (1 << 63) - 1)))
        held = held[numpy.lexsort((held, channel[held], instants[held]))]
        keys = numpy.array([packet.flags for _, packet, _, _ in some], numpy.int64)[block.of] >> 5 & 1
        if kind.type == BUS:
            keys |= (block.words >> 30) << 1
        ticks = self.ticks(instants[held])
        columns = {'count': (instants & COUNT_BITS).astype('u8')[held], 'time': moments(ticks), 'lost': lost[held],
                   'channel': channel.astype('u2')[held], 'quality': self.qualities(instants[held], keys[held])}
        for (name, form), values in zip(kind.own, columns_of(OWN[kind.type](block))):
            columns[name] = column_of(kind.type, name, form, values)[held]
        return Table(kind, columns, ticks)

    def table(self, kind: str, channels: Optional[Sequence[int]] = None) -> Table:
        """All entries of a kind, of all channels or of some, as columns in order of time."""
        found = list(self.parts(kind, channels))
        if not found:
            own = {name: column_of(BY_NAME[kind].type, name, form, []) for name, form in BY_NAME[kind].own}
            return Table(BY_NAME[kind], {**{name: numpy.empty(0, form) for name, form in FRONT}, **own}, numpy.empty(0, 'i8'))
        return Table(BY_NAME[kind], {name: numpy.concatenate([one.columns[name] for one in found]) for name in found[0].columns},
                     numpy.concatenate([one.ticks for one in found]))

    def entries(self, kind: str, channels: Optional[Sequence[int]] = None) -> Iterator[Entry]:
        """The same one after the other, in bounded memory."""
        for some in self.parts(kind, channels):
            names = list(some.columns)[len(FRONT):]
            for at in range(len(some)):
                yield Entry(int(some['count'][at]), some['time'][at], int(some['lost'][at]), int(some['channel'][at]),
                            {name: some[name][at] for name in names})


def column_of(kind: int, name: str, form: str, values: Sequence[Value]) -> Array:
    """Values of a column of a kind's table as an array."""
    if (kind, name) in {(one, two) for one, (two, _) in WORDS.items()}:
        return objects([numpy.frombuffer(value, WORDS[kind][1]).astype(WORDS[kind][1].replace('>', '<')) for value in values])
    if form == '{bytes}':
        return objects(values)
    if form.startswith('{'):
        return objects(['' if value is None else value for value in values])
    if form == 'BOOLEAN' or form == 'REAL':
        return numpy.array([0 if value is None else value for value in values], SIZES[form])
    return numpy.array([-1 if value is None else value for value in values], SIZES[form])


def moments(ticks: Array) -> Array:
    """Times in units of 100 ns since 1970 as datetime64[ns]; NaT where there is none, or none that these have."""
    has = abs(ticks) < (1 << 63) // 100
    has &= ticks != NO_TIME
    return numpy.where(has, (numpy.where(has, ticks, 0) * 100).astype('M8[ns]'), numpy.datetime64('NaT', 'ns'))


def objects(values: Sequence[Value]) -> Array:
    """An array of objects, also where these are arrays of one length."""
    made = numpy.empty(len(values), object)
    for place, value in enumerate(values):
        made[place] = value
    return made


class Opened:
    """An input that is open: .recordings, one, or those of an image's files. It is closed by `close`, or at the end of `with`."""

    def __init__(self, path: Union[str, 'os.PathLike[str]'], asked: Asked) -> None:
        with open(path, 'rb') as held:
            size = os.fstat(held.fileno()).st_size
            self.data: Data = mmap.mmap(held.fileno(), size, access=mmap.ACCESS_READ) if size else b''
        if is_recording(self.data):
            self.recordings = [Recording(self.data, 0, len(self.data), os.path.basename(os.fspath(path)), asked)]
        else:
            _, files = listed(self.data)
            self.recordings = [Recording(self.data, *bytes_of(self.data, file), file.name, asked) for file in files]

    def close(self) -> None:
        """Lets go of the file."""
        self.recordings = []
        if not isinstance(self.data, bytes):
            self.data.close()

    def __enter__(self) -> 'Opened':
        return self

    def __exit__(self, *_: object) -> None:
        self.close()


def opened(path: Union[str, 'os.PathLike[str]'], year: Optional[int] = None, time_channel: Optional[int] = None,
           time_from_end: bool = False) -> Opened:
    """Opens a recording, or the image of a medium. The others are as `--year`, `--time-channel` and `--time-from-end` of the
    commands. A Fault where it is neither, an OSError where it cannot be read."""
    return Opened(path, Asked(time_channel, year, time_from_end))
