"""The one form in which entries are read: columns of the entries of many packets, all of one kind.

A `Batch` is the bodies of some packets. The module of a kind (`ch10.kinds`) finds the places of their entries in it, and their
counts (`ch10.bodies`): a `Block`. What an entry has is given as groups of columns, each made of the bytes at these places:

    Number      whole numbers of no sign            Coded    what a number means, one column or several; few numbers, many entries
    Hexed       numbers as so many hex digits       Octets   bytes as hex digits, from one place or from two
    Printed     bytes as a text, where they print   Blobs    bytes as they are
    Bits        states as binary digits             Changed  which of them came on and went off
    Each        any values

`ch10.vector` makes lines of them, `ch10.entry_rows` and `ch10.database` rows.
"""
from __future__ import annotations

from binascii import hexlify
from typing import Callable, Dict, Iterable, Iterator, List, Optional, Sequence, Tuple, TypeVar, Union, TYPE_CHECKING

from .arrays import Array, numpy
from .buses import bits_of, changed_bits, text_of
from .standard import COUNT_BITS, Facts, Value

if TYPE_CHECKING:
    from .packets import Packet

Made = TypeVar('Made')
LONGEST = 512  # bytes of a text that are taken together with others; longer ones are taken one by one
ROOM = bytes(4 * LONGEST)  # after bytes that columns are parts of
FEW = 24  # packets below which one after the other is quicker
NONE = -1  # of states before an entry that has none before
NO_WORD = 1 << 16  # where a message has no such word
MOST_DENSE = 8  # numbers for each key, up to which a table has all of them


# ---- the bodies of packets

class Batch:
    """The bodies of some packets of one kind.

    .octets            bytes that they stand in, with ROOM after them where texts are to be made of them
    .starts, .ends     where the bytes after a body's word begin, and end
    .words, .counters  the word and the packet's counter of each
    .forms, .told      of packets whose stamps are times of their secondary header: that header's format and time, as
                       `second_ticks` has them; None where there is none
    .before            the states before each packet, or NONE
    """

    def __init__(self, octets: Array, starts: Sequence[int], ends: Sequence[int], words: Sequence[int], counters: Sequence[int],
                 seconds: Optional[Sequence[Optional[Tuple[int, int]]]] = None, before: Optional[Sequence[int]] = None) -> None:
        self.octets = octets
        self.starts, self.ends = numpy.array(starts, numpy.int64), numpy.array(ends, numpy.int64)
        self.words, self.counters = numpy.array(words, numpy.int64), numpy.array(counters, numpy.int64)
        self.forms: Array = None
        self.told: Array = None
        if seconds and any(seconds):
            self.forms = numpy.array([NONE if one is None else one[0] for one in seconds], numpy.int64)
            self.told = numpy.array([0 if one is None else one[1] for one in seconds], numpy.int64)
        self.before = None if before is None else numpy.array(before, numpy.int64)
        self.views: Dict[int, Array] = {}
        self.kept: Facts = {}

    def numbers(self, at: Array, size: int) -> Array:
        """The numbers of 1, 2 or 4 bytes at these places."""
        view = self.views.get(size)
        if view is None:
            many = max(len(self.octets) - size + 1, 0)
            view = self.views[size] = numpy.ndarray((many,), '<u%d' % size, self.octets, 0, (1,))
        return view[at].astype(numpy.int64)

    def stamps(self, at: Array, of: Array) -> Array:
        """The counts of the stamps at these places, each of this packet.

        Times of the secondary header's format are counted from the packet's counter on: both are of the same moment.
        """
        raw = wide_view(self.octets, 8)[at].view('<u8')
        found = raw.astype(numpy.int64) & COUNT_BITS
        if self.forms is None or not len(found):
            return found
        for form in range(3):
            some = numpy.flatnonzero(self.forms[of] == form)
            if len(some):
                past = ticks_of(raw[some], form) - self.told[of[some]]
                found[some] = self.counters[of[some]] + past & COUNT_BITS
        return found

    def hexed(self, name: str, make: Callable[[], bytes]) -> Array:
        """Hex digits of bytes that are made of these once."""
        if name not in self.kept:
            self.kept[name] = numpy.frombuffer(hexlify(make()), numpy.uint8)
        return self.kept[name]

    def held(self, name: str, make: Callable[[], Made]) -> Made:
        """What `make` makes of these bytes, made once by this name."""
        if name not in self.kept:
            self.kept[name] = make()
        return self.kept[name]


def ticks_of(raw: Array, form: int) -> Array:
    """Times of 64 bits in a format of the secondary header (IRIG 106-17, 11.2.1.1, flag bits 3 and 2), in units of 100 ns.

    0 is binary time of chapter 4: from the low end 16 reserved bits, microseconds, and a number of 10 ms in two words. 1 is IEEE
    1588: nanoseconds, then seconds. 2 is the extended relative time counter, in nanoseconds.
    """
    if form == 0:
        hundredths = (raw >> 32 & 0xFFFF | raw >> 48 << 16).astype(numpy.int64)
        return hundredths * 100000 + (raw >> 16 & 0xFFFF).astype(numpy.int64) * 10
    if form == 1:
        return (raw >> 32).astype(numpy.int64) * 10 ** 7 + (raw & 0xFFFFFFFF).astype(numpy.int64) // 100
    return (raw // 100).astype(numpy.int64)


def second_of(flags: int, second: Optional[bytes]) -> Optional[Tuple[int, int]]:
    """Format and time of a secondary header whose format the packet's stamps have; None where they have that of the counter."""
    if not flags & 0x40 or second is None:
        return None
    return told_by(flags, second)


def told_by(flags: int, second: bytes) -> Tuple[int, int]:
    """Format and time of a secondary header, in units of 100 ns."""
    form = flags >> 2 & 3
    return form, int(ticks_of(numpy.frombuffer(second, '<u8', 1), form)[0])


def batch_of(packets: Sequence[Packet], before: Optional[Sequence[int]] = None) -> Batch:
    """The bodies of some packets put end to end, each at an even place."""
    bodies: List[bytes] = []
    starts, ends, at = [], [], 0
    for packet in packets:
        body = packet.body
        bodies.append(body)
        starts.append(at + 4)
        at += len(body)
        ends.append(at)
        if at & 1:
            bodies.append(b'\0')
            at += 1
    octets = numpy.frombuffer(b''.join(bodies + [ROOM]), numpy.uint8)
    seconds = [second_of(packet.flags, packet.second) for packet in packets] if any(one.flags & 0x40 for one in packets) else None
    return Batch(octets, starts, ends, [packet.word for packet in packets], [packet.counter for packet in packets], seconds, before)


def wide_view(octets: Array, wide: int) -> Array:
    """The bytes as items of so many bytes, one from each place on."""
    return numpy.ndarray((max(len(octets) - wide + 1, 0),), 'V%d' % wide, octets, 0, (1,))


# ---- where entries stand: places, how many each packet has, and which packets' entries do not fit their bodies

Places = Tuple[Array, Array, Array]


def of_one_size(batch: Batch, step: Union[int, Array], number: Array, rest: Union[int, Array] = 0) -> Places:
    """The places of entries of this size, so many in each packet; `rest` is what a body may not have after them."""
    steps = numpy.broadcast_to(numpy.asarray(step, numpy.int64), number.shape)
    bad = (steps * number > batch.ends - batch.starts) | (numpy.asarray(rest) != 0)
    number = numpy.where(bad, 0, number)
    first = numpy.cumsum(number) - number
    places = numpy.repeat(batch.starts - first * steps, number) + numpy.arange(int(number.sum())) * numpy.repeat(steps, number)
    return places, number, bad


def of_own_size(batch: Batch, head: Union[int, Array], of_size: Union[int, Array], is_even: bool, most: Optional[Array],
                mask: int = 0xFFFF) -> Places:
    """The places of entries with so many bytes before their own, whose length, these bits of two bytes, stands at such a place; of
    so many in each packet, or of as many as it has."""
    octets, at, end = batch.octets, batch.starts.copy(), batch.ends
    number, bad = numpy.zeros(len(at), numpy.int64), numpy.zeros(len(at), bool)
    heads, sizes_at = numpy.broadcast_to(head, at.shape), numpy.broadcast_to(of_size, at.shape)
    is_one = isinstance(head, int)
    sizes = numpy.ndarray((max(len(octets) - 1, 0),), '<u2', octets, 0, (1,))
    last = len(sizes) - 1
    steps: List[tuple] = []
    live = numpy.flatnonzero(at < end if most is None else most > 0)
    here, stop, left = at[live], end[live], None if most is None else most[live]
    step = 0
    while len(live) >= FEW:
        behind = here + (sizes[numpy.minimum(here + (of_size if is_one else sizes_at[live]), last)] & mask)
        behind += head if is_one else heads[live]
        fits = behind <= stop
        if not fits.all():
            wrong = live[~fits]
            bad[wrong], number[wrong], at[wrong] = True, step, here[~fits]
            live, here, stop, behind = live[fits], here[fits], stop[fits], behind[fits]
            left = None if left is None else left[fits]
        steps.append((live, here))
        step += 1
        here = behind + (behind - here & 1) if is_even else behind
        more = here < stop if left is None else left > step
        if not more.all():
            number[live[~more]] = step
            live, here, stop = live[more], here[more], stop[more]
            left = None if left is None else left[more]
    number[live], at[live] = step, here
    rest = [(int(place), *one_by_one(octets, int(at[place]), int(end[place]), None if most is None else int(most[place]) - step,
                                     int(heads[place]), int(sizes_at[place]), is_even, mask)) for place in live]
    for place, found, is_bad in rest:
        number[place] += len(found)
        bad[place] |= is_bad
    first = numpy.cumsum(number) - number
    places = numpy.empty(int(number.sum()), numpy.int64)
    for step, (live, here) in enumerate(steps):
        places[first[live] + step] = here
    for place, found, _ in rest:
        places[first[place] + number[place] - len(found):first[place] + number[place]] = found
    return places, number, bad


def with_singles(batch: Batch, is_single: Array, is_wrong: Array, found: Places) -> Places:
    """Places that were found, and those of packets whose body is one entry from its begin on; of these that are wrong none. Of such
    packets none may have been found."""
    places, number, bad = found
    bad = bad | is_single & is_wrong
    number = numpy.where(is_single, numpy.where(bad, 0, 1), number)
    of = numpy.repeat(numpy.arange(len(number)), number)
    made = batch.starts[of]
    made[~is_single[of]] = places
    return made, number, bad


def one_by_one(octets: Array, at: int, end: int, number: Optional[int], head: int, of_size: int, is_even: bool,
               mask: int) -> Tuple[List[int], bool]:
    """The places of the entries of one packet, and whether they do not fit."""
    places: List[int] = []
    data, begin = octets[at:max(end, at)].tobytes(), at
    while at < end if number is None else len(places) < number:
        if at + head > end:
            return places, True
        size = (data[at - begin + of_size] | data[at - begin + of_size + 1] << 8) & mask
        if at + head + size > end:
            return places, True
        places.append(at)
        at += head + size + (size & 1 if is_even else 0)
    return places, False


# ---- entries

class Numbering:
    """Channels by small numbers, from 0 on, as they come."""

    def __init__(self) -> None:
        self.channels: List[int] = []
        self.numbers: Dict[int, int] = {}

    def of(self, channel: int) -> int:
        """The number of a channel, which is given where it has none."""
        if channel not in self.numbers:
            self.numbers[channel] = len(self.channels)
            self.channels.append(channel)
        return self.numbers[channel]


class Block:
    """Entries of one kind: the place of each in the batch, its packet's number there, and its count.

    .channel is its channel by the numbering. Further columns may be put beside them: they are kept with their entries.
    """

    def __init__(self, kind: int, batch: Batch, at: Array, of: Array, count: Array) -> None:
        self.kind, self.batch, self.at, self.of, self.count = kind, batch, at, of, count
        self.columns: Dict[str, Array] = {}

    def __len__(self) -> int:
        return len(self.at)

    def keep(self, held: Array) -> 'Block':
        """The entries that are held, as a block of their own."""
        found = Block(self.kind, self.batch, self.at[held], self.of[held], self.count[held])
        found.columns = {name: column[held] for name, column in self.columns.items()}
        return found

    def numbers(self, more: int, size: int) -> Array:
        """The numbers of 1, 2 or 4 bytes so many bytes after the begin of each entry."""
        return self.batch.numbers(self.at + more, size)

    @property
    def words(self) -> Array:
        """The word of each entry's packet."""
        return self.batch.words[self.of]

    @property
    def channel(self) -> Array:
        """The number of each entry's channel, by the numbering."""
        return self.columns['channel']


# ---- groups of columns

class Group:
    """Some columns, side by side; .number says how many."""

    number = 1

    def values(self) -> List[Value]:
        """The value of each entry; a tuple where there are several columns."""
        raise NotImplementedError

    def columns(self) -> Sequence[Sequence[Value]]:
        """The values column by column."""
        if self.number == 1:
            return [self.values()]
        found = self.values()
        return list(zip(*found)) if found else [()] * self.number


def held(values: Sequence[Value]) -> Array:
    """An array of some values as they are."""
    made = numpy.empty(len(values), object)
    made[:] = values
    return made


class Number(Group):
    def __init__(self, values: Array) -> None:
        self.array = values

    def values(self) -> List[Value]:
        return self.array.tolist()


class Coded(Group):
    """What numbers mean: `make` gives the value of a number, or the values. The numbers are small, or few: a table has what each of
    them means."""

    def __init__(self, keys: Array, make: Callable[[int], Value], number: int = 1) -> None:
        self.keys, self.make, self.number = keys, make, number

    def values(self) -> List[Value]:
        columns = self.columns()
        return columns[0] if self.number == 1 else list(zip(*columns))

    def columns(self) -> List[List[Value]]:
        some, places = distinct(self.keys)
        made = list(map(self.make, some.tolist()))
        rows: List[Value] = [made] if self.number == 1 else list(zip(*made)) if made else [()] * self.number
        return [held(row)[places].tolist() for row in rows]


def distinct(keys: Array) -> Tuple[Array, Array]:
    """Which numbers there are, from the lowest on, and of each key the place of its number there."""
    top = int(keys.max()) + 1 if len(keys) else 0
    if top > MOST_DENSE * len(keys) or not len(keys) or int(keys.min()) < 0:
        some, places = numpy.unique(keys, return_inverse=True)
        return some, places.reshape(-1)
    table = numpy.zeros(top, numpy.int64)
    table[keys] = 1
    some = numpy.flatnonzero(table)
    table[some] = numpy.arange(len(some))
    return some, table[keys]


class HexWords(Coded):
    """Words of 16 bits as four hex digits; none where a number is NO_WORD."""

    def __init__(self, words: Array) -> None:
        Coded.__init__(self, words, lambda word: None if word == NO_WORD else '%04x' % word)

    def columns(self) -> List[List[Value]]:
        text = hex_text(self.keys & 0xFFFF, 4)
        found: List[Value] = [text[at:at + 4] for at in range(0, len(text), 4)]
        for place in numpy.flatnonzero(self.keys == NO_WORD).tolist():
            found[place] = None
        return [found]


def hex_rows(values: Array, digits: int) -> Array:
    """Numbers as so many hex digits, 2, 4 or 8: a row for each."""
    return numpy.frombuffer(hexlify(values.astype('>u%d' % (digits // 2)).tobytes()), numpy.uint8).reshape(-1, digits)


def hex_text(values: Array, digits: int) -> str:
    """The same as one text."""
    return values.astype('>u%d' % (digits // 2)).tobytes().hex()


class Hexed(Group):
    """Numbers as eight, four or two hex digits."""

    def __init__(self, values: Array, digits: int) -> None:
        self.array, self.digits = values, digits

    def values(self) -> List[Value]:
        text, digits = hex_text(self.array, self.digits), self.digits
        return [text[at:at + digits] for at in range(0, len(text), digits)]

    def rows(self) -> Array:
        """The digits, a row for each."""
        return hex_rows(self.array, self.digits)


class Octets(Group):
    """Bytes as hex digits, `source`, of which an entry's begin at a place, two digits for each byte, and are so many; or two such
    stretches, one after the other."""

    def __init__(self, source: Array, start: Array, size: Array, then: Array = None, rest: Array = None) -> None:
        self.source, self.start, self.size, self.then, self.rest = source, start, size, then, rest

    def values(self) -> List[Value]:
        data = str(self.source, 'ascii')
        ends = self.start + self.size
        if self.then is None or not self.rest.any():
            return [data[at:end] for at, end in zip(self.start.tolist(), ends.tolist())]
        return [data[at:end] + data[then:last] for at, end, then, last in zip(
            self.start.tolist(), ends.tolist(), self.then.tolist(), (self.then + self.rest).tolist())]


def octets_of(block: Block, more: Union[int, Array], size: Array) -> Octets:
    """So many bytes of each entry, from some bytes after its begin on."""
    source = block.batch.hexed('bytes', lambda: block.batch.octets.tobytes())
    return Octets(source, 2 * (block.at + more), 2 * size)


class Blobs(Group):
    """Bytes of a source, from a place on, so many."""

    def __init__(self, source: bytes, start: Array, size: Array) -> None:
        self.source, self.start, self.size = source, start, size

    def values(self) -> List[Value]:
        data = self.source
        return [data[at:at + size] for at, size in zip(self.start.tolist(), self.size.tolist())]


def blobs_of(block: Block, more: Union[int, Array], size: Array) -> Blobs:
    """The same as they are."""
    return Blobs(block.batch.held('whole', lambda: block.batch.octets.tobytes()), block.at + more, size)


class Printed(Group):
    """So many bytes of each entry as a text, where all of them print, and else none."""

    def __init__(self, block: Block, more: Union[int, Array], size: Array) -> None:
        self.data, self.start, self.size = block.batch.held('whole', lambda: block.batch.octets.tobytes()), block.at + more, size
        self.batch = block.batch

    def classes(self) -> Array:
        """Of each entry the classes of its bytes, of which one that does not print is 8; 8 where it has none."""
        classes = self.batch.held('classes', lambda: numpy.frombuffer(self.data.translate(CLASSES), numpy.uint8))
        ends = numpy.stack([self.start, self.start + self.size], 1).reshape(-1)
        return numpy.where(self.size > 0, numpy.bitwise_or.reduceat(classes, ends)[::2], 8)

    def values(self) -> List[Value]:
        found, data = [''] * len(self.start), self.data
        if found:
            some = numpy.flatnonzero(self.classes() & 8 == 0)
            for place, at, size in zip(some.tolist(), self.start[some].tolist(), self.size[some].tolist()):
                found[place] = text_of(data[at:at + size])
        return list(found)


# Of each byte: 8 where it does not print, 4 where it is written as two, 1 for a quote, 2 for a comma.
CLASSES = bytes(8 if not (0x20 <= value < 0x7F or value in (9, 10, 13)) else 4 if value in (9, 10, 13, 0x5C) else 1 if value == 0x22
                else 2 if value == 0x2C else 0
                for value in range(256))


class Bits(Group):
    """States as so many binary digits."""

    def __init__(self, states: Array, bits: Array) -> None:
        self.states, self.bits = states, bits

    def values(self) -> List[Value]:
        return [bits_of(states, bits) for states, bits in zip(self.states.tolist(), self.bits.tolist())]


class Changed(Group):
    """Which of so many states came on and went off; those before may be NONE."""

    def __init__(self, states: Array, before: Array, bits: Array) -> None:
        self.states, self.bits = states, bits
        self.differ = numpy.where(before == NONE, 0, before ^ states) & ((1 << bits) - 1)

    def values(self) -> List[Value]:
        return [changed_bits(states ^ differ, states, 32) for states, differ in zip(self.states.tolist(), self.differ.tolist())]


class Each(Group):
    def __init__(self, values: Sequence[Value], number: int = 1) -> None:
        self.held, self.number = list(values), number

    def values(self) -> List[Value]:
        return self.held


class Ready(Each):
    """Texts that stand in lines as they are."""


def columns_of(groups: Iterable[Group]) -> Iterator[Sequence[Value]]:
    """The values of groups, column by column."""
    for group in groups:
        yield from group.columns()


def rows_of(groups: Iterable[Group]) -> Iterator[Tuple]:
    """The values of groups, entry by entry."""
    return zip(*columns_of(groups))
