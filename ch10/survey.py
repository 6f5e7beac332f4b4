"""One pass over a recording: what each channel has, what was passed over, its times and its setup text."""
from __future__ import annotations

from array import array
from bisect import bisect_left, bisect_right
from operator import itemgetter
from typing import Any, Dict, Iterable, List, Mapping, Optional, Sequence, Tuple

from . import walk
from .arrays import numpy
from .bodies import BODIES, counts
from .clocks import BITS, COUNTLESS, NOTHING, Asked, Clock, Sessions, TimeLine, Timing
from .columns import told_by
from .data_types import family_of
from .kinds import by_type
from .log_lines import MESSAGE, Log, use
from .packets import KNOWN, UNTOLD, Packet, Resync, Stretch, loss_of, lost_before, packet_at
from .segments import WHY, Segments, is_segment
from .standard import COUNT_BITS, INDEX, NETWORK_TIME, SETUP, SPAN, STREAMING, TIME, Damaged, Data, Fault, let_go
from .times import Time, header_time, network_time, time
from .tmats import Names

STATES = by_type('last_state')
FIRST_OF = itemgetter(0)
StatesBefore = Mapping[int, Optional[int]]  # by the numbers of packets
Column = Any  # an array of whole numbers, or a memoryview of such
UNREAD = 1 << 63  # above the counter of a packet that has no entries, in place of their lowest instant
REPORT_ROW = 0x100  # in place of its data type, 0x00, which others have for something else
SUMMED = ('packets', 'bytes', 'losses', 'lost', 'untold', 'jumps', 'opaque', 'bad', 'doubled')


def name_of(kind: int) -> str:
    """The name of a data type: its own where it is read, else that of its family and its number."""
    if kind in BODIES:
        return BODIES[kind].name
    if kind == REPORT_ROW:
        return 'report'
    return '%s-%02x' % (family_of(kind), kind)


class Row:
    """What the packets of one channel and one type have together.

    .packed    of each session the lowest and the highest instant of its packets; .entered, of their entries
    .unread    how many packets were not read, by why; .doubled, how many are the same as the channel's packet before
    .after     how many messages were lost after its last one, by the recorder's log channel, which .lost has too; .told, how many
               losses before its first one are an earlier file's, which it has not
    """

    __slots__ = ('channel', 'kind', 'packets', 'entries', 'bytes', 'losses', 'lost', 'untold', 'jumps', 'opaque', 'bad', 'packed',
                 'entered', 'unread', 'doubled', 'after', 'told')

    def __init__(self, channel: int, kind: int) -> None:
        self.channel, self.kind = channel, kind
        self.packets = self.entries = self.bytes = self.losses = self.lost = self.untold = self.jumps = self.opaque = self.bad = 0
        self.packed: Dict[int, List[int]] = {}
        self.entered: Dict[int, List[int]] = {}
        self.unread: Dict[str, int] = {}
        self.doubled = self.after = self.told = 0

    def add(self, packet: Packet, report: Optional[Tuple[int, int]]) -> None:
        """Adds a packet after this report, or after none."""
        self.packets += 1
        self.bytes += packet.length
        if packet.flags & 0x10:
            lost = lost_before(packet, report)
            self.losses += 1
            self.untold += lost == UNTOLD
            self.lost += 1 if lost == UNTOLD else lost
        if packet.word is None:
            self.opaque += 1
            why = why_unread(packet)
            self.unread[why] = self.unread.get(why, 0) + 1

    def join(self, number: int, instant: int) -> None:
        """Takes note that so many packets, which were not read, are the segments of a message at an instant."""
        self.opaque -= number
        self.unread[WHY] -= number
        if not self.unread[WHY]:
            del self.unread[WHY]
        self.add_entries(1, instant, instant)

    def at(self, instant: int) -> None:
        """Takes note of when a packet is."""
        span = self.packed.get(instant >> BITS)
        if span is None:
            self.packed[instant >> BITS] = [instant, instant]
        elif instant < span[0]:
            span[0] = instant
        elif instant > span[1]:
            span[1] = instant

    def add_entries(self, number: int, low: int, high: int) -> None:
        """Adds entries between two instants."""
        self.entries += number
        span = self.entered.get(low >> BITS)
        if span is None:
            self.entered[low >> BITS] = [low, high]
            return
        if low < span[0]:
            span[0] = low
        if high > span[1]:
            span[1] = high

    def take(self, other: Row, base: int) -> None:
        """Takes in a row of packets that come after its own, whose instants are counts of a session."""
        for name in SUMMED:
            setattr(self, name, getattr(self, name) + getattr(other, name))
        for why, number in other.unread.items():
            self.unread[why] = self.unread.get(why, 0) + number
        for low, high in other.packed.values():
            self.at(low + base)
            self.at(high + base)
        for low, high in other.entered.values():
            self.add_entries(other.entries, low + base, high + base)

    def has_entries(self) -> bool:
        """Whether its type is one of entries that are read."""
        return self.kind in BODIES and BODIES[self.kind].keys is not None

    def ends(self) -> List[Tuple[int, int]]:
        """Of each session the first and the last instant of its entries, or, where it has none, of its packets."""
        return [(low, high) for _, (low, high) in sorted((self.entered or self.packed).items())]

    def first(self) -> int:
        """The first instant."""
        return self.ends()[0][0]

    def last(self) -> int:
        """The last instant."""
        return self.ends()[-1][1]

    def counts(self) -> Tuple[int, int]:
        """The lowest and the highest count."""
        return counts_of(self.ends())

    def rate(self) -> Optional[float]:
        """Entries a second from the first to the last of each session, or None."""
        past = sum(high - low for low, high in self.entered.values())
        if self.entries < 2 or past == 0:
            return None
        return (self.entries - len(self.entered)) * 10 ** 7 / past if self.entries > len(self.entered) else None


def said_in(packet: Packet) -> Optional[Time]:
    """The time that a time packet tells; None of others."""
    if packet.kind == TIME and packet.word is not None:
        return time(packet.body, packet.word)
    return network_time(packet.body) if packet.kind == NETWORK_TIME else None


def time_of_header(packet: Packet) -> Optional[Time]:
    """The time that a packet's secondary header tells, or None."""
    if packet.second is None or packet.flags & 0x0C == 0x0C:
        return None
    form, ticks = told_by(packet.flags, packet.second)
    return header_time(ticks, form)


def why_unread(packet: Packet) -> str:
    """Why a packet is opaque."""
    if packet.flags & 0x40:
        return 'stamps of another clock'
    if is_segment(packet):
        return WHY
    return 'another form of its type' if packet.kind in KNOWN else 'a type that is not read here'


class Surveyed:
    """What every pass over a recording finds; `Survey` says what each is."""

    rows: List[Row]
    damage: List[Stretch]
    fault: Optional[Fault]
    out_of_step: int
    begins_with_setup: bool
    setup: Optional[bytes]
    names: Names
    log: Log
    log_remarks: List[str]
    timing: Timing
    times: List[TimeLine]
    sessions: Sessions
    clock: Optional[Clock]

    def drawn(self, channels: Optional[List[int]] = None) -> List[Row]:
        """The rows of all packets but those of setup, index and loss reports."""
        return [row for row in self.rows if row.packets and row.kind not in (SETUP, INDEX, REPORT_ROW)
                and (channels is None or row.channel in channels)]

    def span(self) -> Optional[Tuple[int, int]]:
        """The first and the last instant, or None where there is no packet. Those of setup, index and reports matter where there
        are no others."""
        return ends_of(self.drawn() or self.rows)

    def ends(self) -> List[Tuple[int, int]]:
        """The same of each session; sessions between which the counter's bits were full are one."""
        return session_ends(self.drawn() or self.rows, self.sessions)


class Survey(Surveyed):
    """What one pass over a recording finds: to its end, or, where it does not go on, to its first fault.

    .rows      a `Row` of each channel and type, by channel, then type
    .damage    a `Stretch` of each stretch that was passed over, by offset; none where it does not go on
    .passed    their lengths by their offsets, for `ch10.packets.packets`
    .spans     of each stretch the instant of the last packet before it and of the first one after it, or None
    .fault     the first fault, or None
    .size      how many bytes were gone over: all, or those before the fault that ended it
    .clock     the `Clock` of its times, or None; .times, a `TimeLine` of each channel with times; .sessions, its `Sessions`
    .out_of_step    how many packets say that their counter is out of step (packet flags, bit 5)
    .segments  the `Segments` of messages that stand in several packets
    .begins_with_setup    whether the first packet is a setup, as it has to be
    .log       the lines of the recorder's log channel: `ch10.log_lines.Log`; .log_remarks, what it does not say
    .setup     the first setup text as bytes, or None; .streaming, the first configuration of a stream, or None
    .names     what the one says of channels, or, where there is none, the other: `ch10.tmats.Names`
    .lows      of each packet that was read the lowest instant of its entries; .highs the highest; .places where it begins, after
               the recording's first byte; .of, the number of its session. A packet without entries has its counter above UNREAD as
               its lowest, and 0 as its highest
    .setups    the numbers of the packets of setup and of a stream's configuration
    """

    def prepare(self, data: Data, begin: int, end: int, timing: Timing) -> None:
        """Begins a pass at the first packet."""
        self.data, self.begin, self.end, self.at = data, begin, end, begin
        self.rows = []
        self.log = Log()
        self.damage = []
        self.passed: Dict[int, int] = {}
        self.spans: List[Tuple[Optional[int], Optional[int]]] = []
        self.fault = None
        self.out_of_step, self.begins_with_setup = 0, False
        self.setup = None
        self.streaming: Optional[bytes] = None
        self.lows: Column = array('Q')
        self.highs: Column = array('Q')
        self.places: Column = array('Q')
        self.of: Column = array('I')
        self.setups: List[int] = []
        self.timing = timing
        self.sessions = timing.sessions
        self.latest: Dict[int, int] = {}  # of each channel where its last packet stands
        self.segments = Segments(data, begin)
        self.held: List[Tuple[Row, int, int, bool]] = []  # of packets that are of the session of what comes next
        self.states: List[Tuple[int, int, int]] = []  # of each packet that has one its number, its channel and its last state
        self.by_key: Dict[Tuple[int, int], Row] = {}
        self.sequences: Dict[int, int] = {}  # of each channel the one that comes next
        self.report: Optional[Tuple[int, int]] = None  # of the packet before, where it is one
        self.last: Optional[int] = None  # the instant of the packet before
        self.resync, self.ahead = Resync(data, begin, end), walk.Ahead(data, end)

    def __init__(self, data: Data, begin: int, end: int, goes_on: bool = True, asked: Asked = NOTHING,
                 more: Optional[Log] = None, jobs: int = 1) -> None:
        self.prepare(data, begin, end, Timing())
        if jobs > 1:
            from .survey_parts import walked  # read when it is asked for
            walked(self, goes_on, jobs)
        else:
            self.go_to(end, goes_on)
        self.settle(self.sessions.base)
        del self.resync, self.ahead
        self.size = self.at - begin
        if end == begin:
            self.fault = Fault('no packet')
        self.log_remarks = use(self.by_key, self.log, self.new_row, more)
        self.rows = [self.by_key[key] for key in sorted(self.by_key)]
        self.names = Names(self.streaming if self.setup is None else self.setup)
        self.times = list(self.timing.lines.values())
        self.clock = self.timing.clock(asked, self.names.attributes)

    def go_to(self, limit: int, goes_on: bool) -> None:
        """Goes on to the first packet that begins at a place or after it; or, unless it goes on, to a fault."""
        data, begin, end, at, gone = self.data, self.begin, self.end, self.at, self.at
        resync, before, ahead = self.resync, self.sequences, self.ahead
        ahead.limit = limit
        while at < limit:
            place = ahead.place(at)
            many = self.add_run(ahead, place, begin, before, resync) if place >= 0 and ahead.runs[place] - place >= walk.RUN else 0
            if many:
                self.last, self.report = int(ahead.counters[place + many - 1]) + self.sessions.base, None
                at = int(ahead.offsets[place + many - 1] + ahead.heads['length'][place + many - 1])
                if at - gone >= SPAN:
                    let_go(data, gone, at)
                    gone = at
                continue
            try:
                packet = packet_at(data, at, begin, end, True, True, ahead.is_summed(at))
                found = ahead.measure(packet, at)
                said = said_in(packet)
                inner = resync.within(at, packet.length) if packet.flags & 0x83 not in (1, 2, 3) else None
                if inner is not None:
                    raise Fault('another packet within it', at - begin, inner - at,
                                (packet.channel, packet.kind, packet.sequence, packet.counter))
            except Fault as fault:
                if fault.offset != at - begin or fault.whose is None:  # of what stands in a packet
                    fault = self.placed(fault, data, at, begin, end)
                self.fault = self.fault or fault
                if not goes_on:
                    break
                if fault.whose:
                    resync.note(*fault.whose[:3])
                following = resync.after(at, fault.length)
                self.pass_over(fault, at - begin, following - at, self.last, before)
                at, self.report = following, None
                continue
            channel, kind, sequence, told = packet.channel, packet.kind, packet.sequence, loss_of(packet)
            base = self.base_of(packet, before)
            instant = self.last = packet.counter + base
            if self.spans and self.spans[-1][1] is None:
                self.close_spans(instant)
            row = self.row_of(channel, REPORT_ROW if told else kind)
            is_jump = before.get(channel, sequence) != sequence
            row.jumps += is_jump
            if is_jump and kind not in COUNTLESS and self.is_doubled(data, begin, packet):
                row.doubled += 1
            self.latest[channel] = packet.offset
            before[channel] = sequence + 1 & 0xFF
            row.add(packet, self.report)
            self.out_of_step += packet.flags >> 5 & 1
            self.begins_with_setup |= kind == SETUP and packet.offset == 0
            self.report = told
            if kind in COUNTLESS:
                self.held.append((row, len(self.lows), packet.counter, is_jump))
            else:
                row.at(instant)
            if packet.second is not None:
                self.timing.add_header(instant, time_of_header(packet), packet.offset)
            self.note(packet, found, said, row, base)
            whole = self.segments.note(packet)
            if whole:
                self.join(packet_at(data, begin + whole[0], begin, end, False), len(whole), row)
            resync.note(channel, kind, sequence)
            at += packet.length
            if at - gone >= SPAN:
                let_go(data, gone, at)
                gone = at
        self.at = at

    def add_run(self, ahead: walk.Ahead, place: int, begin: int, before: Dict[int, int], resync: Resync) -> int:
        """Adds plain packets that follow one another from one on, as far as each goes on where its channel was: by its sequence
        number, and by its counter. Answers how many; none where they are few, or where each has to be looked at by itself."""
        sessions = self.sessions
        if self.held or sessions.is_after_setup or sessions.wraps:
            return 0
        until = ahead.runs[place]
        while until - place >= walk.RUN:
            keys, heads = ahead.keys[place:until], ahead.heads[place:until]
            order = numpy.argsort(keys, kind='stable')
            some = keys[order]
            is_first = numpy.append(True, some[1:] != some[:-1])
            first = numpy.flatnonzero(is_first)
            groups = some[first].tolist()
            if len({key >> 8 for key in groups}) < len(groups):
                return 0
            sequence, counters = heads['sequence'][order].astype(numpy.int64), ahead.counters[place:until][order]
            wrong = numpy.zeros(len(order), bool)
            wrong[1:] = ~is_first[1:] & ((sequence[1:] != sequence[:-1] + 1 & 0xFF) | (counters[1:] < counters[:-1]))
            for at, key in zip(first.tolist(), groups):
                wrong[at] = (before.get(key >> 8, sequence[at]) != sequence[at] or counters[at] < sessions.last.get(key, -1)
                             or key & 0xFF == MESSAGE and key >> 8 not in self.log.others)
            if not wrong.any():
                break
            until = place + int(order[wrong].min())
        else:
            return 0
        base, number = sessions.base, until - place
        if self.spans and self.spans[-1][1] is None:
            self.close_spans(int(ahead.counters[place]) + base)
        lows, highs = ahead.lows[place:until] + base, ahead.highs[place:until] + base
        offsets, last = ahead.offsets[place:until] - begin, numpy.append(first[1:], number) - 1
        columns = [numpy.add.reduceat(column[order], first).tolist() for column in (
            ahead.number[place:until], heads['length'].astype(numpy.int64))]
        columns += [numpy.minimum.reduceat(lows[order], first).tolist(), numpy.maximum.reduceat(highs[order], first).tolist(),
                    counters[first].tolist(), counters[last].tolist(), sequence[last].tolist(), offsets[order][last].tolist(),
                    (last - first + 1).tolist()]
        for key, entries, size, low, high, early, late, at, offset, packets in zip(groups, *columns):
            channel, kind = key >> 8, key & 0xFF
            row = self.row_of(channel, kind)
            row.packets += packets
            row.bytes += size
            row.at(early + base)
            row.at(late + base)
            row.add_entries(entries, low, high)
            self.latest[channel], before[channel] = offset, at + 1 & 0xFF
            sessions.last[key], sessions.next[key] = late, at + 1 & 0xFF
            if kind == MESSAGE:
                self.segments.open.pop(channel, None)
            resync.note(channel, kind, at)
        if not STATES.keys().isdisjoint(key & 0xFF for key in groups):
            self.add_states(ahead, place, until)
        self.lows.frombytes(lows.astype(numpy.uint64).tobytes())
        self.highs.frombytes(highs.astype(numpy.uint64).tobytes())
        self.places.frombytes(offsets.astype(numpy.uint64).tobytes())
        self.of.frombytes(numpy.full(number, base >> BITS, numpy.uint32).tobytes())
        return number

    def add_states(self, ahead: walk.Ahead, place: int, until: int) -> None:
        """Takes note of the last states of those packets of a run that have some."""
        data, number = ahead.data, len(self.lows)
        found: List[Tuple[int, int, int]] = []
        for kind, state in STATES.items():
            for one in numpy.flatnonzero(ahead.kinds[place:until] == kind).tolist():
                at, head = int(ahead.offsets[place + one]), ahead.heads[place + one]
                found.append((number + one, int(head['channel']), state(data[at + 24:at + 24 + int(head['size'])])))
        self.states += sorted(found, key=FIRST_OF)

    def is_doubled(self, data: Data, begin: int, packet: Packet) -> bool:
        """Whether a packet is the same, byte for byte, as the channel's packet before."""
        at, place = self.latest.get(packet.channel), begin + packet.offset
        return at is not None and data[begin + at:begin + at + packet.length] == data[place:place + packet.length]

    def base_of(self, packet: Packet, before: Dict[int, int]) -> int:
        """The instant of count 0 of a packet's session. A recorder that was switched on anew begins its sequence numbers anew."""
        number = self.sessions.number()
        base = self.sessions.base_of(packet.channel, packet.kind, packet.counter, packet.sequence, packet.offset)
        if base is None:
            return self.sessions.base
        is_anew = self.sessions.number() > number and number not in self.sessions.wraps
        if is_anew:
            before.clear()
        if self.held:
            self.settle(base, is_anew)
        return base

    def settle(self, base: int, is_anew: bool = False) -> None:
        """Takes note of when those packets were that are of the session of what comes next."""
        for row, number, counter, is_jump in self.held:
            row.at(base + counter)
            row.jumps -= is_jump and is_anew
            self.of[number] = base >> BITS
        self.held = []

    @staticmethod
    def placed(fault: Fault, data: Data, at: int, begin: int, end: int) -> Fault:
        """A fault of what stands in a packet, with the packet's place, length and channel; others as they are."""
        try:
            packet = packet_at(data, at, begin, end)
        except Fault as same:
            return same
        return Fault(fault.what, at - begin, packet.length, (packet.channel, packet.kind, packet.sequence, packet.counter))

    def new_row(self, channel: int, kind: int) -> Row:
        """A row of a channel of which the recording has no packet."""
        return self.row_of(channel, kind)

    def row_of(self, channel: int, kind: int) -> Row:
        """The row of a channel and type, made where there is none."""
        row = self.by_key.get((channel, kind))
        if row is None:
            row = self.by_key[channel, kind] = Row(channel, kind)
        return row

    def note(self, packet: Packet, found: Tuple[int, int, int], said: Optional[Time], row: Row, base: int) -> None:
        """Takes note of what stands in a packet of the session whose count 0 is at this instant."""
        kind, (number, low, high) = packet.kind, found
        if kind == MESSAGE and number:
            self.log.add(packet.channel, packet.body)
        if number:
            low, high = low + base, high + base
            row.add_entries(number, low, high)
        else:
            low, high = UNREAD | packet.counter, 0
        if kind in (SETUP, STREAMING):
            self.setups.append(len(self.lows))
        if said is not None:
            self.timing.add(packet.channel, packet.counter + base, said, packet.offset, packet.flags)
        elif kind in STATES and number:
            self.states.append((len(self.lows), packet.channel, STATES[kind](packet.body)))
        elif kind == SETUP and packet.word is not None and self.setup is None:
            self.setup = bytes(packet.body[4:])
        elif kind == STREAMING and packet.word is not None and self.streaming is None:
            self.streaming = bytes(packet.body[4:])
        self.lows.append(low)
        self.highs.append(high)
        self.places.append(packet.offset)
        self.of.append(base >> BITS)

    def join(self, first: Packet, number: int, row: Row) -> None:
        """Takes note of a message in so many packets, which is an entry of the first one."""
        place = bisect_left(self.places, first.offset)
        instant = counts(self.segments.joined(first))[0] + (self.of[place] << BITS)
        self.lows[place] = self.highs[place] = instant
        row.join(number, instant)

    def base_at(self, offset: int) -> int:
        """The instant of count 0 of the session of a packet that begins there."""
        if self.sessions.number() == 1:
            return 0
        return self.of[max(bisect_right(self.places, offset) - 1, 0)] << BITS

    def pass_over(self, fault: Fault, offset: int, length: int, last: Optional[int], before: Dict[int, int]) -> None:
        """Takes note of a stretch."""
        channel = kind = None
        if fault.whose:
            channel, kind, sequence, counter = fault.whose
            row = self.row_of(channel, kind)
            row.bad += 1
            if not row.packed:
                row.at(self.sessions.base + counter)
            before[channel] = sequence + 1 & 0xFF
        if (self.damage and channel is None and self.damage[-1].channel is None
                and self.damage[-1].offset + self.damage[-1].length == offset):
            self.damage[-1] = self.damage[-1]._replace(length=self.damage[-1].length + length)
            self.passed[self.damage[-1].offset] = self.damage[-1].length
            return
        self.damage.append(Stretch(offset, length, fault.what, channel, kind))
        self.passed[offset] = length
        self.spans.append((last, None))

    def close_spans(self, instant: int) -> None:
        """Takes note of the first instant after stretches."""
        for place in range(len(self.spans) - 1, -1, -1):
            if self.spans[place][1] is not None:
                break
            self.spans[place] = self.spans[place][0], instant

    def own_instant(self, number: int) -> int:
        """The instant of a packet without entries, by its counter."""
        return (self.of[number] << BITS) + (self.lows[number] & COUNT_BITS)

    def states_before(self) -> StatesBefore:
        """What has to be known before each packet of a channel whose packets have a last state: that of its session's packet
        before, or None."""
        found: Dict[int, Optional[int]] = {}
        last: Dict[Tuple[int, int], int] = {}
        for number, channel, state in self.states:
            key = channel, self.sessions.run_of(self.of[number])
            found[number] = last.get(key)
            last[key] = state
        return found

    def agrees(self, data: Data, begin: int, numbers: Iterable[int]) -> bool:
        """Whether packets stand in the recording as it says, by their numbers: it was just read."""
        return True

    def ends_early(self) -> bool:
        """Whether a fault ended it before the recording's end."""
        return self.fault is not None and not self.damage

    def judge(self) -> None:
        """Raises what is wrong with the recording, when what is good of it is said: its first fault, or what was passed over."""
        if self.damage:
            raise Damaged([stretch_text(stretch) for stretch in self.damage])
        if self.fault:
            raise self.fault


def stretch_text(stretch: Stretch) -> str:
    """A stretch in words."""
    whose = '' if stretch.channel is None else ' (channel %d, %s)' % (stretch.channel, name_of(stretch.kind))
    return 'passed over: offset %d, length %d: %s%s' % (stretch.offset, stretch.length, stretch.why, whose)


def stretch_fields(stretch: Stretch) -> dict:
    """A stretch as JSON has it."""
    found = {'offset': stretch.offset, 'length': stretch.length, 'why': stretch.why}
    if stretch.channel is not None:
        found.update(channel=stretch.channel, type=name_of(stretch.kind))
    return {'bad': found}


def ended_fields(survey: 'Survey', size: int) -> dict:
    """Where a pass ended that does not go on after a fault."""
    return {'ended': {'offset': survey.size, 'unread': size - survey.size, 'why': survey.fault and survey.fault.what}}


def ends_of(rows: Sequence[Row]) -> Optional[Tuple[int, int]]:
    """The first and the last instant of some rows."""
    return (min(row.first() for row in rows), max(row.last() for row in rows)) if rows else None


def session_ends(rows: Iterable[Row], sessions: Sessions) -> List[Tuple[int, int]]:
    """The first and the last instant of each session, by some rows."""
    found: Dict[int, Tuple[int, int]] = {}
    for row in rows:
        for low, high in row.ends():
            run = sessions.run_of(low >> BITS)
            least, most = found.get(run, (low, high))
            found[run] = min(least, low), max(most, high)
    return [found[run] for run in sorted(found)]


def counts_of(ends: Sequence[Tuple[int, int]]) -> Tuple[int, int]:
    """The lowest and the highest count of some spans of instants."""
    return (min(min(low & COUNT_BITS, high & COUNT_BITS) for low, high in ends),
            max(max(low & COUNT_BITS, high & COUNT_BITS) for low, high in ends))
