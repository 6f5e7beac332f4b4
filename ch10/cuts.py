"""Parts of a recording as they stand: its setup text, a range of time, a file of an image."""
from __future__ import annotations

from argparse import Namespace
from bisect import bisect_left, bisect_right
from typing import Dict, Iterable, Iterator, List, Optional, Set, Tuple

from .arrays import Array, numpy
from .bodies import counts
from .clocks import BITS
from .doubts import judge, say_no_setup
from .inputs import Output, is_recording, listed, one_part, shown, the_file
from .kept import surveyed
from .medium import File, bytes_of
from .packets import Packet, loss_of, packet_at, packets
from .replay import numbers_of
from .standard import COUNT_BITS, INDEX, SETUP, SPAN, STREAMING, Data, Fault, Wrong, let_go
from .survey import Survey
from .times import Range
from .tmats import Names, tree


def setup(asked: Namespace, data: Data, out: Output) -> None:
    """`ch10 setup`: the setup texts, or the attributes as a tree."""
    _, begin, end = one_part(data, asked.file)
    survey, has_one = Survey(data, begin, end, asked.keep_going), False
    wanted, name = (STREAMING, 'streaming configuration') if asked.streaming else (SETUP, 'setup packet')
    if asked.tree:
        return as_tree(survey, survey.streaming if asked.streaming else survey.setup, name, out)
    for packet in packets(data, begin, begin + survey.size, False, survey.passed):
        if packet.kind == wanted and packet.word is not None:
            out.write(bytes(packet.body[4:]))
            has_one = True
    if has_one:
        say_no_setup(survey, out)
    survey.judge()
    if not has_one:
        raise Fault('the recording has no %s' % name)


def as_tree(survey: Survey, text: Optional[bytes], name: str, out: Output) -> None:
    """The attributes of a setup text as a tree, and how the channels that it names agree with those of the recording."""
    if text is None:
        survey.judge()
        raise Fault('the recording has no %s' % name)
    names = Names(text)
    if not names.attributes:
        raise Fault('the setup text has no attribute of chapter 9')
    for line in tree(names.attributes):
        out.line(line)
    kinds: Dict[int, set] = {}
    for row in survey.drawn():
        if row.kind >> 3:  # none of those that a recorder makes of itself
            kinds.setdefault(row.channel, set()).add(row.kind)
    said = names.disagreements(kinds)
    out.line('')
    for line in said or ['each channel of the recording is named, with its type']:
        out.line(line)
    survey.judge()


def as_range(asked: Namespace, data: Data, out: Output) -> None:
    """Each packet with an entry in the range, as it stands, behind the loss report that stands before it; with the setup, and the
    time that holds where each stretch of the range begins."""
    _, begin, end = one_part(data, asked.file)
    survey = surveyed(asked, data, begin, end)
    if not len(survey.lows):
        survey.judge()
    cut = Cut(data, begin, survey, Range(asked.first, asked.last, survey.clock))
    if not survey.agrees(data, begin, cut.numbers):
        survey = surveyed(asked, data, begin, end, True)
        cut = Cut(data, begin, survey, Range(asked.first, asked.last, survey.clock))
    cut.write(out)
    judge(survey, out)


class Cut:
    """The packets of a recording that a range of time has.

    .numbers   those that may be of it, by their numbers, with those of setup and the times that hold where its stretches begin
    """

    def __init__(self, data: Data, begin: int, survey: Survey, within: Range) -> None:
        self.data, self.begin, self.end, self.survey, self.within = data, begin, begin + survey.size, survey, within
        self.times = self.times_of()
        places = numbers_of(survey.places)
        also = [bisect_left(survey.places, offset) for offset in self.times]
        self.numbers = numpy.union1d(self.touched(), numpy.array(list(survey.setups) + also, numpy.int64)).tolist() if len(
            places) else []

    def touched(self) -> Array:
        """The numbers of packets that may be of the range: with entries that may lie in it, or without some by their own count; and
        all segments of a message that lies in it."""
        survey, within = self.survey, self.within
        lows, highs = numbers_of(survey.lows), numbers_of(survey.highs)
        has = lows <= highs
        if within.is_all:
            return numpy.arange(len(lows))
        found = has.copy()
        some = lows[has].astype(numpy.int64), highs[has].astype(numpy.int64)
        found[has] = within.touches_each(*some)
        of = numpy.frombuffer(survey.of, numpy.uint32).astype(numpy.int64)
        found[~has] = within.has_each((of[~has] << BITS) + (lows[~has] & COUNT_BITS).astype(numpy.int64))
        for first, places in survey.segments.whole.items():
            if found[bisect_left(survey.places, first)]:
                for place in places:
                    found[bisect_left(survey.places, place)] = True
        return numpy.flatnonzero(found)

    def packet(self, number: int) -> Packet:
        """The packet of this number."""
        return packet_at(self.data, self.begin + self.survey.places[number], self.begin, self.end, False)

    def instants(self, numbers: Iterable[int]) -> Iterator[Tuple[int, Packet, List[int]]]:
        """Of some packets the number, the packet, and the instants of its entries that are in the range; or, where it is not read,
        its own if that is."""
        survey, within, gone = self.survey, self.within, 0
        for number in numbers:
            if survey.places[number] - gone >= SPAN:
                let_go(self.data, self.begin + gone, self.begin + survey.places[number])
                gone = survey.places[number]
            packet, base = self.packet(number), survey.of[number] << BITS
            low, high = survey.lows[number], survey.highs[number]
            if packet.offset in survey.segments.firsts:  # all segments of a message are at its instant
                low = high = survey.lows[bisect_left(survey.places, survey.segments.firsts[packet.offset])]
            elif low > high:
                low = high = survey.own_instant(number)
            if low == high or within.is_all:
                yield number, packet, [low] if within.has(low) else []
            else:
                yield number, packet, [base + count for count in counts(packet) if within.has(base + count)]

    def times_of(self) -> Set[int]:
        """Of each stretch of a range, in each session, the place of the time that holds where it begins: the last one before that,
        or else the session's first one, of those that the clock goes by."""
        survey, within = self.survey, self.within
        if survey.clock is None:
            return set()
        first: Dict[Tuple[int, int], int] = {}  # of each session and stretch the first instant
        for number, packet, instants in self.instants(self.touched().tolist()):
            run = survey.sessions.run_of(survey.of[number])
            for instant in instants if packet.kind not in (SETUP, STREAMING, INDEX) else ():
                key = run, within.stretch(instant)
                first[key] = min(first.get(key, instant), instant)
        held = [(survey.clock.told[run], low) for (run, _), low in first.items() if run in survey.clock.told]
        return {told[max(bisect_right(told, (low, 1 << 64)) - 1, 0)][1] for told, low in held}

    def write(self, out: Output) -> None:
        """Writes them, with the loss reports that stand before them."""
        begin, setups = self.begin, set(self.survey.setups)
        for number, packet, instants in self.instants(self.numbers):
            if loss_of(packet) or packet.kind == INDEX:
                continue
            if number in setups or packet.offset in self.times or instants:
                at = packet.offset
                if number:
                    before = self.packet(number - 1)
                    if loss_of(before) and before.offset + before.length == at:
                        at = before.offset
                out.write(self.data[begin + at:begin + packet.offset + packet.length])


def has(files: List[File]) -> str:
    """The names of an image's files, the first ten of them."""
    names = [shown(file.name) for file in files[:10]]
    more = ' and %d more' % (len(files) - 10) if len(files) > 10 else ''
    return ': the image has %s%s' % (', '.join(names), more) if names else ': the image has none'


def as_file(asked: Namespace, data: Data, out: Output) -> None:
    """`ch10 file`: the bytes of one file of an image."""
    if (asked.name is None) == (asked.file is None):
        raise Wrong('file takes a NAME, or --file N; see ch10 file --help')
    if is_recording(data):
        raise Fault('the input is a recording and no image: it has no files')
    _, files = listed(data)
    if asked.name is None:
        file = the_file(files, asked.file)
    else:
        named = [file for file in files if file.name == asked.name]
        if not named:
            raise Fault('no file has the name %s%s' % (shown(asked.name[:60]), has(files)))
        file = named[0]
    begin, end = bytes_of(data, file)
    for at in range(begin, end, 1 << 20):
        out.write(data[at:min(at + (1 << 20), end)])
        let_go(data, at, min(at + (1 << 20), end))
