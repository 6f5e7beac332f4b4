"""What a walk over a recording found, kept beside it as FILE.idx. The next call that asks for a range of time reads that, and of
the recording what it needs.

The file is a line with its form and version, three numbers of 64 bits (how many bytes of JSON follow, how many of columns, and the
CRC-32 of both), the JSON, and the columns, each at a multiple of eight bytes. Numbers are in the byte order of the machine, which
the line names. The JSON has what `ch10.survey.Survey` finds but for what each packet has: that is the columns.

It is of a recording only while size, time of change and a sample of bytes are the same. What is wrong with it, or is of another
file, is no error: the recording is walked anew, and the file made anew. So is what cannot be read or written.
"""
from __future__ import annotations

import hashlib
import json
import os
import sys
import tempfile
import zlib
from argparse import Namespace
from array import array
from bisect import bisect_left
from typing import Iterable, Iterator, List, Optional

from .clocks import Asked, Told, TimeLine, Timing, asked_of
from .columns import NONE
from .inputs import Source
from .log_lines import Line, Log
from .own_index import by_own_index
from .packets import Stretch, packet_at
from .parallel import jobs_of
from .segments import Segments
from .standard import Data, Facts, Fault, Value
from .survey import Row, StatesBefore, Survey
from .times import Time
from .tmats import Names

FORM = b'ch10 index 1 %s\n' % sys.byteorder.encode()
LEAST = 8 << 20  # bytes of a recording below which a walk takes less than a second, and nothing is kept
SAMPLES, EACH = 64, 4096  # places of a recording that its sample is of, and how many bytes at each
END = 65536  # bytes at its begin and at its end that the sample has too
MOST_SUMMED = 16 << 20  # bytes of packets whose data checksums are looked at again
COLUMNS = (('lows', 'Q'), ('highs', 'Q'), ('places', 'Q'), ('of', 'I'), ('state_numbers', 'I'), ('state_before', 'q'))
ROW = ('packets', 'entries', 'bytes', 'losses', 'lost', 'untold', 'jumps', 'opaque', 'bad', 'doubled', 'after', 'told')
WHOLE = ('size', 'out_of_step', 'begins_with_setup', 'setups', 'log_remarks')


class Stale(Exception):
    """An index that is not that of the recording, or that is damaged."""


def surveyed(words: Namespace, data: Data, begin: int, end: int, is_walked: bool = False) -> Survey:
    """What has to be known of a recording for the range of time that a call asks for: from the index beside it, or else by its own
    index where that is whole. Where neither does, or it is to be walked anew, it is walked, and its index kept."""
    goes_on, number, asked = words.keep_going, words.file, asked_of(words)
    if words.walk or words.first is None and words.last is None or end - begin < LEAST:
        return Survey(data, begin, end, goes_on, asked=asked, jobs=jobs_of(words.jobs, end - begin))
    source: Optional[Source] = words.source
    found = None if is_walked or source is None else from_file(source, data, begin, end, goes_on, number, asked)
    if found is None and not is_walked:
        found = by_own_index(data, begin, end, asked, words.first, words.last)
    if found is not None:
        return found
    made = Survey(data, begin, end, goes_on, asked=asked, jobs=jobs_of(words.jobs, end - begin))
    if source is not None:
        write(made, data, begin, end, source, number, goes_on or made.fault is None)
    return made


def from_file(source: Source, data: Data, begin: int, end: int, goes_on: bool, number: Optional[int],
              asked: Asked) -> Optional[Survey]:
    """What the index beside a recording keeps of it."""
    for is_whole in (True, False)[:1 + (not goes_on)]:
        found = read(source.beside(number, is_whole), data, begin, end, source, is_whole, asked)
        if found is not None and (found.fault is None or goes_on == is_whole):
            return found
    return None


def sample(data: Data, begin: int, end: int) -> str:
    """A sum of bytes of a recording: those at its begin and its end, and some at places between."""
    made = hashlib.sha256(bytes(data[begin:min(begin + END, end)]))
    for place in range(SAMPLES):
        at = begin + (end - begin) * place // SAMPLES
        made.update(data[at:min(at + EACH, end)])
    made.update(data[max(begin, end - END):end])
    return made.hexdigest()


# ---- writing

def write(survey: Survey, data: Data, begin: int, end: int, source: Source, number: Optional[int], is_whole: bool) -> None:
    """Writes the index of a recording, whole or not at all."""
    path = source.beside(number, is_whole)
    before = survey.states_before()
    columns = dict(lows=survey.lows, highs=survey.highs, places=survey.places, of=survey.of,
                   state_numbers=array('I', before), state_before=array('q', (
                       NONE if state is None else state for state in before.values())))
    found = dict(head_of(data, begin, end, source, is_whole), columns={name: len(column) for name, column in columns.items()},
                 survey=fields(survey))
    text = json.dumps(found).encode()
    text += b' ' * (-len(text) % 8)
    parts = [text]
    for name, _ in COLUMNS:
        part = columns[name].tobytes()
        parts.append(part + bytes(-len(part) % 8))
    total = 0
    for part in parts:
        total = zlib.crc32(part, total)
    front = FORM.ljust(32) + b''.join(one.to_bytes(8, 'little') for one in (len(text), sum(map(len, parts[1:])), total))
    held = None
    try:
        with tempfile.NamedTemporaryFile(dir=os.path.dirname(path) or '.', prefix='.ch10-', delete=False) as made:
            held = made.name
            for part in [front] + parts:
                made.write(part)
        os.chmod(held, os.stat(source.path).st_mode & 0o666)
        os.replace(held, path)
        held = None
    except OSError:
        pass  # the next call walks the recording anew
    finally:
        if held is not None:
            try:
                os.unlink(held)
            except OSError:
                pass


def head_of(data: Data, begin: int, end: int, source: Source, is_whole: bool) -> Facts:
    """What an index has to have so that it is that of a recording, and of a walk to its end or to its first fault."""
    return dict(size=source.size, changed=source.changed, begin=begin, end=end, whole=is_whole, sample=sample(data, begin, end))


def fields(survey: Survey) -> Facts:
    """What a survey found, but for columns, as JSON takes it."""
    fault = survey.fault
    return dict(
        {name: getattr(survey, name) for name in WHOLE},
        fault=fault and [fault.what, fault.offset, fault.length, fault.whose],
        damage=[list(stretch) for stretch in survey.damage], passed=list(survey.passed.items()), spans=survey.spans,
        setup=text_of(survey.setup), streaming=text_of(survey.streaming),
        starts=survey.sessions.starts, wraps=survey.sessions.wraps, segments=list(survey.segments.whole.values()),
        rows=[[row.channel, row.kind, [getattr(row, name) for name in ROW], list(row.packed.items()), list(row.entered.items()),
               list(row.unread.items())] for row in survey.rows],
        lines=[line_fields(line) for line in survey.timing.lines.values()], headers=line_fields(survey.timing.headers),
        log=[[channel, [list(line) for line in lines]] for channel, lines in survey.log.lines.items()],
        others=sorted(survey.log.others))


def text_of(octets: Optional[bytes]) -> Optional[str]:
    """Bytes as a text that JSON takes, a letter for each."""
    return None if octets is None else octets.decode('latin-1')


def octets_of(text: Optional[str]) -> Optional[bytes]:
    """The bytes of such a text."""
    return None if text is None else text.encode('latin-1')


def line_fields(line: TimeLine) -> List[Value]:
    """The times of a channel as JSON takes them."""
    told = line.told if line.plain is None else line.plain
    return [line.channel, line.packets, line.invalid, line.has_lock, line.passed, line.day, list(line.leaps.items()),
            [[one.instant, list(one.said), one.offset, one.is_out, one.passed] for one in told]]


# ---- reading

def read(path: str, data: Data, begin: int, end: int, source: Source, is_whole: bool, asked: Asked) -> Optional[Survey]:
    """What the index at a path keeps of a recording. None where there is no such file, or it is not that of the recording."""
    try:
        with open(path, 'rb') as held:
            octets = held.read()
    except OSError:
        return None
    try:
        if octets[:32] != FORM.ljust(32):
            raise Stale
        text, size, total = (int.from_bytes(octets[at:at + 8], 'little') for at in (32, 40, 48))
        body = memoryview(octets)[56:]
        if len(body) != text + size or zlib.crc32(body) != total:
            raise Stale
        found = json.loads(bytes(body[:text]))
        head = head_of(data, begin, end, source, is_whole)
        if any(found[name] != value for name, value in head.items()):
            raise Stale
        return KeptSurvey(found, body[text:], data, begin, asked)
    except (Stale, ValueError, KeyError, TypeError, IndexError):
        return None


class KeptSurvey(Survey):
    """A survey as an index keeps it."""

    def __init__(self, found: Facts, columns: memoryview, data: Data, begin: int,  # pylint: disable=super-init-not-called
                 asked: Asked) -> None:
        held = found['survey']
        for name in WHOLE:
            setattr(self, name, held[name])
        self.fault = fault_of(held['fault'])
        self.damage = [Stretch(*stretch) for stretch in held['damage']]
        self.passed = {offset: length for offset, length in held['passed']}
        self.spans = [(low, high) for low, high in held['spans']]
        self.setup, self.streaming = octets_of(held['setup']), octets_of(held['streaming'])
        at = 0
        views: Facts = {}
        for name, form in COLUMNS:
            size = found['columns'][name] * array(form).itemsize
            views[name] = columns[at:at + size].cast(form)
            at += size + -size % 8
        self.lows, self.highs, self.places, self.of = (views[name] for name in ('lows', 'highs', 'places', 'of'))
        self.before = Before(views['state_numbers'], views['state_before'])
        self.states = []
        self.timing = Timing()
        self.sessions = self.timing.sessions
        self.sessions.starts, self.sessions.wraps = held['starts'], held['wraps']
        for line in map(line_of, held['lines']):
            self.timing.lines[line.channel] = line
        self.timing.headers = line_of(held['headers'])
        self.segments = Segments(data, begin)
        for places in held['segments']:
            self.segments.whole[places[0]] = tuple(places)
            self.segments.firsts.update(dict.fromkeys(places, places[0]))
        self.rows = [row_of(*row) for row in held['rows']]
        self.by_key = {(row.channel, row.kind): row for row in self.rows}
        self.log = Log()
        self.log.lines = {channel: [Line(*line) for line in lines] for channel, lines in held['log']}
        self.log.others = set(held['others'])
        self.names = Names(self.streaming if self.setup is None else self.setup)
        self.times = list(self.timing.lines.values())
        self.clock = self.timing.clock(asked, self.names.attributes)

    def states_before(self) -> StatesBefore:
        return self.before

    def agrees(self, data: Data, begin: int, numbers: Iterable[int]) -> bool:
        """Whether packets stand in the recording as the index has them, by their numbers: whether their headers are right, and end
        where the next one begins; and of some megabytes of them, whether their checksums are right."""
        left, end = MOST_SUMMED, begin + self.size
        for number in numbers:
            at = self.places[number]
            try:
                packet = packet_at(data, begin + at, begin, end, True, left > 0, left <= 0)
            except Fault:
                return False
            following = self.places[number + 1] if number + 1 < len(self.places) else self.size
            if at + packet.length != following and at + packet.length not in self.passed:
                return False
            left -= packet.length
        return True


class Before(StatesBefore):
    """What has to be known before packets, by their numbers, as an index keeps it: two columns."""

    def __init__(self, numbers: memoryview, states: memoryview) -> None:
        self.numbers, self.held = numbers, states

    def __getitem__(self, number: int) -> Optional[int]:
        place = bisect_left(self.numbers, number)
        if place == len(self.numbers) or self.numbers[place] != number:
            raise KeyError(number)
        return None if self.held[place] == NONE else self.held[place]

    def __iter__(self) -> Iterator[int]:
        return iter(self.numbers)

    def __len__(self) -> int:
        return len(self.numbers)


def fault_of(held: Optional[List[Value]]) -> Optional[Fault]:
    """A fault, of what JSON has of it."""
    if held is None:
        return None
    what, offset, length, whose = held
    return Fault(what, offset, length, None if whose is None else (whose[0], whose[1], whose[2], whose[3]))


def line_of(held: List[Value]) -> TimeLine:
    """The times of a channel, of what JSON has of them."""
    line = TimeLine(held[0])
    line.packets, line.invalid, line.has_lock, line.passed, line.day = held[1:6]
    line.leaps = {year: is_leap for year, is_leap in held[6]}
    line.told = [Told(instant, Time(*said), offset, is_out, passed) for instant, said, offset, is_out, passed in held[7]]
    return line


def row_of(channel: int, kind: int, numbers: List[int], packed: List, entered: List, unread: List) -> Row:
    """A row of a channel, of what JSON has of it."""
    row = Row(channel, kind)
    for name, value in zip(ROW, numbers):
        setattr(row, name, value)
    row.packed = {session: span for session, span in packed}
    row.entered = {session: span for session, span in entered}
    row.unread = {why: number for why, number in unread}
    return row
