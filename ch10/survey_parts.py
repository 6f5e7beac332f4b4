"""One pass over a recording by several processes: each goes over parts that begin at packets, as far as the standard's plain case
goes, and this process puts together what they found, in the order of the recording.

What a process finds of a part is taken where it is what this one would find there: the part begins at the packet that comes next,
has no fault, no setup and no new session, and each channel goes on in it by sequence number and counter. This process goes itself
over any other part, as one process alone does. So what comes of it is the same, byte for byte.
"""
from __future__ import annotations

import gc
import os
import pickle
from typing import Dict, Iterator, List, NamedTuple, Optional, Tuple

from .arrays import numpy
from .clocks import BITS, COUNTLESS, LEAST_BACK, Sessions, Timing
from .columns import wide_view
from .log_lines import MESSAGE, Line, Log
from .packets import FIRST_ROW, PATTERN, head_at, loss_of, packet_at
from .parallel import LIMIT, made_in_order
from .standard import LOSS, Data, Key, find
from .survey import REPORT_ROW, UNREAD, Row, Survey
from .times import Time
from .walk import FIELDS

LEAST_PART, MOST_PART = 2 << 20, 32 << 20  # bytes of a part
EACH = 4  # parts for each process: one that takes longer keeps the others from no work
Said = Tuple[int, int, Time, int, int]  # of a time packet: channel, counter, time, offset, flags


class Otherwise(Exception):
    """What a process does not decide by its part alone."""


class OneSession(Sessions):
    """Those of a part, which has one alone."""

    def is_anew(self, counter: int, before: int, goes_on: bool) -> bool:
        if self.is_after_setup or counter < before - LEAST_BACK:
            raise Otherwise
        return False


class Noted(Timing):
    """The times of a part, as they were said."""

    def __init__(self) -> None:
        Timing.__init__(self)
        self.sessions = OneSession()
        self.said: List[Said] = []
        self.of_headers: List[Tuple[int, Time, int]] = []

    def add(self, channel: int, instant: int, said: Time, offset: int, flags: int) -> None:
        self.said.append((channel, instant, said, offset, flags))

    def add_header(self, instant: int, said: Optional[Time], offset: int) -> None:
        if said is not None:
            self.of_headers.append((instant, said, offset))


class PartLog(Log):
    """The lines of a part. What is known of channels before it is known here."""

    def __init__(self, known: Log) -> None:
        Log.__init__(self)
        self.known = frozenset(known.others)
        self.others = set(known.others)
        self.lines = {channel: [] for channel in known.lines}


class Found(NamedTuple):
    """What a part has. Its instants are counts.

    .begin, .end    from where to where it goes
    .first, .last   the counters of its first packet and of its last one
    .lost           whose row counts a loss before the first packet, of which a report may stand before the part; or None
    .sequences      of each channel the first sequence number, and the one that comes after its last packet
    .counters       of each channel and type whose counters go on the first counter and the highest one, by the key of `Sessions`
    .following      by the same key the sequence number that comes next; .latest, of each channel where its last packet stands
    .rows           a `Row` of each channel and type
    .held           of packets at its end whose session is that of what comes next: the row's key, number, counter, and jump or not
    .report         the loss report that is its last packet, or None
    .lows, .highs, .places, .states    of its packets, as in a `Survey`; numbers count from the part's first packet
    .said, .of_headers    the times of time packets, and of secondary headers
    .lines, .others       what `Log` keeps of its channels of messages
    .whole, .open         messages in segments: those that are whole, and those that go on after it
    """
    begin: int
    end: int
    first: int
    last: int
    lost: Optional[Key]
    sequences: Dict[int, Tuple[int, int]]
    counters: Dict[int, Tuple[int, int]]
    following: Dict[int, int]
    latest: Dict[int, int]
    rows: List[Row]
    held: List[Tuple[Key, int, int, bool]]
    report: Optional[Tuple[int, int]]
    out_of_step: int
    lows: bytes
    highs: bytes
    places: bytes
    states: List[Tuple[int, int, int]]
    said: List[Said]
    of_headers: List[Tuple[int, Time, int]]
    lines: Dict[int, List[Line]]
    others: List[int]
    whole: List[Tuple[int, ...]]
    open: Dict[int, Tuple[List[int], int, int]]


# ---- where parts begin

def starts_of(data: Data, begin: int, end: int, size: int) -> List[int]:
    """Places at which parts of about a size begin, but for the first one: at each some packets follow one another. Where there are
    none the part before is longer."""
    found: List[int] = []
    for target in range(begin + size, end, size):
        place = find(data, PATTERN, target, min(target + size, end))
        while place >= 0 and not is_start(data, place, end):
            place = find(data, PATTERN, place + 1, min(target + size, end))
        if place > (found[-1] if found else begin):
            found.append(place)
    return found


def is_start(data: Data, place: int, end: int) -> bool:
    """Whether so many packets follow one another from a place on, or lead to the end."""
    for _ in range(FIRST_ROW):
        head = head_at(data, place, end)
        if head is None:
            return False
        place += head.length
        if place == end:
            return True
    return True


# ---- in a process of its own

class PartSurvey(Survey):
    """A pass over one part. What was known of the log's channels before the first part is known in it."""

    def __init__(self, of: Survey, at: int, limit: int) -> None:  # pylint: disable=super-init-not-called
        self.noted = Noted()
        self.prepare(of.data, of.begin, of.end, self.noted)
        self.log = self.part_log = PartLog(of.log)
        self.at = at
        self.go_to(limit, False)

    def found(self, at: int) -> Found:
        """What it found from a place on. Otherwise where a fault is in it, or a setup."""
        if self.fault is not None or self.setups or not len(self.places):
            raise Otherwise
        places = numpy.frombuffer(self.places, numpy.uint64).astype(numpy.int64) + (self.begin - at)
        heads = wide_view(numpy.frombuffer(self.data, numpy.uint8, self.at - at, at), 24)[places].view(FIELDS)
        counters = heads['low'].astype(numpy.int64) | heads['high'].astype(numpy.int64) << 32
        channels, first = numpy.unique(heads['channel'], return_index=True)
        sequences = {channel: (sequence, self.sequences[channel])
                     for channel, sequence in zip(channels.tolist(), heads['sequence'][first].tolist())}
        groups, first = numpy.unique(heads['channel'].astype(numpy.int64) << 8 | heads['kind'], return_index=True)
        firsts = {key: (counter, self.sessions.last[key])
                  for key, counter in zip(groups.tolist(), counters[first].tolist()) if key & 0xFF not in COUNTLESS}
        one, lost = packet_at(self.data, at, self.begin, self.end, False), None
        if one.flags & 0x10:
            lost = one.channel, REPORT_ROW if loss_of(one) else one.kind
        keys = {id(row): key for key, row in self.by_key.items()}
        log = self.part_log
        return Found(
            at, self.at, int(counters[0]), int(counters[-1]), lost, sequences, firsts, self.sessions.next, self.latest,
            list(self.by_key.values()),
            [(keys[id(row)], number, counter, is_jump) for row, number, counter, is_jump in self.held], self.report,
            self.out_of_step, self.lows.tobytes(), self.highs.tobytes(), self.places.tobytes(), self.states, self.noted.said,
            self.noted.of_headers, log.lines, sorted(log.others - log.known), list(self.segments.whole.values()),
            self.segments.open)


def found_in(survey: Survey, at: int, limit: int) -> Optional[Found]:
    """What stands between two places, or None where the process that puts it together has to look itself."""
    try:
        return PartSurvey(survey, at, limit).found(at)
    except Otherwise:
        return None


# ---- put together

def walked(survey: Survey, goes_on: bool, jobs: int) -> None:
    """Goes over a recording by so many processes, at most."""
    size = min(max((survey.end - survey.begin) // (jobs * EACH), LEAST_PART), MOST_PART)
    starts = starts_of(survey.data, survey.begin, survey.end, size)
    if not starts or not hasattr(os, 'fork'):
        survey.go_to(survey.end, goes_on)
        return
    survey.go_to(starts[0], goes_on)
    if survey.fault and not goes_on:
        return
    limits = starts[1:] + [survey.end]

    def made(part: Tuple[int, int]) -> Iterator[bytes]:
        gc.disable()
        yield pickle.dumps(found_in(survey, *part), pickle.HIGHEST_PROTOCOL)

    for limit, pieces in zip(limits, made_in_order(made, list(zip(starts, limits)), min(jobs, LIMIT))):
        found: Optional[Found] = pickle.loads(b''.join(pieces))
        if found is not None and takes(survey, found):
            take(survey, found)
        else:
            survey.go_to(limit, goes_on)
        if survey.fault and not goes_on:
            break


def takes(survey: Survey, found: Found) -> bool:
    """Whether this process would find the same in a part."""
    sessions, log = survey.sessions, survey.log
    return (found.begin == survey.at and not sessions.is_after_setup and not sessions.wraps
            and all(survey.sequences.get(channel, first) == first for channel, (first, _) in found.sequences.items())
            and all(sessions.last.get(key, -1) <= first for key, (first, _) in found.counters.items())
            and not any(row.channel in survey.segments.open for row in found.rows if row.kind == MESSAGE)
            and not any(channel in log.lines for channel in found.others))


def take(survey: Survey, found: Found) -> None:
    """Adds what a part has to what came before it."""
    base, number = survey.sessions.base, len(survey.lows)
    if survey.spans and survey.spans[-1][1] is None:
        survey.close_spans(found.first + base)
    if survey.held and found.counters:
        survey.settle(base)
    rows = {(row.channel, row.kind): row for row in found.rows}
    if found.lost and survey.report and survey.report[0] == found.lost[0]:
        rows[found.lost].lost += survey.report[1] - 1
        rows[found.lost].untold -= 1
    for key, row in rows.items():
        survey.row_of(*key).take(row, base)
        survey.resync.note(row.channel, LOSS if row.kind == REPORT_ROW else row.kind, found.sequences[row.channel][1] - 1 & 0xFF)
    survey.held += [(survey.by_key[key], number + place, counter, is_jump) for key, place, counter, is_jump in found.held]
    survey.sequences.update((channel, after) for channel, (_, after) in found.sequences.items())
    survey.sessions.last.update((key, highest) for key, (_, highest) in found.counters.items())
    survey.sessions.next.update(found.following)
    survey.latest.update(found.latest)
    survey.out_of_step += found.out_of_step
    survey.states += [(number + place, channel, state) for place, channel, state in found.states]
    add_columns(survey, found, base)
    for channel, counter, said, offset, flags in found.said:
        survey.timing.add(channel, counter + base, said, offset, flags)
    for counter, said, offset in found.of_headers:
        survey.timing.add_header(counter + base, said, offset)
    survey.log.others.update(found.others)
    for channel, lines in found.lines.items():
        if channel not in survey.log.others:
            survey.log.lines.setdefault(channel, []).extend(lines)
    for places in found.whole:
        survey.segments.whole[places[0]] = places
        survey.segments.firsts.update(dict.fromkeys(places, places[0]))
    survey.segments.open.update(found.open)
    survey.at, survey.report, survey.last = found.end, found.report, found.last + base


def add_columns(survey: Survey, found: Found, base: int) -> None:
    """Adds the columns of a part's packets, and with them the number of their session."""
    if base:
        lows, highs = (numpy.frombuffer(column, numpy.uint64) for column in (found.lows, found.highs))
        has, by = lows < UNREAD, numpy.uint64(base)
        survey.lows.frombytes(numpy.where(has, lows + by, lows).tobytes())
        survey.highs.frombytes(numpy.where(has, highs + by, highs).tobytes())
    else:
        survey.lows.frombytes(found.lows)
        survey.highs.frombytes(found.highs)
    survey.places.frombytes(found.places)
    survey.of.frombytes(numpy.full(len(found.places) // 8, base >> BITS, numpy.uint32).tobytes())
