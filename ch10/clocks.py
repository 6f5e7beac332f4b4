"""The one model of time of all commands: sessions of the counter, what time channels say, and the civil time of each count.

A recorder that was switched off, or files that were put one after the other, have the counter begin anew: such a part is a session.
Sessions are told by their place in the recording. An instant is a count with the number of its session above it, as one number: so
instants are in the order of what happened, and a recording of one session has its counts as its instants.
"""
from __future__ import annotations

import datetime
import re
from bisect import bisect_right
from collections import namedtuple
from typing import Dict, Iterable, Iterator, List, Mapping, NamedTuple, Optional, Sequence, Tuple

from .standard import COUNT_BITS, INDEX, LOSS, SETUP, STREAMING, Fault, Words
from .times import ASSUMED, DAY, FREE, LOCKED, SECOND, Time, civil

LEAST = 200000  # a jump is more than 20 ms, as times are in hundredths of a second,
MOST_DRIFT = 2000  # and more than one part in 2,000 of what passed
SURE = 100000  # times are told to 10 ms
ANEW = COUNT_BITS + 1  # at which the counter begins anew
BITS = 48  # of a count; the bits above them are the session's number
LEAST_BACK = 2 * SECOND  # a channel's packets come in order: a step back by more is no order of writing
MOST_OVER = 600 * SECOND  # between the last count before 2^48 and the first one after it
LAST_DAY = datetime.date.max.toordinal()
HEADERS = -1  # in place of a channel: the times of secondary headers
MOST_SESSIONS = 1 << 12  # more are none: the counter of such a recording tells nothing
COUNTLESS = (LOSS, SETUP, INDEX, STREAMING)  # types of what a computer makes, whose counters need not go on

Jump = namedtuple('Jump', 'offset instant before after by')
Jump.__doc__ = """A jump of a clock: where the time packet stands, its instant, the time that was to come by the counter since the \
time before, the time that came, and
by how much they differ. All in units of 100 ns; a step back is a time that came before the one before it."""


# ---- sessions

class Sessions:
    """The sessions of a recording, while it is gone over packet by packet.

    .starts   of each session the offset of the packet that shows it; of the first one 0
    .wraps    those sessions, by their numbers, that go on where the one before ended, as the 48 bits of the counter were full

    A session begins where a channel's counter goes back by more than two seconds, and other channels had come as far, or there is
    no other, or its sequence number does not go on either; or, after a setup, where it goes back at all. Types whose counters need
    not go on are of the session of what comes after them.
    """

    def __init__(self) -> None:
        self.starts: List[int] = [0]
        self.wraps: List[int] = []
        self.base = 0
        self.last: Dict[int, int] = {}  # of each channel and type the highest counter of the session
        self.next: Dict[int, int] = {}  # and the sequence number that comes next
        self.is_after_setup = False

    def base_of(self, channel: int, kind: int, counter: int, sequence: int, offset: int) -> Optional[int]:
        """The instant of count 0 of the packet's session; None of a type that is of the session of what comes next."""
        if kind in COUNTLESS:
            self.is_after_setup |= kind == SETUP and bool(self.last)
            return None
        key = channel << 8 | kind
        before = self.last.get(key, -1)
        if self.wraps and counter >> BITS - 1 and self.wraps[-1] == self.base >> BITS:
            return self.base - ANEW  # a packet that was written late
        if counter < before or self.is_after_setup:
            if self.is_anew(counter, before, self.next.get(key) == sequence):
                top = max(self.last.values())
                if ANEW - MOST_OVER < top - counter < ANEW:
                    self.wraps.append(len(self.starts))
                self.base = len(self.starts) << BITS
                self.starts.append(offset)
                self.last = {}
                before = -1
            self.is_after_setup = False
        if counter > before:
            self.last[key] = counter
        self.next[key] = sequence + 1 & 0xFF
        return self.base

    def is_anew(self, counter: int, before: int, goes_on: bool) -> bool:
        """Whether a packet begins a session, after the highest counter of its channel so far, -1 for none; and whether its sequence
        number goes on."""
        if len(self.starts) >= MOST_SESSIONS:
            return False
        if self.is_after_setup:
            return counter < before or bool(self.last) and counter < max(self.last.values()) - LEAST_BACK and before < 0
        if counter >= before - LEAST_BACK:
            return False
        return not goes_on or len(self.last) == 1 or sum(last > counter + LEAST_BACK for last in self.last.values()) > 1

    def number(self) -> int:
        """How many sessions there are by now."""
        return len(self.starts)

    def run_of(self, session: int) -> int:
        """The session that a session goes on from, where the counter's bits were full between them; else itself."""
        while session in self.wraps:
            session -= 1
        return session


# ---- what a time channel says

class Told(NamedTuple):
    """A time packet that tells a time: its instant, its time, where it stands, whether its header says that the counter is out of
    step (packet flags, bit 5), and, where times have no year, how many New Years passed since the first one."""
    instant: int
    said: Time
    offset: int
    is_out: bool = False
    passed: int = 0


class TimeLine:
    """The times of one channel, in their order.

    .packets   how many time packets; .invalid, how many of them say that they are none
    .told      a `Told` of each that tells a time; .plain, the same before years were given to those that have none
    """

    def __init__(self, channel: int) -> None:
        self.channel, self.packets, self.invalid = channel, 0, 0
        self.told: List[Told] = []
        self.plain: Optional[List[Told]] = None
        self.has_lock = False  # whether some packet has lock bits, which recorders of older editions do not write
        self.passed = self.day = 0  # New Years since the first time, where times have no year; and the last one's day
        self.leaps: Dict[int, bool] = {}  # of each year from that one on whether it has 366 days, as a packet tells
        self.sessions: Optional[Sessions] = None

    def add(self, instant: int, said: Time, offset: int, flags: int = 0) -> None:
        """Takes note of a time packet: its instant, its time, its offset, and the flags of its header."""
        self.packets += 1
        self.has_lock |= said.has_lock
        if said.quality == 0:
            self.invalid += 1
        elif said.ticks is not None:
            if not said.dated:
                self.pass_years(said)
            self.told.append(Told(instant, said, offset, flags & 0x20 != 0, self.passed))

    def pass_years(self, said: Time) -> None:
        """Takes note of a New Year between two times without a year, and of how many days the year has."""
        day = (said.ticks - SECOND * said.is_leap) // DAY
        self.passed += (day < self.day - 300) - (day > self.day + 300) if self.day else 0
        self.day = day
        self.leaps[self.passed] = self.leaps.get(self.passed, False) or said.is_leap_year or day == 366

    def settle(self, sessions: Sessions, first: Optional[int] = None) -> None:
        """Gives times without a year their year; the first one has this one."""
        self.sessions = sessions
        self.plain = self.told if self.plain is None else self.plain
        dated = self.is_dated()
        self.told = [told for told in self.told if told.said.dated == dated]
        if first is not None:
            before = {passed: DAY * (datetime.date(min(max(first + passed, 1), 9999), 1, 1).toordinal() - 1)
                      for passed in self.leaps}
            self.told = [told._replace(said=told.said._replace(ticks=told.said.ticks + before[told.passed])) for told in self.told]

    def like_year(self) -> int:
        """A year whose days, and those of the years after it, are as many as the packets say, as far as the next year."""
        return 2000 if self.leaps.get(0) else 1999 if self.leaps.get(1) else 2001

    def is_dated(self) -> bool:
        """Whether its times have a date: as the first one has."""
        return bool(self.told) and self.told[0].said.dated

    def quality(self, told: Told) -> int:
        """FREE or LOCKED: of an external source without lock bits it is taken for locked, where no packet of the channel has
        some."""
        if told.said.quality == ASSUMED:
            return FREE if self.has_lock else LOCKED
        return told.said.quality

    def locked(self) -> int:
        """How many of its times were of a locked clock."""
        return sum(self.quality(told) == LOCKED for told in self.told)

    def out(self) -> int:
        """How many of its times have a counter that is out of step."""
        return sum(told.is_out for told in self.told)

    def steps(self) -> Iterator[Tuple[int, int, int, int, int, int]]:
        """From each time to the next one of a session: the two, what passed by the counter, by how much they differ, and the
        second's instant and place. After a second 60 the time is the same again, which is no difference."""
        for told, then in zip(self.told, self.told[1:]):
            if self.run(told.instant) == self.run(then.instant):
                past, ticks = then.instant - told.instant, then.said.ticks
                if told.said.is_leap and not then.said.is_leap:
                    yield told.said.ticks - SECOND, ticks, past, ticks + SECOND - told.said.ticks - past, then.instant, then.offset
                else:
                    yield told.said.ticks, ticks, past, ticks - told.said.ticks - past, then.instant, then.offset

    def by_session(self) -> Dict[int, List[Told]]:
        """The times of each session; sessions between which the counter's bits were full are one."""
        found: Dict[int, List[Told]] = {}
        for told in self.told:
            found.setdefault(self.run(told.instant), []).append(told)
        return found

    def run(self, instant: int) -> int:
        """The session of an instant; one that goes on from another is that."""
        return instant >> BITS if self.sessions is None else self.sessions.run_of(instant >> BITS)

    def wraps(self) -> int:
        """How often the counter's bits were full between two times."""
        return sum(told.instant >> BITS != then.instant >> BITS and self.run(told.instant) == self.run(then.instant)
                   for told, then in zip(self.told, self.told[1:]))

    @staticmethod
    def is_jump(past: int, by: int) -> bool:
        """Whether a time that differs by so much after so many counts, both of 100 ns, is a jump."""
        return abs(by) > max(LEAST, abs(past) // MOST_DRIFT) or past < 0

    def jumps(self) -> List[Jump]:
        """The jumps of the clock, in order."""
        return [Jump(offset, after, then - by, then, by) for ticks, then, past, by, after, offset in self.steps()
                if self.is_jump(past, by)]

    def steps_back(self) -> int:
        """How many times are before the one before them."""
        return sum(then < ticks for ticks, then, _, _, _, _ in self.steps())

    def drift(self) -> Optional[Tuple[float, float]]:
        """By how many parts in a million the clock is faster than the counter, and how far off that may be; None where less than 10
        seconds tell it."""
        past = sum(past for _, _, past, by, _, _ in self.steps() if not self.is_jump(past, by))
        more = sum(by for _, _, past, by, _, _ in self.steps() if not self.is_jump(past, by))
        if past < 10 * SECOND:
            return None
        parts = 1 + len(self.jumps())
        return more * 10 ** 6 / past, SURE * parts * 10 ** 6 / past

    def without(self, ends: Sequence[Tuple[int, int]]) -> int:
        """How many whole seconds of some spans of instants have no time, where each second is to have one."""
        missed, by_session = 0, self.by_session()
        for low, high in ends:
            some = sorted(told.instant for told in by_session.get(self.run(low), ()))
            if not some:
                missed += (high - low) // SECOND
                continue
            missed += sum(max((then - instant + SECOND // 2) // SECOND - 1, 0) for instant, then in zip(some, some[1:]))
            missed += max(some[0] - low, 0) // SECOND + max(high - some[-1], 0) // SECOND
        return missed


# ---- what is asked of times

class Asked(NamedTuple):
    """What a call says of times.

    .channel    the time channel to go by (--time-channel), or None
    .year       the year of the first time, where times have none (--year), or None
    .from_end   whether times before the last jump of the clock are counted back from what comes after it (--time-from-end)
    .date       when the file was last written to, as a date, or None
    """
    channel: Optional[int] = None
    year: Optional[int] = None
    from_end: bool = False
    date: Optional[datetime.date] = None


NOTHING = Asked()


def asked_of(words: Words, date: Optional[datetime.date] = None) -> Asked:
    """What the words of a call say of times; the date is that of the file, where the words do not have it."""
    return Asked(getattr(words, 'time_channel', None), getattr(words, 'year', None), getattr(words, 'time_from_end', False),
                 date or getattr(words, 'date', None))


class Timing:
    """What a pass over a recording learns of time, and the clock that comes of it."""

    def __init__(self) -> None:
        self.sessions = Sessions()
        self.lines: Dict[int, TimeLine] = {}
        self.headers = TimeLine(HEADERS)

    def add(self, channel: int, instant: int, said: Time, offset: int, flags: int) -> None:
        """Takes note of a time packet."""
        if channel not in self.lines:
            self.lines[channel] = TimeLine(channel)
        self.lines[channel].add(instant, said, offset, flags)

    def add_header(self, instant: int, said: Optional[Time], offset: int) -> None:
        """Takes note of the time of a secondary header, of one each second."""
        told = self.headers.told
        if said is not None and (not told or not told[-1].instant <= instant < told[-1].instant + SECOND):
            self.headers.add(instant, said, offset)

    def clock(self, asked: Asked, attributes: Mapping[str, str]) -> Optional[Clock]:
        """The clock of the recording, or None where nothing tells a time: secondary headers do where no time packet does. A Fault
        where the channel that is asked for tells none."""
        lines = sorted((line for line in self.lines.values() if line.told), key=rank, reverse=True)
        if not lines and asked.channel is None and self.headers.told:
            lines = [self.headers]
            if self.headers.is_dated():
                self.headers.settle(self.sessions)
        if asked.channel is not None:
            lines = [line for line in lines if line.channel == asked.channel]
            if not lines:
                raise Fault('channel %d has no time packet that tells a time' % asked.channel)
        others = [line for line in self.lines.values() if line.told and line not in lines[:1]]
        year = None
        if lines and not lines[0].is_dated():
            year = year_of(lines[0], next((line for line in others if line.is_dated()), None), asked, attributes)
            lines[0].settle(self.sessions, year.number if year else lines[0].like_year())
        for line in self.lines.values():
            if line in others and not line.is_dated():
                line.settle(self.sessions, nearest(line, lines[0]) if lines else line.like_year())
            elif line.sessions is None:
                line.settle(self.sessions)
        return Clock(lines, self.sessions, asked.from_end, year) if lines else None


def rank(line: TimeLine) -> Tuple[int, int, int]:
    """How good a time channel is: locked for half of its times or more, or for some; of an external source; first in the
    recording."""
    locked = line.locked()
    return (2 if 2 * locked >= len(line.told) else int(locked > 0),
            int(2 * sum(told.said.is_external for told in line.told) >= len(line.told)), -line.told[0].offset)


# ---- the year, where times have none

class Year(NamedTuple):
    """The year of the first time: its number, what it comes from, and whether that is a guess."""
    number: int
    source: str
    is_guessed: bool


def year_of(line: TimeLine, dated: Optional[TimeLine], asked: Asked, attributes: Mapping[str, str]) -> Optional[Year]:
    """The year of a channel's first time: as the call says, or by a channel with dates, or as far as the dates of setup and file
    tell it. None where nothing does."""
    if asked.year is not None:
        return Year(asked.year, 'as --year says', False)
    if dated is not None:
        return Year(nearest(line, dated), 'by channel %d' % dated.channel, False)
    return guessed(line, setup_date(attributes), asked.date)


def nearest(line: TimeLine, other: TimeLine) -> int:
    """The year of a channel's first time, so that it is nearest to the time that another channel with years tells nearby."""
    first = line.told[0]
    then = min(other.told, key=lambda told: (told.instant >> BITS != first.instant >> BITS, abs(told.instant - first.instant)))
    middle = min(max(datetime.date.fromordinal(min(then.said.ticks // DAY, LAST_DAY)).year, 2), 9998)
    return min((middle, middle - 1, middle + 1), key=lambda year: abs(in_year(first.said, year) - then.said.ticks))


def in_year(said: Time, year: int) -> int:
    """A time without a year in units of 100 ns, in this one."""
    return said.ticks + (datetime.date(year, 1, 1).toordinal() - 1) * DAY


def guessed(line: TimeLine, after: Optional[datetime.date], before: Optional[datetime.date]) -> Optional[Year]:
    """The year in which the first time lies after the setup's date and before the file's, and which has as many days as the packets
    say: the last such year before the file's date, or else the first one after the setup's."""
    day = line.told[0].said.ticks // DAY
    low = after or before and before.replace(year=max(before.year - 40, 1), day=1)
    high = before or after and after.replace(year=min(after.year + 40, 9998), day=1)
    if low is None or high is None or low > high:
        return None
    years = [year for year in range(low.year - 1, high.year + 2)
             if 1 <= year <= 9998 and is_leap(year) == line.leaps.get(0, False)
             and low.toordinal() <= datetime.date(year, 1, 1).toordinal() + day <= high.toordinal() + 2]  # a day more or less
    if not years:
        return None
    if before:
        return Year(years[-1], "guessed by the file's date", True)
    return Year(years[0], "guessed by the setup's date", True)


def is_leap(year: int) -> bool:
    """Whether a year has 366 days."""
    return year % 4 == 0 and (year % 100 != 0 or year % 400 == 0)


def setup_date(attributes: Mapping[str, str]) -> Optional[datetime.date]:
    """The later of the dates that a setup text says it was made and revised on (G\\OD, G\\UD: month, day, year)."""
    found = []
    for code in ('G\\OD', 'G\\UD'):
        numbers = list(map(int, re.findall('[0-9]+', attributes.get(code, '')[:40])))
        if len(numbers) == 3:
            year, month, day = numbers if numbers[0] > 31 else (numbers[2], numbers[0], numbers[1])
            try:
                found.append(datetime.date(year, month, day))
            except (ValueError, OverflowError):
                pass
    return max(found) if found else None


# ---- the clock

UNKNOWN = -1 << 62  # what an instant's time is ahead of it where nothing tells its time: no calendar has that
QUALITY = {LOCKED: 'locked', FREE: 'free'}


class Piece(NamedTuple):
    """From which instant on, what the civil time is ahead of the instant, whether it is a second 60, and how good the time is."""
    start: int
    ahead: int
    is_leap: bool
    quality: str


class Clock:
    """The civil time of each instant: that of the last time of its session that isn't later, and of the first one before it.

    .channels   the channels whose times it goes by, the best one first; .channel, that one
    .dated      whether times have a date
    .year       where the year comes from, a `Year`; None where times have their own, or none
    .first      the first time that it goes by, in units of 100 ns
    .told       of each session the instants of the times that it goes by, in order, and where their packets stand
    .pieces     the pieces that it is made of, in the order of instants; .starts and .aheads are theirs, as lists

    Where no time packet of a session tells a time, its instants have none.
    """

    def __init__(self, lines: Sequence[TimeLine], sessions: Sessions, from_end: bool = False, year: Optional[Year] = None) -> None:
        self.dated, self.year = lines[0].is_dated() or year is not None, year
        self.pieces: List[Piece] = []
        self.told: Dict[int, List[Tuple[int, int]]] = {}
        by_session = [(line, line.by_session()) for line in lines]
        used: List[int] = []
        first: List[int] = []
        for session in range(sessions.number()):
            if session in sessions.wraps:
                continue
            chosen = next(((line, told[session]) for line, told in by_session if session in told), None)
            if chosen is None:
                self.pieces.append(Piece(session << BITS, UNKNOWN, False, ''))
                continue
            line, some = chosen
            if line.channel not in used:
                used.append(line.channel)
            if from_end:
                some = some[last_jump(line, some):]
            some = sorted(some, key=lambda told: told.instant)
            first.append(some[0].said.ticks)
            if line.channel != HEADERS:
                self.told[session] = [(told.instant, told.offset) for told in some]
            self.pieces += pieces_of(line, some, session << BITS, '+guessed year' if year and year.is_guessed else '')
        self.channels = used
        self.channel, self.first = self.channels[0], first[0]
        self.starts = [piece.start for piece in self.pieces]
        self.aheads = [piece.ahead for piece in self.pieces]
        self.lows = [piece.start + piece.ahead for piece in self.pieces]
        self.highs = [then.start - 1 + piece.ahead for piece, then in zip(self.pieces, self.pieces[1:])]
        self.start = self.stop = self.ahead = 0
        self.is_leap = False
        self.second = -1
        self.said: Optional[str] = None
        self.turn_to(0)

    def turn_to(self, instant: int) -> None:
        """Takes up the piece that holds at an instant, and from where to where it does."""
        place = max(bisect_right(self.starts, instant) - 1, 0)
        piece = self.pieces[place]
        self.start = piece.start
        self.ahead, self.is_leap = piece.ahead, piece.is_leap
        self.stop = self.starts[place + 1] if place + 1 < len(self.starts) else 1 << 64
        self.second = -1

    def at(self, instant: int) -> int:
        """The civil time in units of 100 ns; a negative number where nothing tells it. In a second 60 that of the second after."""
        if not self.start <= instant < self.stop:
            self.turn_to(instant)
        return instant + self.ahead

    def text(self, instant: int, places: int = 7) -> Optional[str]:
        """The civil time of an instant as text, with so many places after the second; None where it has none."""
        second, part = divmod(self.at(instant), SECOND)
        if second != self.second:
            self.second, self.said = second, self.said_of(second)
        return self.said and '%s.%s' % (self.said, ('%07d' % part)[:places])

    def said_of(self, second: int) -> Optional[str]:
        """A second of the piece that was taken up last, as a text."""
        if self.is_leap:
            said = civil((second - 1) * SECOND, self.dated)
            return said and said[:-2] + '60'
        return civil(second * SECOND, self.dated)

    def texts(self, instants: Iterable[int]) -> List[Optional[str]]:
        """The text of each of some instants, which is faster than `text` where they are in order."""
        found: List[Optional[str]] = []
        low = high = ahead = -1
        said = None
        for instant in instants:
            if not low <= instant < high:
                second = self.at(instant) // SECOND
                said = self.said_of(second)
                low = max(second * SECOND - self.ahead, self.start)
                high = min((second + 1) * SECOND - self.ahead, self.stop)
                ahead = self.ahead - second * SECOND
            found.append(said and '%s.%07d' % (said, instant + ahead))
        return found

    def between(self, low: int, high: int) -> List[Piece]:
        """The pieces that hold from one instant to another."""
        first = max(bisect_right(self.starts, low) - 1, 0)
        return self.pieces[first:max(bisect_right(self.starts, high), first + 1)]

    def is_plain(self, low: int, high: int) -> bool:
        """Whether each instant from one to another has a time of the calendar, and none is in a second 60."""
        return not any(piece.is_leap or piece.ahead == UNKNOWN for piece in self.between(low, high))

    def quality(self, instant: int) -> str:
        """How good the time of an instant is: locked or free, and what else is to be known of it, with + between them; '' where it
        has no time."""
        return self.pieces[max(bisect_right(self.starts, instant) - 1, 0)].quality

    def ends(self, ends: Sequence[Tuple[int, int]]) -> Tuple[Optional[str], Optional[str]]:
        """The earliest and the latest civil time of some spans of instants, also where the clock was set forth or back on the way,
        with seven places; None twice where nothing tells one."""
        earliest: List[Tuple[int, int]] = []
        latest: List[Tuple[int, int]] = []
        for low, high in ends:
            first, last = (max(bisect_right(self.starts, instant) - 1, 0) for instant in (low, high))
            if self.pieces[first].ahead == UNKNOWN:
                continue
            told = [(low + self.aheads[first], low), (high + self.aheads[last], high)]
            if first < last:
                inner = self.lows[first + 1:last + 1], self.highs[first:last]
                told += [(min(some), self.starts[first + 1 + some.index(min(some))]) for some in inner[:1]]
                told += [(most, self.starts[first + 1 + inner[1].index(most)] - 1) for most in (max(inner[1]), min(inner[1]))]
                told.append((max(inner[0]), self.starts[first + 1 + inner[0].index(max(inner[0]))]))
            earliest.append(min(told))
            latest.append(max(told))
        if not earliest:
            return None, None
        texts = self.text(min(earliest)[1]), self.text(max(latest)[1])
        return (None, None) if None in texts else texts

    def within(self, early: Optional[int], late: Optional[int]) -> List[Tuple[int, int]]:
        """The instants whose civil times lie from one to another, both taken in, as spans. Both are as `key` gives them."""
        found: List[Tuple[int, int]] = []
        for piece, then in zip(self.pieces, self.pieces[1:] + [None]):
            if piece.ahead == UNKNOWN:
                continue
            low, high = piece.start, (1 << 63) - 1 if then is None else then.start - 1
            if early is not None:
                low = max(low, first_in(early, piece))
            if late is not None:
                high = min(high, last_in(late, piece))
            if low > high:
                continue
            if found and found[-1][1] + 1 == low:
                low = found.pop()[0]
            found.append((low, high))
        return found


class Axis:
    """Instants on one line, each session right after the one before it; and a clock by places on it. A recording of one session
    has its instants as its places.

    .ends   of each session its first and last place
    """

    def __init__(self, ends: Sequence[Tuple[int, int]], clock: Optional[Clock]) -> None:
        self.clock, self.dated = clock, clock is not None and clock.dated
        self.lows = [low for low, _ in ends]
        self.shifts: List[int] = []  # of each session how much an instant is before its place
        self.ends: List[Tuple[int, int]] = []
        following = 0
        for low, high in ends:
            shift = following - low if self.ends else 0
            self.shifts.append(shift)
            self.ends.append((low + shift, high + shift))
            following = high + shift + 1
        self.is_one = len(self.ends) < 2

    def of(self, instant: int) -> int:
        """The place of an instant."""
        return instant if self.is_one else instant + self.shifts[max(bisect_right(self.lows, instant) - 1, 0)]

    def instant(self, place: int) -> int:
        """The instant at a place."""
        if self.is_one:
            return place
        return place - self.shifts[max(bisect_right([low for low, _ in self.ends], place) - 1, 0)]

    def at(self, place: int) -> int:
        """The civil time at a place, as `Clock.at` gives it."""
        assert self.clock is not None
        return self.clock.at(self.instant(place))

    def text(self, place: int, places: int = 7) -> Optional[str]:
        """The same as a text."""
        assert self.clock is not None
        return self.clock.text(self.instant(place), places)


LONG_DAY = DAY + SECOND  # a day with room for a second 60, in which such a second stands by itself


def key(day: int, part: int) -> int:
    """A civil time as one number in which seconds 60 stand by themselves: of a day, and what passed of it."""
    return day * LONG_DAY + part


def first_in(early: int, piece: Piece) -> int:
    """The first instant of a piece that is not before a civil time."""
    day, part = divmod(early, LONG_DAY)
    return in_leap(early, piece) if piece.is_leap else day * DAY + min(part, DAY) - piece.ahead


def last_in(late: int, piece: Piece) -> int:
    """The last instant of a piece that is not after a civil time."""
    day, part = divmod(late, LONG_DAY)
    return in_leap(late, piece) if piece.is_leap else day * DAY + min(part, DAY - 1) - piece.ahead


def in_leap(told: int, piece: Piece) -> int:
    """The instant of a civil time by a piece that is a second 60, whose units are those of the first second of the day after."""
    after = (piece.start + piece.ahead) // DAY
    return after * DAY - piece.ahead + told - key(after - 1, DAY)


def last_jump(line: TimeLine, some: Sequence[Told]) -> int:
    """The first of those times of a session that go on without a jump to the last one that was locked."""
    place = max((number for number, told in enumerate(some) if line.quality(told) == LOCKED), default=len(some) - 1)
    while place:
        told, then = some[place - 1], some[place]
        past = then.instant - told.instant
        if line.is_jump(past, then.said.ticks - told.said.ticks - past) or line.quality(told) != line.quality(then):
            break
        place -= 1
    return place


def pieces_of(line: TimeLine, some: Sequence[Told], begin: int, more: str) -> List[Piece]:
    """The pieces of a session: from its begin on by the first time, then by each."""
    made: List[Piece] = []
    leap = None  # where a second 60 began
    for told in some:
        quality = QUALITY[line.quality(told)] + more + ('+counter error' if told.is_out else '')
        ahead = told.said.ticks - told.instant
        if leap is not None and told.instant >= leap + SECOND:
            made.append(Piece(leap + SECOND, made[-1].ahead - SECOND, False, made[-1].quality))
            leap = None
        if told.said.is_leap and leap is None:
            leap = max(told.instant - told.said.ticks % DAY, made[-1].start if made else begin)
            if not made:
                made.append(Piece(begin, ahead, False, quality))
            made.append(Piece(leap, ahead, True, quality))
        if not made:
            made.append(Piece(begin, ahead, False, quality))
        elif told.instant > made[-1].start:
            made.append(Piece(told.instant, ahead, told.said.is_leap, quality))
        else:
            made[-1] = Piece(made[-1].start, ahead, told.said.is_leap, quality)
    if leap is not None:
        made.append(Piece(leap + SECOND, made[-1].ahead - SECOND, False, made[-1].quality))
    return made
