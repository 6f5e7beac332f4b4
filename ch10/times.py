"""Civil times: those of time packets, and those that a call gives. Those of each count are in `ch10.clocks`."""
from __future__ import annotations

import argparse
import datetime
from bisect import bisect_right
from collections import namedtuple
from datetime import date
from typing import List, Optional, Tuple, TYPE_CHECKING

from .arrays import Array, numpy
from .standard import COUNT_BITS, NONE_LATER, Fault, little, need

if TYPE_CHECKING:
    from .clocks import Clock


Time = namedtuple('Time', 'said dated ticks quality has_lock is_external is_leap_year is_leap')
Time.__doc__ = """A civil time: as a text, whether it has a date, and in units of 100 ns from the year 1 on, or, without a date, \
from the
day before the year's first on. The units are None where the digits are no time. Its quality is INVALID, FREE, ASSUMED (of an \
external
source, without lock bits) or LOCKED; then whether it has lock bits, whether its source is an external one, whether the packet \
says that
the year has 366 days, and whether the second is 60, whose units are those of the second after."""

DAY = 24 * 3600 * 10 ** 7
SECOND = 10 ** 7
INVALID, FREE, ASSUMED, LOCKED = range(4)
LAST = (1 << 63) - 1


def time(body: bytes, word: int) -> Time:
    """The time in a body of format 1 (chapter 11, 11.2.3): binary coded decimals, and what the word says of them.

    Format 15 in bits 7 to 4 says that they are none. Bits 15 to 12 say what the time is locked to (3 to 7) or that it is not; all
    are 0 by older editions of the standard, which have only the source in bits 3 to 0: 1 is an external one.
    """
    need(len(body) >= (12 if word & 0x200 else 10), 0, 'less than a time in a body')
    bcd = [little(body, at, 2) for at in range(4, len(body) - 1, 2)]
    clock = '%02x:%02x:%02x.%02x' % (bcd[1] >> 8 & 0x3F, bcd[1] & 0x7F, bcd[0] >> 8 & 0x7F, bcd[0] & 0xFF)
    if word & 0x200:
        said = '%04x-%02x-%02x %s' % (bcd[3] & 0x3FFF, bcd[2] >> 8 & 0x1F, bcd[2] & 0x3F, clock)
    else:
        said = '%03x %s' % (bcd[2] & 0x3FF, clock)
    lock, source = word >> 12 & 15, word & 15
    quality = INVALID if word >> 4 & 15 == 15 else LOCKED if 3 <= lock <= 7 else ASSUMED if lock == 0 and source == 1 else FREE
    try:
        ticks = ticks_of(said)
    except ValueError:
        ticks = None
    return Time(said, word & 0x200 != 0, ticks, quality, lock != 0, source == 1, word & 0x100 != 0, clock[6:8] == '60')


def network_time(body: bytes) -> Time:
    """The time in a body of format 2 (chapter 11, 11.2.3): a network time.

    Bits 3 to 0 of its word are 0 where the time is not valid. Bits 7 to 4 say what it is: 0 is NTP, seconds since 1900 by UTC and a
    fraction of 32 bits; 1 and 2 are IEEE 1588, seconds since 1970 by TAI and nanoseconds. TAI is ahead of UTC by the seconds 60
    that there have been (`LEAPS`) and ten more.
    """
    need(len(body) >= 12, 0, 'less than a time in a body')
    word, seconds, part = (little(body, at, 4) for at in (0, 4, 8))
    quality = LOCKED if word & 15 else INVALID
    if word >> 4 & 15 == 0:
        seconds += 0 if seconds >> 31 else 1 << 32  # which began anew in 2036
        return dated_time(date(1900, 1, 1).toordinal() * DAY + seconds * SECOND + part * SECOND // (1 << 32), False, quality)
    return tai_time(seconds * SECOND + part // 100, quality)


def tai_time(past: int, quality: int) -> Time:
    """The time so many units of 100 ns after the begin of 1970 by TAI."""
    tai = date(1970, 1, 1).toordinal() * DAY + past
    ahead = 10 + bisect_right(LEAPS, tai)
    return dated_time(tai - ahead * SECOND, ahead < 10 + len(LEAPS) and LEAPS[ahead - 10] - tai <= SECOND, quality)


def dated_time(ticks: int, is_leap: bool, quality: int) -> Time:
    """A time with a date, in a second 60 or in another."""
    said = civil(ticks - SECOND if is_leap else ticks, True)
    if said is None:
        return Time('', True, None, quality, True, True, False, False)
    said = '%s.%02d' % (said[:-2] + '60' if is_leap else said, ticks % SECOND // 100000)
    return Time(said, True, ticks, quality, True, True, False, is_leap)


def header_time(ticks: int, form: int) -> Optional[Time]:
    """The time of a secondary header in a format of its own, as `ch10.columns.ticks_of` has it: 0 is the time of chapter 4, since
    the begin of the year, 1 is IEEE 1588, by TAI. None of the counter, and where the calendar has no such time."""
    if form == 1:
        said = tai_time(ticks, FREE)
        return said if said.ticks is not None else None
    if form or ticks >= 366 * DAY:
        return None
    text = '%s.%02d' % (civil(ticks + DAY, False), ticks % SECOND // 100000)
    return Time(text, False, ticks + DAY, FREE, True, False, False, False)


def leaps() -> List[int]:
    """The ends of all seconds 60 from 1972 on, by TAI in units of 100 ns: those at the end of June and of December of these
    years."""
    ends = [date(year, 7, 1) for year in (1972, 1981, 1982, 1983, 1985, 1992, 1993, 1994, 1997, 2012, 2015)]
    ends += [date(year + 1, 1, 1) for year in (1972, 1973, 1974, 1975, 1976, 1977, 1978, 1979, 1987, 1989, 1990, 1995, 1998, 2005,
                                               2008, 2016)]
    return [end.toordinal() * DAY + (10 + number) * SECOND for number, end in enumerate(sorted(ends), 1)]


LEAPS = leaps()


def ticks_of(said: str) -> int:
    """What a text of a civil time says in units of 100 ns. A ValueError where it says none. A second 60 has the units of the second
    after."""
    day, part = parts_of(said)
    return DAY * day + part


def parts_of(said: str) -> Tuple[int, int]:
    """What a text of a civil time says: the day's number, and what passed of the day in units of 100 ns, which is a day and more in
    a second 60. A ValueError where it says none."""
    day, clock = said.split(' ')
    *front, seconds = clock.split(':')
    whole, _, part = seconds.partition('.')
    fields = (*front, whole)
    if len(fields) != 3 or not all(len(field) == 2 and field.isascii() and field.isdigit() for field in fields):
        raise ValueError(said)
    if len(part) > 7 or not (part + '0').isascii() or not (part + '0').isdigit():
        raise ValueError(said)
    hour, minute, second = map(int, fields)
    if hour > 23 or minute > 59 or second > 59 and (hour, minute, second) != (23, 59, 60):
        raise ValueError(said)
    return day_number(day), ((hour * 60 + minute) * 60 + second) * SECOND + int(part.ljust(7, '0'))


def day_number(day: str) -> int:
    """The number of a day, from 0001-01-01 on, or within its year. A ValueError where it is none."""
    if not day.replace('-', '').isascii():
        raise ValueError(day)
    if len(day) == 10 and day[4] == day[7] == '-':
        return datetime.date(int(day[:4]), int(day[5:7]), int(day[8:])).toordinal()
    if len(day) == 3 and day.isdigit() and 1 <= int(day) <= 366:
        return int(day)
    raise ValueError(day)


def civil(ticks: int, dated: bool, places: int = 0) -> Optional[str]:
    """A civil time as a text, with so many places after the second. None where the calendar doesn't have its day. Without a date it
    has the day of its year; 1 to 366 are days of no year."""
    day, rest = divmod(ticks, DAY)
    try:
        if dated:
            front = date.fromordinal(day).isoformat()
        else:
            front = '%03d' % (day if 1 <= day <= 366 else date.fromordinal(day).timetuple().tm_yday)
    except (ValueError, OverflowError):
        return None
    seconds = rest // 10 ** 7
    said = '%s %02d:%02d:%02d' % (front, seconds // 3600, seconds // 60 % 60, seconds % 60)
    return '%s.%s' % (said, ('%07d' % (rest % 10 ** 7))[:places]) if places else said


class Bound:
    """A first or last time as it was given: a count, or a time of day with a date, a day of the year, or neither."""

    def __init__(self, word: str) -> None:
        self.count: Optional[int] = None
        self.dated: Optional[bool] = None
        self.day = self.part = 0
        if len(word) <= 20 and word.isascii() and word.isdigit():
            self.count = int(word)
            return
        day, _, clock = word.replace('T', ' ').rpartition(' ')
        try:
            self.day, self.part = parts_of('%s %s' % (day or '001', clock))
        except ValueError:
            raise argparse.ArgumentTypeError(
                "%r is neither a count nor a time such as '2024-02-29 12:34:56.78', '060 12:34:56.78' or 12:34:56" % word[:60])
        self.dated = '-' in day if day else None

    def key(self, clock: Optional[Clock]) -> int:
        """The time as `clocks.key` has it, on the days of a recording's clock."""
        from .clocks import key
        if clock is None:
            raise Fault('the recording has no time: --from and --to take its counts')
        first = min(clock.first // DAY, date.max.toordinal())
        if self.dated is None:
            return key(first, self.part)
        if self.dated and not clock.dated:
            raise Fault('the recording\'s times have a day of the year and no date')
        if self.dated:
            return key(self.day, self.part)
        if clock.dated and clock.year is None:
            raise Fault("the recording's times have a date")
        years = [date(date.fromordinal(first).year + more, 1, 1).toordinal() - 1 + self.day for more in (0, 1)]
        return key(years[years[0] < first - 180], self.part)


class Range:
    """Which instants lie from a first time to a last, both taken in."""

    def __init__(self, first: Optional[Bound], last: Optional[Bound], clock: Optional[Clock]) -> None:
        self.low, self.high = 0, NONE_LATER
        self.spans: Optional[List[Tuple[int, int]]] = None
        early = late = None
        if first is not None and first.count is not None:
            self.low = first.count
        elif first is not None:
            early = first.key(clock)
        if last is not None and last.count is not None:
            self.high = last.count
        elif last is not None:
            late = last.key(clock)
        if clock is not None and (early is not None or late is not None):
            self.spans = clock.within(early, late)
            self.starts = [low for low, _ in self.spans]
        self.is_by_count = self.low > 0 or self.high != NONE_LATER
        self.is_all = not self.is_by_count and self.spans is None

    def has(self, instant: int) -> bool:
        """Whether an instant lies in the range."""
        if self.is_by_count and not self.low <= instant & COUNT_BITS <= self.high:
            return False
        if self.spans is None:
            return True
        place = bisect_right(self.starts, instant) - 1
        return place >= 0 and instant <= self.spans[place][1]

    def has_each(self, instants: Array) -> Array:
        """The same of each of some instants."""
        held = numpy.ones(len(instants), bool)
        if self.is_by_count:
            counts = instants & COUNT_BITS
            held = (counts >= min(self.low, LAST)) & (counts <= min(self.high, LAST))
        if self.spans is not None:
            starts, ends = self.ends()
            places = numpy.searchsorted(starts, instants, 'right') - 1
            held &= (places >= 0) & (instants <= ends[places])
        return held

    def touches_each(self, lows: Array, highs: Array) -> Array:
        """The same as `touches` of each of some pairs of instants."""
        held = numpy.ones(len(lows), bool)
        if self.is_by_count:
            least, most = min(self.low, LAST), min(self.high, LAST)
            held = (lows >> 48 != highs >> 48) | (highs & COUNT_BITS >= least) & (lows & COUNT_BITS <= most)
        if self.spans is not None:
            starts, ends = self.ends()
            places = numpy.searchsorted(starts, highs, 'right') - 1
            held &= (places >= 0) & (lows <= ends[places])
        return held

    def ends(self) -> Tuple[Array, Array]:
        """Where its stretches of instants begin and end; one that is before all instants, where there is none."""
        spans = self.spans or [(LAST, -1)]
        return numpy.array([low for low, _ in spans], numpy.int64), numpy.array([high for _, high in spans], numpy.int64)

    def stretch(self, instant: int) -> int:
        """In which stretch of instants one lies that is in it: there are several where a clock was set back."""
        return 0 if self.spans is None else bisect_right(self.starts, instant)

    def touches(self, low: int, high: int) -> bool:
        """Whether some of the instants from one to another may be in it."""
        if self.is_by_count and low >> 48 == high >> 48 and (high & COUNT_BITS < self.low or low & COUNT_BITS > self.high):
            return False
        if self.spans is None:
            return True
        place = bisect_right(self.starts, high) - 1
        return place >= 0 and low <= self.spans[place][1]

    def covers(self, low: int, high: int) -> bool:
        """Whether all of the instants from one to another are in it."""
        if self.is_by_count and not (low >> 48 == high >> 48 and self.low <= low & COUNT_BITS and high & COUNT_BITS <= self.high):
            return False
        if self.spans is None:
            return True
        place = bisect_right(self.starts, low) - 1
        return place >= 0 and high <= self.spans[place][1]
