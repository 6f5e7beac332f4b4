"""The picture that `svg` draws: for each channel a strip of rates over time, where messages were lost, and what was passed over."""
from __future__ import annotations

from argparse import Namespace
from itertools import islice
from typing import Callable, Dict, Iterable, Iterator, List, Optional, Set, Tuple
from xml.sax.saxutils import escape

from .bodies import counted
from .clocks import BITS, Axis, asked_of
from .doubts import judge
from .inputs import Output, one_part
from .packets import UNTOLD, Packet, loss_of, lost_before, packets
from .standard import Data, Key
from .survey import Row, Survey, ends_of, name_of, stretch_text
from .times import Range, civil

Mark = Tuple[Key, List[int], Optional[int], Optional[int]]  # channel and type, instants, that of a loss, how many were lost
Counts = Tuple[Dict[Key, List[int]], Dict[Key, List[int]], Dict[Key, List[int]]]  # entries and losses by bars, and sums of losses
SECOND = 10 ** 7
WIDTH, LEFT, RIGHT = 980, 130, 150
TOP, STRIP, MARKS, STEP = 92, 44, 8, 66
SPACE = WIDTH - LEFT - RIGHT
MOST_BARS = 160
LEAST_BAR = 10
FEW = 10  # entries in the highest bar, below which it says little of a rate
BLUE, GREY, RED, SHADE, DARK = '#2b6cb0', '#8a8f98', '#d11a2a', '#e8a33d', '#9c5a00'

# The steps between the times below, in units of 100 ns.
STEPS = ([unit * 10 ** power for power in range(1, 7) for unit in (1, 2, 5)]
         + [SECOND * step for step in (1, 2, 5, 10, 15, 30, 60, 120, 300, 600, 900, 1800, 3600, 7200, 10800, 21600, 43200)]
         + [86400 * SECOND * unit * 10 ** power for power in range(4) for unit in (1, 2, 5)])


def least_step(least: int) -> int:
    """The least step that is no shorter, in units of 100 ns."""
    return next((step for step in STEPS if step >= least), STEPS[-1])


def seconds(ticks: int) -> str:
    """Units of 100 ns as seconds, without zeros at the end."""
    return ('%d.%07d' % divmod(ticks, SECOND)).rstrip('0').rstrip('.')


def number_text(rate: float) -> str:
    """A rate as text."""
    return '{:,.0f}'.format(rate) if rate >= 100 else '%.3g' % rate


class Picture:
    """A picture of rates and losses from one instant to another, on an `Axis`.

    Sources are the rows of a survey by channel and type; those by packets have no entries that are read.
    """

    def __init__(self, title: str, sources: Dict[Key, Row], by_packets: Set[Key], low: int, high: int, survey: Survey) -> None:
        self.axis_line = Axis(survey.ends(), survey.clock)
        low, high = self.axis_line.of(low), self.axis_line.of(high)
        self.title, self.sources, self.by_packets, self.low, self.high = title, sources, by_packets, low, high
        self.clock, self.names = self.axis_line if survey.clock else None, survey.names
        self.bar = least_step(max((high - low) // MOST_BARS + 1, LEAST_BAR))
        self.bars = (high - low) // self.bar + 1
        self.much = {key: [0] * self.bars for key in sources}
        self.lost = {key: [0] * self.bars for key in sources}
        self.sums = {key: [0, 0, 0] for key in sources}  # losses, messages lost, losses of an unknown number
        self.bottom = TOP + STEP * len(sources)
        for key, row in sources.items():
            self.add_log(key, row, low, high)

    def add_log(self, key: Key, row: Row, low: int, high: int) -> None:
        """Takes in what the recorder's log channel says of losses: those after a channel's last message stand at that message, and
        those that an earlier file has told of are left out."""
        last = self.axis_line.of(row.last())
        if row.after and low <= last <= high:
            self.lost[key][(last - low) // self.bar] += 1
            self.sums[key][0] += 1
            self.sums[key][1] += row.after
        if row.told and low <= self.axis_line.of(row.first()) <= high:
            self.sums[key][1] -= row.told

    def fill(self, seen: Iterable[Mark], has: Optional[Callable[[int], bool]]) -> None:
        """Counts how many entries stand in each bar, and losses; `has` says whether an instant is drawn, or is None."""
        low, bar, bars, of = self.low, self.bar, self.bars, self.axis_line.of
        for key, found, loss, lost in seen:
            if has is not None:
                found = [count for count in found if has(count)]
                loss = loss if loss is not None and has(loss) else None
            if not self.axis_line.is_one:
                found, loss = list(map(of, found)), loss if loss is None else of(loss)
            if loss is not None and 0 <= (loss - low) // bar < bars:
                self.lost[key][(loss - low) // bar] += 1
                sums = self.sums[key]
                sums[0] += 1
                sums[1] += 1 if lost is None or lost == UNTOLD else lost
                sums[2] += lost == UNTOLD
            if not found:
                continue
            first, last = (min(found) - low) // bar, (max(found) - low) // bar
            much = self.much[key]
            if first == last:
                much[first] += len(found)
            else:
                for count in found:
                    much[(count - low) // bar] += 1

    def counted(self) -> Counts:
        """What was counted so far."""
        return self.much, self.lost, self.sums

    def clear(self) -> None:
        """Forgets what was counted."""
        for some in self.counted():
            for key, numbers in some.items():
                some[key] = [0] * len(numbers)

    def add(self, more: Counts) -> None:
        """Adds what was counted of other packets."""
        for some, others in zip(self.counted(), more):
            for key, numbers in others.items():
                some[key] = [one + other for one, other in zip(some[key], numbers)]

    def place(self, count: int) -> float:
        """Where a count lies from left to right."""
        return LEFT + SPACE * min(max((count - self.low) / (self.bar * self.bars), 0), 1)

    def text(self, survey: Survey, size: int) -> str:
        """The picture, as SVG."""
        height = self.bottom + 36
        parts = ['<svg xmlns="http://www.w3.org/2000/svg" width="%d" height="%d" viewBox="0 0 %d %d" font-family="sans-serif" '
                 'font-size="12">'
                 % (WIDTH, height, WIDTH, height),
                 '<title>%s</title>' % escape('Rates and losses of ' + self.title),
                 '<rect width="100%" height="100%" fill="white"/>',
                 words(LEFT, 24, self.title, size=16, weight='bold'),
                 words(WIDTH - 10, 24, 'red: messages were lost', anchor='end', fill=RED)]
        begin, end = (self.clock.text(self.low, 2), self.clock.text(self.high, 2)) if self.clock else (None, None)
        when = '%s to %s' % (begin, end) if begin and end else 'counts %d to %d' % (self.low, self.high)
        parts.append(words(LEFT, 44, '%s; entries a second, in bars of %s s' % (when, seconds(self.bar)), fill='#444'))
        for place, key in enumerate(sorted(self.sources)):
            parts += self.strip(TOP + STEP * place, key)
        parts += self.axis() + self.damaged(survey) + self.jumps(survey) + self.ended(survey, size)
        if not self.sources:
            parts.append(words(LEFT, TOP, 'no channel to draw', fill='#444'))
        return '\n'.join(parts + ['</svg>', ''])

    def strip(self, top: int, key: Key) -> List[str]:
        """One channel: its name, its bars, the highest of them, and its losses."""
        much, lost, wide = self.much[key], self.lost[key], SPACE / self.bars
        base, most = top + STRIP, max(much)
        name = self.names.channel(key[0])
        parts = [words(LEFT - 10, top + 18, 'channel %d' % key[0], anchor='end', weight='bold'),
                 words(LEFT - 10, top + 34, name_of(key[1]), anchor='end', fill='#444'),
                 '<rect x="%d" y="%d" width="%d" height="%d" fill="#f4f6f8"/>' % (LEFT, top, SPACE, STRIP)]
        if name:
            parts.insert(1, words(LEFT - 10, top + 3, shortened(name), anchor='end', size=11))
        path = []
        for place, number in enumerate(much):
            if number:
                tall = max(STRIP * number / most, 1)
                path.append('M%.2f %.2fV%.2fH%.2fV%.2fz' % (LEFT + wide * place, base, base - tall,
                                                            LEFT + wide * (place + 1), base))
        if path:
            parts.append('<path fill="%s" d="%s"/>' % (GREY if key in self.by_packets else BLUE, ''.join(path)))
        parts.append('<path stroke="#444" stroke-width="1" d="M%d %.1fH%d"/>' % (LEFT, base, LEFT + SPACE))
        for place, number in enumerate(lost):
            if number:
                middle, half = LEFT + wide * (place + 0.5), max(wide, 3) / 2
                parts.append('<rect x="%.2f" y="%d" width="%.2f" height="%d" fill="%s"/>' % (
                    middle - half, base + 2, 2 * half, MARKS, RED))
        if most:
            parts.append(words(LEFT + SPACE + 8, top + 12, self.rate_of(key, most), fill='#444'))
        losses, messages, untold = self.sums[key]
        if losses:
            parts.append(words(LEFT + SPACE + 8, base + 10,
                               '%s%s lost' % ('{:,}'.format(messages), '+' if untold else ''), fill=RED))
        return parts

    def rate_of(self, key: Key, most: int) -> str:
        """The highest rate of a strip; of one with few in a bar the mean, since a bar of few says little of a rate."""
        row, what = self.sources[key], ' packets' if key in self.by_packets else ''
        number = row.packets if key in self.by_packets else row.entries
        if most >= FEW:
            return 'max %s%s/s' % (number_text(most * SECOND / self.bar), what)
        past, ends = sum(high - low for low, high in row.ends()), len(row.ends())
        if number <= ends or past == 0:
            return '%d%s in all' % (number, what)
        return 'mean %s%s/s' % (number_text((number - ends) * SECOND / past), what)

    def axis(self) -> List[str]:
        """Lines at whole times, and the times below."""
        span = self.bar * self.bars
        step = least_step(span // 7)
        parts = []
        for low, high in self.parts(span):
            start = (self.clock.at(low) if self.clock else low - self.low) % step
            for count in range(low + (step - start) % step, high + 1, step):
                x = LEFT + SPACE * (count - self.low) / span
                parts.append('<path stroke="#c8ccd2" d="M%.2f %dV%d"/>' % (x, TOP - 6, self.bottom))
                parts.append(words(x, self.bottom + 16, time_text(count, self.low, step, self.clock), anchor='middle', fill='#444'))
        return parts

    def parts(self, span: int) -> List[Tuple[int, int]]:
        """From where to where each session is drawn."""
        ends = [[low, high] for low, high in self.axis_line.ends if high >= self.low and low <= self.low + span]
        if not ends:
            return []
        ends[0][0], ends[-1][1] = self.low, self.low + span
        return [(low, high) for low, high in ends]

    def damaged(self, survey: Survey) -> List[str]:
        """Where stretches were passed over, shaded from the packet before to the packet after."""
        parts = []
        for stretch, (before, after) in zip(survey.damage, survey.spans):
            ends = (self.place(self.low if before is None else self.axis_line.of(before)),
                    self.place(self.high if after is None else self.axis_line.of(after)))
            left, wide = min(ends), max(ends) - min(ends)
            left, wide = (left, wide) if wide >= 2 else (left + wide / 2 - 1, 2)
            parts.append('<rect x="%.2f" y="%d" width="%.2f" height="%d" fill="%s" fill-opacity="0.4"><title>%s</title></rect>' % (
                left, TOP - 6, wide, self.bottom - TOP + 6, SHADE, escape(stretch_text(stretch))))
        if parts:
            parts.append(words(LEFT, 62, 'shaded: %d stretch%s passed over, %s bytes' % (
                len(parts), '' if len(parts) == 1 else 'es',
                '{:,}'.format(sum(stretch.length for stretch in survey.damage))), fill=DARK))
        return parts

    def jumps(self, survey: Survey) -> List[str]:
        """Where the clock jumps, and where the counter begins anew."""
        parts, line = [], survey.clock and next(line for line in survey.times if line.channel == survey.clock.channel)
        seen = [(self.axis_line.of(jump.instant), 'time %+.7g s' % (jump.by / SECOND)) for jump in line.jumps()] if line else []
        seen += [(low, 'session %d' % number) for number, (low, _) in enumerate(self.axis_line.ends[1:], 2)]
        for place, text in sorted(seen):
            if self.low <= place <= self.high:
                x = self.place(place)
                side, anchor = (x + 3, 'start') if x < WIDTH - RIGHT - 90 else (x - 3, 'end')
                parts.append('<path stroke="%s" stroke-width="1.5" stroke-dasharray="5 3" d="M%.2f %dV%d"/>'
                             % (DARK, x, TOP - 18, self.bottom))
                parts.append(words(side, TOP - 10, text, anchor=anchor, fill=DARK, size=11))
        return parts

    def ended(self, survey: Survey, size: int) -> List[str]:
        """Where the pass ended, if it did not go on after a fault."""
        span = survey.span()
        if not survey.ends_early() or span is None or survey.fault is None:
            return []
        x = self.place(self.axis_line.of(span[1]))
        return ['<path stroke="%s" stroke-width="2" d="M%.2f %dV%d"/>' % (RED, x, TOP - 6, self.bottom),
                words(LEFT, 62, 'ends at byte %d of %d: %s' % (survey.size, size, survey.fault.what), fill=RED, weight='bold')]


def shortened(name: str) -> str:
    """A name as far as there is room for it."""
    return name if len(name) <= 18 else name[:17] + '…'


def words(x: float, y: float, text: str, anchor: str = 'start', fill: str = 'black', size: int = 12, weight: str = 'normal') -> str:
    """A text at a place of a picture, as SVG."""
    return '<text x="%.1f" y="%.1f" text-anchor="%s" fill="%s" font-size="%d" font-weight="%s">%s</text>' % (
        x, y, anchor, fill, size, weight, escape(text))


def time_text(count: int, low: int, step: int, clock: Optional[Axis]) -> str:
    """A time as its step asks for, rounded to it: with places after the second, without, or with the day."""
    plain = None if clock is None else clock.text(count)
    if clock is None or plain is None:
        return seconds(count - low) + ' s'
    told = clock.at(count)
    said = civil((told + step // 2) // step * step if step < 86400 * SECOND else told, clock.dated, 7)
    day, of_day = (said or plain).split(' ')
    if step >= 12 * 3600 * SECOND:
        return '%s %s' % (day[-5:], of_day[:5])
    if step >= 60 * SECOND:
        return of_day[:5]
    if step >= SECOND:
        return of_day[:8]
    return of_day[:9 + 7 - (len(str(step)) - len(str(step).rstrip('0')))]


def as_svg(asked: Namespace, data: Data, out: Output) -> None:
    """`ch10 svg`."""
    title, begin, end = one_part(data, asked.file)
    survey = Survey(data, begin, end, asked.keep_going, asked=asked_of(asked))
    if not survey.lows:
        survey.judge()
    within = Range(asked.first, asked.last, survey.clock)
    some = survey.drawn(asked.channel)
    sources = {(row.channel, row.kind): row for row in some}
    by_packets = {(row.channel, row.kind) for row in some if not row.entries}
    low, high = ends_of(some or survey.rows) or (0, 0)
    if not within.is_all:
        low, high = ends_in(data, begin, survey, sources, by_packets, within) or (low, low)
    drawn = Picture(title, sources, by_packets, low, high, survey)
    drawn.fill(marks(data, begin, survey, sources, by_packets), None if within.is_all else within.has)
    out.write(drawn.text(survey, end - begin).encode())
    judge(survey, out)


def marks(data: Data, begin: int, survey: Survey, sources: Dict[Key, Row], by_packets: Set[Key],
          some: Optional[range] = None) -> Iterator[Mark]:
    """Of each packet that is drawn its channel and type, its instants, the instant of a loss and how many messages were lost, or
    None twice. Of all packets, or of some by their numbers."""
    report, behind, first = None, 0, 0 if some is None else some.start
    for number, (packet, found) in enumerate(counted(survey.segments.among(some_packets(data, begin, survey, some, 1))),
                                             max(first - 1, 0)):
        key = packet.channel, packet.kind
        if packet.offset != behind:
            report = None
        behind = packet.offset + packet.length
        if key in sources and number >= first:
            found, base = [packet.counter] if key in by_packets else found, survey.of[number] << BITS
            if base:
                found = [count + base for count in found]
            if packet.flags & 0x10:
                yield key, found, (found or [packet.counter + base])[0], lost_before(packet, report)
            elif found:
                yield key, found, None, None
        report = loss_of(packet)


def some_packets(data: Data, begin: int, survey: Survey, some: Optional[range], more: int = 0) -> Iterator[Packet]:
    """All packets of a survey, or some by their numbers, and so many before them where there are as many."""
    if some is None:
        return packets(data, begin, begin + survey.size, False, survey.passed)
    first = max(some.start - more, 0)
    place = survey.places[first] if first < len(survey.places) else survey.size
    found = packets(data, begin, begin + survey.size, False, survey.passed, begin + place)
    return islice(found, some.stop - first)


def ends_in(data: Data, begin: int, survey: Survey, sources: Dict[Key, Row], by_packets: Set[Key],
            within: Range) -> Optional[Tuple[int, int]]:
    """The first and the last instant that is drawn of a range, or None."""
    found = [count for _, some, _, _ in marks(data, begin, survey, sources, by_packets) for count in some if within.has(count)]
    return (min(found), max(found)) if found else None
