"""`ch10 values` and `ch10 plot`: measurements by their names and in their units, as CSV, JSON lines, tables of SQLite, or drawn."""
from __future__ import annotations

from argparse import Namespace
from heapq import merge
import json
import os
import sqlite3
from typing import Dict, Iterator, List, NamedTuple, Optional, Tuple, Union

from .arrays import numpy
from .bodies import read
from .clocks import BITS, asked_of
from .columns import Numbering
from .doubts import judge
from .exports import Part, batch_of
from .inputs import Output, one_part
from .lines import csv_text
from .measured import measured_of, said, title
from .packets import packet_at, packets
from .pcm import THROUGHPUT, counts_of_frames, frames_of, layout_of
from .picture import BLUE, number_text, seconds, words
from .replay import Ordered
from .standard import COUNT_BITS, Data, Wrong, little
from .survey import Survey
from .times import Range
from .units import PCM, Measurement, measurements


class Row(NamedTuple):
    """An entry or a minor frame with measurements: its instant, channel, place in the order, and the values by the measurements'
    numbers."""
    instant: int
    channel: int
    place: int
    values: Dict[int, float]


class Values:
    """The measurements of a document or of the setup text, over one recording."""

    def __init__(self, asked: Namespace, data: Data, out: Output, only: Optional[List[str]] = None) -> None:
        _, begin, end = one_part(data, asked.file)
        if asked.icd:
            measurements(asked.icd)  # which is looked at before the recording is
        self.data, self.begin, self.asked = data, begin, asked
        self.survey = Survey(data, begin, end, asked.keep_going, asked=asked_of(asked))
        self.measured = measured_of(asked, self.survey, out, only)
        self.all = self.measured.all
        self.ordered = Ordered(data, begin, self.survey)
        self.within = Range(asked.first, asked.last, self.survey.clock)
        self.numbering = Numbering()
        self.left: Dict[int, int] = {}  # packets of PCM whose minor frames are not read, by channel

    def rows(self) -> Iterator[Row]:
        """The entries and minor frames with measurements, by instant, then channel, then place."""
        return iter(merge(self.entries(), self.frames(), key=lambda row: row[:3]))

    def entries(self) -> Iterator[Row]:
        """The entries with measurements."""
        kinds = set(self.measured.by_kind)
        for part in self.ordered.parts():
            held: List[Row] = []
            packets_ = [(number, packet) for number, packet, _, _ in self.ordered.packets(part)
                        if packet.kind in kinds and packet.word is not None]
            for kind in kinds:
                some = [(number, packet) for number, packet in packets_ if packet.kind == kind]
                if not some:
                    continue
                block, _ = read([packet for _, packet in some], self.numbering)
                bases = numpy.array([self.ordered.base(number) for number, _ in some], numpy.int64)
                places = numpy.array([number << 32 for number, _ in some], numpy.int64)
                instants = (block.count + bases[block.of]).tolist() if len(block) else []
                for place, values in self.measured.by_entry(block, self.numbering).items():
                    row = Row(instants[place], some[int(block.of[place])][1].channel, int(places[block.of[place]]) + place, values)
                    if part.low <= row.instant < part.high and self.has(row.instant):
                        held.append(row)
            held.sort(key=lambda row: row[:3])
            yield from held

    def has(self, instant: int) -> bool:
        """Whether an instant is asked for."""
        return self.within.is_all or self.within.has(instant)

    def frames(self) -> Iterator[Row]:
        """The minor frames of PCM with measurements, by their packets' counters."""
        if PCM not in self.measured.by_kind:
            return
        names, survey = self.survey.names, self.survey
        layouts = {row.channel: layout_of(names.attributes, names.channels.get(row.channel, ('', '', ''))[2])
                   for row in survey.rows if row.kind == PCM}
        found = [(packet.counter + (survey.of[number] << BITS), number, packet.offset) for number, packet in enumerate(
            packets(self.data, self.begin, self.begin + survey.size, False, survey.passed)) if packet.kind == PCM]
        for instant, number, offset in sorted(found):
            packet = packet_at(self.data, self.begin + offset, self.begin, self.begin + survey.size, False)
            size = little(self.data, self.begin + offset + 8, 4)
            layout = layouts.get(packet.channel)
            batch = batch_of(Part(packet, bytes(packet.body[:size]), 0, 0)) if size >= 4 else None
            frames = frames_of(batch, layout) if layout and layout.words and batch else None
            if frames is None or batch is None or layout is None or int(batch.words[0]) & THROUGHPUT:
                self.left[packet.channel] = self.left.get(packet.channel, 0) + 1
                continue
            counts = counts_of_frames(batch, frames)
            for place, values in enumerate(self.measured.by_frame(frames, layout, packet.channel)):
                one = counts[place] + instant - packet.counter
                if values and self.has(one):
                    yield Row(one, packet.channel, (number << 32) + place, values)

    def time(self, instant: int) -> Optional[str]:
        """The civil time of an instant as text, or None."""
        return self.survey.clock.text(instant) if self.survey.clock else None

    def judge(self, out: Output) -> None:
        """Says what is doubtful or was not read, and raises what is wrong with the recording."""
        for channel, many in sorted(self.left.items()):
            out.note('channel %d: %d packet%s of PCM not read: the setup text does not say the words of a minor frame, or they do '
                     'not fit' % (channel, many, 's' * (many > 1)))
        judge(self.survey, out)


def values(asked: Namespace, data: Data, out: Output) -> None:
    """Writes them as CSV, as JSON lines, or into a new database."""
    found = Values(asked, data, out)
    if asked.out:
        into_database(asked.out, found)
    elif asked.json:
        for row in found.rows():
            line: Dict[str, Union[int, float, str, None]] = {
                'channel': row.channel, 'count': row.instant & COUNT_BITS, 'time': found.time(row.instant)}
            line.update((found.all[number].name, float(said(value))) for number, value in sorted(row.values.items()))
            out.line(json.dumps(line))
    else:
        out.write((','.join(['channel', 'count', 'time'] + [csv_text(title(one)) for one in found.all]) + '\n').encode())
        every = range(len(found.all))
        for row in found.rows():
            cells = [said(row.values[number]) if number in row.values else '' for number in every]
            out.line('%d,%d,%s,%s' % (row.channel, row.instant & COUNT_BITS, found.time(row.instant) or '', ','.join(cells)))
    found.judge(out)


def into_database(path: str, found: Values) -> None:
    """A table `measurement` of their names and units, and a table `value` with a row for each value."""
    if os.path.exists(path):
        raise Wrong('%r is there already: give --out another name' % path[:60])
    part = path + '.part'
    if os.path.exists(part):
        raise Wrong('%r is there already: remove it, or give --out another name' % part[:60])
    try:
        base = sqlite3.connect(part, isolation_level=None)
        try:
            for line in ('PRAGMA journal_mode = OFF', 'BEGIN', 'CREATE TABLE measurement (name TEXT PRIMARY KEY, unit TEXT)',
                         'CREATE TABLE value (name TEXT, channel INTEGER, count INTEGER, time TEXT, value REAL)'):
                base.execute(line)
            base.executemany('INSERT INTO measurement VALUES (?, ?)', [(one.name, one.unit) for one in found.all])
            base.executemany('INSERT INTO value VALUES (?, ?, ?, ?, ?)', (
                (found.all[number].name, row.channel, row.instant & COUNT_BITS, found.time(row.instant), float(said(value)))
                for row in found.rows() for number, value in sorted(row.values.items())))
            base.execute('CREATE INDEX value_by_name ON value (name, count)')
            base.execute('COMMIT')
        finally:
            base.close()
    except BaseException as error:
        if os.path.exists(part):
            os.remove(part)
        if isinstance(error, sqlite3.Error):
            raise OSError(str(error))
        raise
    os.replace(part, path)


# ---- drawn

WIDTH, HEIGHT, LEFT, RIGHT, TOP, BOTTOM = 980, 320, 90, 30, 50, 40
MOST_POINTS = 2000  # steps from left to right, of each of which the lowest and the highest value are drawn


def plot(asked: Namespace, data: Data, out: Output) -> None:
    """Draws measurements over time, each by itself: a line through their values, or, where these are many, from the lowest to the
    highest of each step."""
    found = Values(asked, data, out, asked.names)
    points: List[List[Tuple[int, float]]] = [[] for _ in found.all]
    for row in found.rows():
        for number, value in row.values.items():
            points[number].append((row.instant, value))
    every = [instant for some in points for instant, _ in some]
    parts = ['<svg xmlns="http://www.w3.org/2000/svg" width="%d" height="%d" viewBox="0 0 %d %d" font-family="sans-serif" '
             'font-size="12">' % ((WIDTH, HEIGHT * len(points)) * 2), '<title>Measurements over time</title>',
             '<rect width="100%" height="100%" fill="white"/>']
    for number, (one, some) in enumerate(zip(found.all, points)):
        parts += panel(found, one, some, HEIGHT * number, (min(every), max(every)) if every else (0, 1))
    out.write(('\n'.join(parts) + '\n</svg>\n').encode())
    found.judge(out)


def panel(found: Values, one: Measurement, points: List[Tuple[int, float]], top: int, ends: Tuple[int, int]) -> List[str]:
    """A measurement's curve over time, as SVG."""
    low, high = ends
    wide, tall = WIDTH - LEFT - RIGHT, HEIGHT - TOP - BOTTOM
    parts = [words(LEFT, top + 24, title(one), size=15, weight='bold')]
    if not points:
        return parts + [words(LEFT, top + TOP + 20, 'no value in the recording', fill='#444')]
    least, most = min(value for _, value in points), max(value for _, value in points)
    reach = (most - least) or 1.0
    past = (high - low) or 1
    steps: Dict[int, List[float]] = {}
    for instant, value in points:
        steps.setdefault((instant - low) * MOST_POINTS // past, []).append(value)
    made = []
    for step, some in sorted(steps.items()):
        x = LEFT + wide * step / MOST_POINTS
        for value in ([some[0]] if len(some) == 1 else [some[0], min(some), max(some), some[-1]]):
            made.append('%.2f %.2f' % (x, top + TOP + tall * (1 - (value - least) / reach)))
    parts += ['<rect x="%d" y="%d" width="%d" height="%d" fill="#f4f6f8"/>' % (LEFT, top + TOP, wide, tall),
              '<path fill="none" stroke="%s" stroke-width="1.3" d="M%s"/>' % (BLUE, 'L'.join(made if len(made) > 1 else made * 2))]
    for share in range(5):
        value = least + (most - least) * share / 4
        parts.append(words(LEFT - 8, top + TOP + tall * (1 - share / 4) + 4, '%.5g' % value, anchor='end', fill='#444'))
    begin, end = found.time(low), found.time(high)
    first, last = begin[:-5] if begin else 'count %d' % (low & COUNT_BITS), end[:-5] if end else '%s s later' % seconds(high - low)
    reached = '%s values, %s to %s' % (number_text(len(points)), said(least), said(most))
    return parts + [words(LEFT, top + HEIGHT - 14, first, fill='#444'),
                    words(WIDTH - RIGHT, top + HEIGHT - 14, last, anchor='end', fill='#444'),
                    words(WIDTH - RIGHT, top + 24, reached, anchor='end', fill='#444')]
