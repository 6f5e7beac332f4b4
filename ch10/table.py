"""The summary."""
from __future__ import annotations

from argparse import Namespace
import json
from typing import Iterator, List, Optional, Sequence, Tuple

from .clocks import BITS, TimeLine, asked_of
from .doubts import NO_SETUP, doubts_of, has_no_setup, log_said, unread_in
from .inputs import Output, is_recording, listed, shown, the_file
from .log_lines import Log, log_of
from .medium import File, bytes_of
from .parallel import jobs_of
from .standard import COUNT_BITS, Data, Fault
from .survey import REPORT_ROW, Row, Survey, name_of, stretch_fields, stretch_text
from .times import civil


def summary(asked: Namespace, data: Data, out: Output) -> None:
    """`ch10 summary`: of a recording, or of each file of an image. Raises the first fault when all is said."""
    if is_recording(data):
        if asked.file is not None:
            raise Fault('the input is a recording and no image: it has no files')
        return summary_of(asked, data, out, 0, len(data), None, None)
    volume, files = listed(data)
    numbers = range(len(files)) if asked.file is None else [asked.file]
    if not asked.json:
        out.line('volume %s, %s' % (shown(volume), said(len(files), 'file')))
    first = None
    for number in numbers:
        file = the_file(files, number)
        if not asked.json:
            out.line('')
        try:
            begin, end = bytes_of(data, file)
        except Fault as fault:
            if not asked.json:
                out.line('file %d %s: %s' % (number, shown(file.name), fault))
            first = first or Fault('file %d: %s' % (number, fault))
            continue
        try:
            summary_of(asked, data, out, begin, end, number, file, next_log(data, files, number))
        except Fault as fault:
            first = first or Fault('file %d: %s' % (number, fault))
    if first:
        raise first


def next_log(data: Data, files: Sequence[File], number: int) -> Optional[Log]:
    """The log channel of the file after this one: what it has to say of this one stands there where this one had no room for it, or
    was cut off."""
    try:
        return log_of(data, *bytes_of(data, files[number + 1])) if number + 1 < len(files) else None
    except Fault:
        return None


def summary_of(asked: Namespace, data: Data, out: Output, begin: int, end: int, number: Optional[int],
               file: Optional[File], more: Optional[Log] = None) -> None:
    """What one recording has. Raises its first fault, if it has one, when all is said."""
    survey = Survey(data, begin, end, asked=asked_of(asked), more=more, jobs=jobs_of(asked.jobs, end - begin))
    if asked.json:
        front = {} if file is None else {'file': number, 'name': shown(file.name), 'closed': file.closed}
        for found in fields(survey):
            out.line(json.dumps(dict(front, **found)))
    else:
        for line in titles(survey, end - begin, number, file) + tables(survey):
            out.line(line)
    if survey.fault:
        raise first_of(survey, survey.fault)


def first_of(survey: Survey, fault: Fault) -> Fault:
    """The first fault, and how much was passed over where there is more than it."""
    if len(survey.damage) < 2:
        return fault
    return Fault('%s passed over, %s in all; the first: %s' % (
        said(len(survey.damage), 'stretch', 'es'), said(sum(stretch.length for stretch in survey.damage), 'byte'), fault))


def said(number: int, what: str, plural: str = 's') -> str:
    """A number with its word."""
    return '%d %s%s' % (number, what, '' if number == 1 else plural)


def titles(survey: Survey, size: int, number: Optional[int], file: Optional[File]) -> List[str]:
    """What there is as a whole: how much, from when to when, what was passed over, and what the clocks say."""
    what = '%s in %s' % (said(size, 'byte'), said(len(survey.lows), 'packet'))
    if file is None:
        head = 'recording: ' + what
    else:
        head = 'file %s %s: %s, %s' % (number, shown(file.name), what, 'closed' if file.closed else 'not closed')
    if survey.damage:
        head += '; %s of %s passed over' % (said(len(survey.damage), 'stretch', 'es'),
                                            said(sum(stretch.length for stretch in survey.damage), 'byte'))
    lines, span = [head], survey.span()
    if span:
        ends = survey.ends()
        past, many = seconds_of(sum(high - low for low, high in ends)), ' in %d sessions' % len(ends) if len(ends) > 1 else ''
        if survey.clock:
            lines.append('from %s to %s, %s seconds%s' % (*(said or '-' for said in survey.clock.ends(ends)), past, many))
        else:
            lines.append('%s seconds%s, without a civil time' % (past, many))
    lines += session_lines(survey)
    lines += [line for times in survey.times for line in clock_lines(times, survey)]
    lines += doubts_of(survey) + log_said(survey)
    lines += [NO_SETUP] if has_no_setup(survey) else []
    return lines + [stretch_text(stretch) for stretch in survey.damage]


def session_lines(survey: Survey) -> List[str]:
    """Of a recording in which the counter began anew: each session's place, counts and times."""
    lines, ends = [], survey.ends()
    for number, (low, high) in enumerate(ends if len(ends) > 1 else [], 1):
        first, last = survey.clock.ends([(low, high)]) if survey.clock else (None, None)
        lines.append('session %d: offset %d, counts %d to %d, from %s to %s' % (
            number, survey.sessions.starts[low >> BITS], low & COUNT_BITS, high & COUNT_BITS, first or '-', last or '-'))
    return lines


def seconds_of(ticks: int) -> str:
    """Units of 100 ns as seconds, with seven places."""
    return '%d.%07d' % divmod(ticks, 10 ** 7)


def clock_lines(times: TimeLine, survey: Survey) -> Iterator[str]:
    """What the times of a channel say of its clock: a line, and one for each jump."""
    drift, jumps, back = times.drift(), times.jumps(), times.steps_back()
    text = 'not known' if drift is None else '%+.1f parts per million, known to %.1f' % drift
    untold = times.packets - len(times.told) - times.invalid
    anew = '; the counter began anew %s' % said(times.wraps(), 'time') if times.wraps() else ''
    yield 'time on channel %d: %s%s%s, %s, %s back, %s without one; drift %s%s%s' % (
        times.channel, said(times.packets, 'packet'), ', %s no time' % untold if untold else '',
        ', %d invalid' % times.invalid if times.invalid else '', said(len(jumps), 'jump'), said(back, 'step'),
        said(times.without(survey.ends()), 'second'), text, anew, quality_text(times))
    for jump in jumps:
        yield 'time jump on channel %d: offset %d, count %d: %s s, from %s to %s' % (
            times.channel, jump.offset, jump.instant & COUNT_BITS, signed_seconds(jump.by),
            civil_text(jump.before, times.is_dated()), civil_text(jump.after, times.is_dated()))


def quality_text(times: TimeLine) -> str:
    """What there is to be known of a channel's times where its clock was not locked throughout, or its counter out of step."""
    free, out = len(times.told) - times.locked(), times.out()
    return ('; %d not locked' % free if free else '') + ('; %d with a counter out of step' % out if out else '')


def signed_seconds(ticks: int) -> str:
    """The same with its sign."""
    return '%s%d.%07d' % (('-' if ticks < 0 else '+',) + divmod(abs(ticks), 10 ** 7))


def civil_text(ticks: int, dated: bool) -> str:
    """A civil time to two places after the second, or -."""
    front = civil(ticks, dated) if ticks >= 0 else None
    return '%s.%02d' % (front, ticks % 10 ** 7 // 10 ** 5) if front else '-'


def tables(survey: Survey) -> List[str]:
    """What each channel has, and when."""
    if not survey.rows:
        return []
    much: List[tuple] = [('channel', 'name', 'type', 'packets', 'entries', 'bytes', 'entries/s', 'losses', 'lost', 'jumps',
                          'opaque', 'bad')]
    when: List[tuple] = [('channel', 'name', 'type', 'first', 'last', 'first time', 'last time')]
    names = survey.names
    for row in survey.rows:
        rate = row.rate()
        front = row.channel, names.channel(row.channel) if row.kind != REPORT_ROW else '', name_of(row.kind)
        much.append(front + (row.packets, row.entries if row.has_entries() else '-', row.bytes,
                     '-' if rate is None else rate_text(rate), row.losses, at_least(row.lost, row.untold), row.jumps,
                             row.opaque, row.bad))
        if row.packets:
            ends = row.first(), row.last()
            when.append(front + row.counts() + tuple(survey.clock and survey.clock.text(end, 2) or '-' for end in ends))
    sums = [sum(getattr(row, name) for row in survey.rows)
            for name in ('packets', 'entries', 'bytes', 'losses', 'lost', 'untold', 'jumps', 'opaque')]
    much.append(('all', '', '', *sums[:3], '', sums[3], at_least(*sums[4:6]), *sums[6:], len(survey.damage)))
    unread = [one.text() for one in unread_in(survey)]
    return [''] + table(much) + [''] + table(when) + ([''] + unread if unread else [])


def rate_text(rate: float) -> str:
    """A rate with as many places as a slow channel needs."""
    return '%.1f' % rate if rate >= 100 else '%.3g' % rate


def at_least(lost: int, untold: int) -> str:
    """How many messages were lost, where of so many losses it isn't told how many."""
    return '%d%s' % (lost, '+' if untold else '')


def table(rows: List[tuple]) -> List[str]:
    """Rows in columns: names, types and times to the left, all others to the right; without the names where there are none."""
    if not any(row[1] for row in rows[1:]):
        rows = [row[:1] + row[2:] for row in rows]
    texts = [[str(cell) for cell in row] for row in rows]
    widths = [max(map(len, column)) for column in zip(*texts)]
    left = [head in ('name', 'type') or head.endswith('time') for head in texts[0]]
    return [' '.join(cell.ljust(width) if is_left else cell.rjust(width)
                     for cell, width, is_left in zip(row, widths, left)).rstrip()
            for row in texts]


def fields(survey: Survey) -> Iterator[dict]:
    """The objects of JSON lines: of each channel and type, of each clock, of each stretch that was passed over."""
    for row in survey.rows:
        yield of_row(row, survey)
    for times in survey.times:
        yield {'clock': of_clock(times, survey.ends())}
    for one in unread_in(survey):
        yield {'unread': {'channel': one.channel, 'type': name_of(one.kind), 'packets': one.packets, 'why': one.why}}
    for line in doubts_of(survey) + log_said(survey) + ([NO_SETUP] if has_no_setup(survey) else []):
        yield {'note': line}
    for stretch in survey.damage:
        yield stretch_fields(stretch)


def of_row(row: Row, survey: Survey) -> dict:
    """A channel as JSON has it."""
    has, clock = row.packets > 0, survey.clock
    return {
        'channel': row.channel, 'channel_name': survey.names.channel(row.channel) or None, 'type': name_of(row.kind),
        'packets': row.packets, 'entries': row.entries if row.has_entries() else None,
        'bytes': row.bytes, 'first': row.counts()[0] if has else None, 'last': row.counts()[1] if has else None,
        'first_time': clock and has and clock.text(row.first()) or None,
        'last_time': clock and has and clock.text(row.last()) or None, 'rate': row.rate(),
        'losses': row.losses, 'lost': row.lost, 'lost_after': row.after, 'untold': row.untold,
        'jumps': row.jumps, 'opaque': row.opaque, 'bad': row.bad}


def of_clock(times: TimeLine, ends: Sequence[Tuple[int, int]]) -> dict:
    """The clock of a time channel as JSON has it."""
    drift, dated = times.drift(), times.is_dated()
    return {
        'channel': times.channel, 'packets': times.packets, 'no_time': times.packets - len(times.told),
        'steps_back': times.steps_back(), 'wraps': times.wraps(),
        'seconds_without': times.without(ends), 'drift_ppm': drift and drift[0], 'drift_known_to': drift and drift[1],
        'jumps': [{'offset': jump.offset, 'count': jump.instant & COUNT_BITS, 'from': civil_text(jump.before, dated),
                   'to': civil_text(jump.after, dated),
                   'seconds': jump.by / 10 ** 7} for jump in times.jumps()],
        'invalid': times.invalid, 'locked': times.locked(), 'out_of_step': times.out()}
