"""Times in recordings that are written from chapter 11 (`chapter11`), one fact a recording, and what every command has to say of
them. `scripts/trials/ch10_trials.py check` runs them: each function of TRIALS gives what was found and what is wanted."""
import csv
import datetime
import io
import json
import pathlib
import sqlite3
import tempfile
import time
from typing import Callable, Dict, List, Sequence, Tuple

import chapter11 as made
from chapter11 import SECOND, Recording
from ch10 import command

Found = Tuple[object, object]


def run(words: Sequence[str], data: bytes) -> Tuple[int, bytes, str]:
    """The status, the output and the lines of a call."""
    to = io.BytesIO()
    status, line = command.answer(list(words), lambda: data, lambda: to)
    return status, to.getvalue(), line or ''


def rows(words: Sequence[str], data: bytes, *names: str) -> List[Tuple[str, ...]]:
    """Those columns of the entries of csv."""
    return [tuple(row[name] for name in names) for row in csv.DictReader(io.StringIO(run(['csv', *words], data)[1].decode()))]


def times(words: Sequence[str], data: bytes) -> List[str]:
    """The times of the entries of channel 5."""
    return [time for time, in rows(['--channel', '5', *words], data, 'time')]


def by_ways(data: bytes) -> Dict[str, List[Tuple[object, object]]]:
    """The times and values of the entries of channel 5 by each command that writes entries."""
    found: Dict[str, List[Tuple[object, object]]] = {'csv': list(rows(['--channel', '5'], data, 'time', 'text'))}
    raw = rows(['--channel', '5', '--raw'], data, 'time', 'value')
    found['raw'] = [(time, bytes.fromhex(value).decode()) for time, value in raw]
    lines = map(json.loads, run(['json', '--channel', '5'], data)[1].splitlines())
    found['json'] = [(row['time'] or '', row['text']) for row in lines if 'text' in row]
    with tempfile.TemporaryDirectory() as folder:
        path = pathlib.Path(folder, 'flight.ch10')
        path.write_bytes(data)
        run(['sqlite', '--out', folder + '/one.db'], data)
        run(['load', '--db', folder + '/many.db', '--unjudged', '--jobs', '1', str(path)], b'')
        for name, text in (('one', "SELECT coalesce(time, ''), text FROM uart WHERE channel = 5 ORDER BY rowid"),
                           ('many', "SELECT coalesce(time, ''), value FROM entry_uart WHERE channel = 5 ORDER BY rowid")):
            base = sqlite3.connect('%s/%s.db' % (folder, name))
            found[name] = [(time, text if isinstance(text, str) else text.decode()) for time, text in base.execute(text)]
            base.close()
    return found


def from_to(data: bytes) -> List[Tuple[str, str]]:
    """The first and the last time that summary, database, catalogue and report say of a recording."""
    line = next((line for line in run(['summary'], data)[1].decode().splitlines() if line.startswith('from ')), 'from - to -,')
    said = [tuple(line[5:].split(',')[0].split(' to '))]
    with tempfile.TemporaryDirectory() as folder:
        path = pathlib.Path(folder, 'flight.ch10')
        path.write_bytes(data)
        run(['sqlite', '--out', folder + '/one.db'], data)
        base = sqlite3.connect(folder + '/one.db')
        said += base.execute("SELECT coalesce(first_time, '-'), coalesce(last_time, '-') FROM files").fetchall()
        base.close()
        run(['catalogue', 'add', '--db', folder + '/many.db', '--unjudged', '--jobs', '1', str(path)], b'')
        facts = json.loads(run(['catalogue', 'find', '--db', folder + '/many.db', '--json'], b'')[1])
        said.append((facts['first_time'] or '-', facts['last_time'] or '-'))
        page = run(['report', '--unjudged', str(path)], b'')[1].decode()
        said.append(tuple(page.split('<p>From ')[1].split('.</p>')[0].split(' to ')) if '<p>From ' in page else ('-', '-'))
    return said


def entry(made_of: Recording, count: int, text: str, **more) -> None:
    """An entry of channel 5 at a count."""
    made_of.add(5, 0x50, count, made.uart([(count, text.encode())]), **more)


# ---- sessions of the counter (11.2.1.1, relative time counter)

def two_flights(gap: bool = False) -> bytes:
    """Six seconds at 09:00, then the recorder is switched on anew, and its counter begins again: six seconds at 11:00."""
    one = Recording()
    for hour, name in ((9, 'a'), (11, 'b')):
        one.restart()
        if not gap:
            one.add(0, 0x01, SECOND, made.setup(b'G\\106:17;'))
        for second in range(6):
            count = (1 + second) * SECOND
            one.add(1, 0x11, count, made.time_f1('2024-05-17 %02d:00:%02d.00' % (hour, second)))
            entry(one, count + SECOND // 2, '%s%d' % (name, second))
            one.add(9, 0x29, count + SECOND // 2, made.discretes([(count + SECOND // 2, (1 if name == 'a' else 128) + second)]))
    return one.data()


FLIGHTS = [('2024-05-17 %s:00:%02d.5000000' % (hour, second), '%s%d' % (name, second))
           for hour, name in (('09', 'a'), ('11', 'b')) for second in range(6)]


def counter_back() -> Found:
    """Each entry has the time of its own session, and sessions come one after the other, by each command, with a setup between
    them and without."""
    found = [by_ways(two_flights(gap)) for gap in (False, True)]
    return found, [dict.fromkeys(('csv', 'raw', 'json', 'one', 'many'), FLIGHTS)] * 2


def counter_back_ends() -> Found:
    """Summary, database, catalogue and report agree on the first and the last time of two sessions, and no sequence number
    jumps."""
    ends = '2024-05-17 09:00:00.0000000', '2024-05-17 11:00:05.5000000'
    said = run(['summary'], two_flights())[1].decode().splitlines()
    return (from_to(two_flights()), [line for line in said if line.startswith('session ')], said[1].split(', ')[1],
            [line.split()[-3] for line in said if line.startswith('all') or ' all ' in line]), (
                [ends] * 4, ['session 1: offset 0, counts 10000000 to 65000000, from 2024-05-17 09:00:00.0000000 to '
                             '2024-05-17 09:00:05.5000000', 'session 2: offset 800, counts 10000000 to 65000000, from '
                             '2024-05-17 11:00:00.0000000 to 2024-05-17 11:00:05.5000000'],
                '11.0000000 seconds in 2 sessions', ['0'])


def counter_back_range() -> Found:
    """A range takes what lies in it of each session, with the time that holds where it begins, and its entries have the same times
    then."""
    data, found = two_flights(), []
    for first, last in (('09:00:00', '09:30:00'), ('11:00:02', '11:00:03'), ('11:00:02.2', '11:00:02.8'),
                        ('09:00:05', '11:00:01')):
        words = ['--from', '2024-05-17 ' + first, '--to', '2024-05-17 ' + last]
        found.append((times(words, data), times([], run(['range', *words], data)[1])))
    said = [[time for time, _ in FLIGHTS[low:high]] for low, high in ((0, 6), (8, 9), (8, 9), (5, 7))]
    return found, [(some, some) for some in said]


def range_holds_its_time() -> Found:
    """A range has the time that holds where it begins: no one that says it is invalid, and the first one where all come later."""
    one = opened().add(1, 0x11, 2 * SECOND, made.time_f1('2024-05-17 09:00:02.00'))
    one.add(1, 0x11, 3 * SECOND, made.time_f1('2000-01-01 00:00:00.00', form=made.NO_TIME))
    for count in (1, 4):
        entry(one, count * SECOND, str(count))
    found = [times([], run(['range', '--from', said, '--to', said], one.data())[1])
             for said in ('2024-05-17 09:00:01', '2024-05-17 09:00:04')]
    return found, [['2024-05-17 09:00:01.0000000'], ['2024-05-17 09:00:04.0000000']]


def clock_back() -> bytes:
    """Ten seconds, then the clock is set back by seven, and goes on for ten more; the counter goes on."""
    one = opened()
    for second in range(20):
        one.add(1, 0x11, second * SECOND, made.time_f1('2024-05-17 09:00:%02d.00' % (second if second < 10 else second - 7)))
        entry(one, second * SECOND + SECOND // 2, str(second))
    return one.data()


def clock_back_range() -> Found:
    """A range of a recording whose clock was set back takes what has such a time before that and after it, with the time that holds
    where each of the two begins: its entries have the same times then, by csv and by the summary."""
    data, found, wanted = clock_back(), [], []
    for first, last, places in (('04.2', '04.8', (4, 11)), ('04', '06', (4, 5, 11, 12)), ('00', '03.2', (0, 1, 2)),
                                ('08.5', '12', (8, 9, 15, 16, 17, 18)), ('03.5', '03.5', (3, 10))):
        words = ['--from', '2024-05-17 09:00:' + first, '--to', '2024-05-17 09:00:' + last]
        status, part, _ = run(['range', *words], data)
        said = rows(['--channel', '5'], part, 'time', 'text')
        found.append((status, rows(['--channel', '5', *words], data, 'time', 'text'), said, times(words, part)))
        some = [('2024-05-17 09:00:%02d.5000000' % (place if place < 10 else place - 7), str(place)) for place in places]
        wanted.append((0, some, some, [time for time, _ in some]))
    return found, wanted


def clock_back_range_size() -> Found:
    """Such a range has the setup, the time before each of its two stretches, and the entries: no packet more."""
    words = ['--from', '2024-05-17 09:00:04.2', '--to', '2024-05-17 09:00:04.8']
    part = run(['range', *words], clock_back())[1]
    return [(row['type'], row['packets']) for row in map(json.loads, run(['summary', '--json'], part)[1].splitlines())
            if 'packets' in row], [('setup', 1), ('time', 2), ('uart', 2)]


def counter_back_states() -> Found:
    """What changed in discretes is told by the states before of the same session."""
    with tempfile.TemporaryDirectory() as folder:
        path = pathlib.Path(folder, 'flight.ch10')
        path.write_bytes(two_flights())
        run(['load', '--db', folder + '/many.db', '--unjudged', '--jobs', '1', str(path)], b'')
        base = sqlite3.connect(folder + '/many.db')
        stored = [changed for changed, in base.execute('SELECT changed FROM entry_discrete ORDER BY rowid')]
        base.close()
    return (rows(['--kind', 'discrete'], two_flights(), 'changed')[4:7], stored), (
        [('+0',), ('-0 +1',), ('',)], [None, 3, 1, 7, 1, 3, None, 1, 3, 1, 7, 1])


def counter_full() -> Found:
    """Where the 48 bits of the counter are full the clock goes on, what comes after comes last, and a packet that was written late
    is of the time before."""
    one, start = Recording(), (1 << 48) - 3 * SECOND
    for second in range(3):
        one.add(1, 0x11, start + second * SECOND, made.time_f1('2024-05-17 09:00:%02d.00' % second))
    one.add(1, 0x11, 0, made.time_f1('2024-05-17 09:00:03.00'))
    entry(one, (1 << 48) - SECOND // 2, 'late')
    entry(one, SECOND // 2, 'after')
    return (by_ways(one.data())['csv'], run(['summary'], one.data())[1].decode().splitlines()[1:3]), (
        [('2024-05-17 09:00:02.5000000', 'late'), ('2024-05-17 09:00:03.5000000', 'after')],
        ['from 2024-05-17 09:00:00.0000000 to 2024-05-17 09:00:03.5000000, 3.5000000 seconds',
         'time on channel 1: 4 packets, 0 jumps, 0 steps back, 0 seconds without one; drift not known; the counter began anew 1 '
         'time'])


def order_of_writing() -> Found:
    """Packets that were written in another order than their counters' are no sessions: those of other channels, and those of one
    channel within two seconds."""
    one = Recording()
    one.add(1, 0x11, 0, made.time_f1('2024-05-17 09:00:00.00'))
    one.add(1, 0x11, 100 * SECOND, made.time_f1('2024-05-17 09:01:40.00'))
    for count in (3, 2, 50, 49):
        entry(one, count * SECOND, str(count))
    return by_ways(one.data())['csv'], [('2024-05-17 09:00:%02d.0000000' % count, str(count)) for count in (2, 3, 49, 50)]


def counter_to_and_fro() -> Found:
    """A counter that goes to and fro at each packet takes no call an hour: there are only so many sessions, and no entry is
    lost."""
    one = opened()
    for place in range(6000):
        one.add(1, 0x11, place % 2 * 50 * SECOND + SECOND, made.time_f1('2024-05-17 09:00:00.00'))
        entry(one, (1 - place % 2) * 50 * SECOND + SECOND, str(place))
    begun = time.process_time()
    found = [len(times([], one.data())), run(['summary'], one.data())[0], run(['svg'], one.data())[0]]
    return found + [time.process_time() - begun < 60], [6000, 0, 0, True]


def half_timed() -> bytes:
    """A session with a time, and one without."""
    one = Recording()
    one.add(1, 0x11, 0, made.time_f1('2024-05-17 09:00:00.00'))
    for count in (5, 9):
        entry(one, count * SECOND, 'a')
    one.restart()
    for count in (1, 2):
        entry(one, count * SECOND, 'b')
    return one.data()


def session_without_times() -> Found:
    """A session without a time packet has no times: those of another one are not its."""
    wanted = [('2024-05-17 09:00:05.0000000', 'a'), ('2024-05-17 09:00:09.0000000', 'a'), ('', 'b'), ('', 'b')]
    return (by_ways(half_timed()), from_to(half_timed())), (
        dict.fromkeys(('csv', 'raw', 'json', 'one', 'many'), wanted),
        [('2024-05-17 09:00:00.0000000', '2024-05-17 09:00:09.0000000')] * 4)


# ---- calendars (11.2.3, time data packets, format 1)

def ticking(some: Sequence[str], **more) -> bytes:
    """A time packet each second, and an entry 0.3 and 0.7 s after each."""
    one = Recording()
    for second, said in enumerate(some):
        one.add(1, 0x11, second * SECOND, made.time_f1(said, **more))
        for part in (3, 7):
            entry(one, second * SECOND + part * SECOND // 10, '%d.%d' % (second, part))
    return one.data()


LEAP = ('2016-12-31 23:59:59.50', '2016-12-31 23:59:60.50', '2017-01-01 00:00:00.50', '2017-01-01 00:00:01.50')


def leap_second() -> Found:
    """A second 60 is a time of its own: no jump, no second without a time, and times rise through it."""
    data = ticking(LEAP)
    said = run(['summary'], data)[1].decode().splitlines()
    return (times([], data), said[2]), (
        ['2016-12-31 23:59:59.8000000', '2016-12-31 23:59:60.2000000', '2016-12-31 23:59:60.8000000',
         '2017-01-01 00:00:00.2000000', '2017-01-01 00:00:00.8000000', '2017-01-01 00:00:01.2000000',
         '2017-01-01 00:00:01.8000000', '2017-01-01 00:00:02.2000000'],
        'time on channel 1: 4 packets, 0 jumps, 0 steps back, 0 seconds without one; drift not known')


def leap_second_ranges() -> Found:
    """A range may begin and end in a second 60, which lies between the seconds beside it."""
    data = ticking(LEAP)
    return [times(['--from', first, '--to', last], data) for first, last in (
        ('2016-12-31 23:59:60', '2016-12-31 23:59:60.9999999'), ('2017-01-01 00:00:00', '2017-01-01 00:00:00.9999999'),
        ('2016-12-31 23:59:59', '2016-12-31 23:59:59.9999999'), ('23:59:60.5', '2017-01-01 00:00:00.3'))], [
            ['2016-12-31 23:59:60.2000000', '2016-12-31 23:59:60.8000000'],
            ['2017-01-01 00:00:00.2000000', '2017-01-01 00:00:00.8000000'], ['2016-12-31 23:59:59.8000000'],
            ['2016-12-31 23:59:60.8000000', '2017-01-01 00:00:00.2000000']]


def leap_second_of_a_day() -> Found:
    """The same where times have the day of the year, in a year of 366 days and in another."""
    found = [times([], ticking(['%s 23:59:59.50' % day, '%s 23:59:60.50' % day, '001 00:00:00.50'], leap=leap))
             for day, leap in (('366', True), ('365', False))]
    return [some[1:4] for some in found], [
        ['%s 23:59:60.2000000' % day, '%s 23:59:60.8000000' % day, '001 00:00:00.2000000'] for day in ('366', '365')]


NEW_YEAR = ('365 23:59:58.00', '365 23:59:59.00', '001 00:00:00.00', '001 00:00:01.00')


def new_year() -> Found:
    """A day of the year after the last one is no jump: the flight goes on, and so does a range."""
    data = ticking(NEW_YEAR)
    said = run(['summary'], data)[1].decode().splitlines()
    return (said[1:3], times(['--from', '365 23:59:59'], data), times(['--from', '001 00:00:00.5'], data)), (
        ['from 365 23:59:58.0000000 to 001 00:00:01.7000000, 3.7000000 seconds',
         'time on channel 1: 4 packets, 0 jumps, 0 steps back, 0 seconds without one; drift not known'],
        ['365 23:59:59.3000000', '365 23:59:59.7000000', '001 00:00:00.3000000', '001 00:00:00.7000000', '001 00:00:01.3000000',
         '001 00:00:01.7000000'], ['001 00:00:00.7000000', '001 00:00:01.3000000', '001 00:00:01.7000000'])


# ---- what time packets say of themselves (11.2.3: format, source, lock)

def notes(words: Sequence[str], data: bytes) -> Tuple[int, List[str]]:
    """The status and the lines of a call."""
    status, _, line = run(words, data)
    return status, line.splitlines()


def opened(text: bytes = b'G\\106:17;') -> Recording:
    return Recording().add(0, 0x01, 0, made.setup(text))


def invalid_format() -> Found:
    """A time packet whose format is 15 says that it is none: it is not used, and that is said. Alone it gives no time."""
    one = opened().add(1, 0x11, 0, made.time_f1('2024-05-17 09:00:00.00'))
    one.add(1, 0x11, SECOND, made.time_f1('2000-01-01 00:00:00.00', form=made.NO_TIME))
    entry(one, SECOND + SECOND // 2, 'a')
    alone = opened().add(1, 0x11, 0, made.time_f1('2000-01-01 00:00:00.00', form=made.NO_TIME))
    entry(alone, SECOND, 'a')
    return (by_ways(one.data()), notes(['csv'], one.data()), from_to(alone.data()), notes(['csv'], alone.data())), (
        dict.fromkeys(('csv', 'raw', 'json', 'one', 'many'), [('2024-05-17 09:00:01.5000000', 'a')]),
        (0, ['times: 1 of 2 time packets of channel 1 say that they are invalid, and are not used']), [('-', '-')] * 4,
        (0, ['times: 1 of 1 time packets of channel 1 say that they are invalid, and are not used']))


def no_source() -> Found:
    """Source 15 alone says that there is no source: the time is one of a clock by itself."""
    one = opened().add(1, 0x11, 0, made.time_f1('2024-05-17 09:00:00.00', source=made.NO_SOURCE))
    entry(one, SECOND, 'a')
    return (times([], one.data()), rows(['--channel', '5', '--quality'], one.data(), 'quality'), notes(['csv'], one.data())), (
        ['2024-05-17 09:00:01.0000000'], [('free',)], (0, ['times: the clock of channel 1 was not locked at 1 of 1 times']))


def qualities() -> Found:
    """How good each time is: locked by the lock bits, or, where a recorder has none, by an external source; free; a counter out of
    step (packet flags, bit 5)."""
    one = opened()
    for second, (lock, flags) in enumerate(((made.LOCKED_GPS, 0), (made.FREE, 0), (made.LOCKED_IRIG, made.COUNTER_ERROR))):
        one.add(1, 0x11, second * SECOND, made.time_f1('2024-05-17 09:00:%02d.00' % second, lock=lock), flags=flags)
        entry(one, second * SECOND + 5, 'a')
        if second == 0:
            entry(one, 6, 'b', flags=made.COUNTER_ERROR)
    old = opened().add(1, 0x11, 0, made.time_f1('2024-05-17 09:00:00.00', source=made.EXTERNAL))
    entry(old, 5, 'a')
    by_json = [json.loads(line)['quality'] for line in run(['json', '--channel', '5', '--quality'], one.data())[1].splitlines()]
    raw = run(['csv', '--raw', '--quality', '--channel', '5'], one.data())[1].decode().splitlines()
    wanted = ['locked', 'locked+counter error', 'free', 'locked+counter error']
    plain = [line.rsplit(',', 1)[0] for line in run(['csv', '--quality'], one.data())[1].decode().splitlines()]
    return ([said for said, in rows(['--channel', '5', '--quality'], one.data(), 'quality')], by_json,
            [line.rsplit(',', 1)[1] for line in raw], plain == run(['csv'], one.data())[1].decode().splitlines(),
            rows(['--channel', '5', '--quality'], old.data(), 'quality')), (
                wanted, wanted, ['quality'] + wanted, True, [('locked',)])


def qualities_of_many() -> Found:
    """The column is the same where many entries are written at once: a recording large enough for that."""
    one = opened()
    for second in range(40):
        one.add(1, 0x11, second * SECOND, made.time_f1('2024-05-17 09:00:%02d.00' % second,
                                                       lock=made.LOCKED_GPS if second < 30 else made.FREE))
        count = second * SECOND + 9
        one.add(5, 0x50, count, made.uart([(count + place, b'"q", %d' % place) for place in range(1000)]))
    data = one.data()
    found = [row['quality'] for row in csv.DictReader(io.StringIO(run(['csv', '--channel', '5', '--quality'], data)[1].decode()))]
    by_json = [json.loads(line)['quality'] for line in run(['json', '--channel', '5', '--quality'], data)[1].splitlines()]
    wanted = ['locked'] * 30000 + ['free'] * 10000
    part = times(['--from', '09:00:05', '--to', '09:00:33.000001'], data)
    return (found == wanted, by_json == wanted, len(part), part[0], part[-1], len(data) > 300000), (
        True, True, 28002, '2024-05-17 09:00:05.0000009', '2024-05-17 09:00:33.0000010', True)


def two_channels(first: dict, second: dict, **more) -> bytes:
    """Two time channels, the second one an hour later."""
    one = opened(**more)
    for at in range(3):
        one.add(1, 0x11, at * SECOND, made.time_f1('2024-05-17 09:00:%02d.00' % at, **first))
        one.add(2, 0x11, at * SECOND, made.time_f1('2024-05-17 10:00:%02d.00' % at, **second))
    entry(one, 2 * SECOND + 5, 'a')
    return one.data()


def best_channel() -> Found:
    """Times go by the channel whose clock was locked, of an external source before the recorder's own, the first one else; or by
    the one that the call names. That another one tells other times is said."""
    inner, outer, locked = dict(source=made.INTERNAL), {}, dict(lock=made.LOCKED_GPS)
    found = []
    free = dict(lock=made.FREE_COMMAND)
    for first, second, words in ((inner, outer, []), (outer, inner, []), (outer, outer, []), (free, locked, []),
                                 (locked, locked, ['--time-channel', '2']), (locked, inner, ['--time-channel', '2'])):
        found.append(times(words, two_channels(first, second))[0][11:13])
    data = two_channels(inner, outer)
    return (found, notes(['csv'], data), notes(['csv', '--time-channel', '7'], data)), (
        ['10', '09', '09', '10', '10', '10'],
        (0, ['times: they are those of channel 2; channel 1 tells others, up to 3600.00 s apart']),
        (1, ['channel 7 has no time packet that tells a time']))


def unlocked_start() -> Found:
    """A clock that starts unlocked is set right on the way: --time-from-end counts the times before it back from there."""
    one = opened()
    for second, said in enumerate(('1970-01-01 00:00:00.00', '1970-01-01 00:00:01.00', '2024-05-17 09:00:02.00',
                                   '2024-05-17 09:00:03.00')):
        one.add(1, 0x11, second * SECOND, made.time_f1(said, lock=made.LOCKED_IRIG if second > 1 else made.FREE))
        entry(one, second * SECOND + 5, 'a')
    data = one.data()
    return (times([], data), times(['--time-from-end'], data),
            rows(['--channel', '5', '--time-from-end', '--quality'], data, 'quality'),
            times(['--time-from-end', '--from', '09:00:01', '--to', '09:00:02'], data)), (
                ['1970-01-01 00:00:00.0000005', '1970-01-01 00:00:01.0000005', '2024-05-17 09:00:02.0000005',
                 '2024-05-17 09:00:03.0000005'], ['2024-05-17 09:00:%02d.0000005' % second for second in range(4)],
                [('locked',)] * 4, ['2024-05-17 09:00:01.0000005'])


# ---- network times (11.2.3, time data packets, format 2)

UNIX_2024 = 1715936400  # 2024-05-17 09:00:00 by UTC, in seconds since 1970


def network_times() -> Found:
    """IEEE 1588 counts TAI, which was 37 s ahead of UTC in 2024; NTP counts UTC from 1900 on. What is not valid is not used."""
    found = []
    for body in (made.time_f2(UNIX_2024 + 37, 250000000), made.time_f2(UNIX_2024 + 2208988800, 1 << 30, protocol=0),
                 made.time_f2(UNIX_2024 + 37, 250000000, protocol=1), made.time_f2(UNIX_2024, 0, valid=False)):
        one = opened().add(1, 0x12, SECOND, body)
        entry(one, 2 * SECOND, 'a')
        found.append((times([], one.data()), notes(['csv'], one.data())))
    return found, [(['2024-05-17 09:00:01.2500000'], (0, []))] * 3 + [
        ([''], (0, ['times: 1 of 1 time packets of channel 1 say that they are invalid, and are not used']))]


def network_leap_second() -> Found:
    """IEEE 1588 goes through the second 60 at the end of 2016, before which TAI was 36 s ahead, without a jump."""
    one = opened()
    for second in range(4):
        one.add(1, 0x12, second * SECOND, made.time_f2(1483228798 + 36 + second, 500000000))
        entry(one, second * SECOND, str(second))
    said = run(['summary'], one.data())[1].decode().splitlines()
    return (times([], one.data()), said[2]), (
        ['2016-12-31 23:59:58.5000000', '2016-12-31 23:59:59.5000000', '2016-12-31 23:59:60.5000000',
         '2017-01-01 00:00:00.5000000'],
        'time on channel 1: 4 packets, 0 jumps, 0 steps back, 0 seconds without one; drift not known')


# ---- the times of secondary headers (11.2.1.2)

def header_times() -> Found:
    """Where no time packet tells a time those of secondary headers do: IEEE 1588 by TAI, and that of chapter 4, whose year --year
    tells; by each command, and in a range of it. That is said."""
    found = []
    for form, start, words in ((made.IEEE_1588, (UNIX_2024 + 37) * SECOND, []),
                               (made.CHAPTER_4, 137 * 24 * 3600 * SECOND + 9 * 3600 * SECOND, ['--year', '2024'])):
        one = opened()
        for place in range(6):
            entry(one, place * SECOND // 2 + 100, str(place), flags=form << 2,
                  secondary=made.time_of(form, start + place * SECOND // 2))
        data = one.data()
        ranged = run(['range', '--from', '09:00:01.2', '--to', '09:00:02', *words], data)[1]
        found.append((times(words, data), times(words, ranged), notes(['csv', *words], data),
                      [said for said, in rows(['--channel', '5', '--quality', *words], data, 'quality')][:1]))
        if form == made.IEEE_1588:
            ways = by_ways(data)
    every = ['2024-05-17 09:00:0%d.%d000000' % (place // 2, place % 2 * 5) for place in range(6)]
    said = (0, ['times: no time packet tells one; they are those of secondary headers'])
    return (found, ways), ([(every, every[3:5], said, ['free'])] * 2,
                           dict.fromkeys(('csv', 'raw', 'json', 'one', 'many'), list(zip(every, '012345'))))


def header_times_come_last() -> Found:
    """A time packet comes before them, and so does nothing at all before the extended counter, which tells no time."""
    one = opened().add(1, 0x11, 0, made.time_f1('2024-05-17 09:00:00.00'))
    entry(one, 5, 'a', secondary=made.time_of(made.IEEE_1588, 0), flags=made.IEEE_1588 << 2)
    other = opened()
    entry(other, 5, 'a', secondary=made.time_of(made.EXTENDED_COUNTER, 10 ** 12), flags=made.EXTENDED_COUNTER << 2)
    late = opened()
    entry(late, 5, 'a', secondary=made.time_of(made.CHAPTER_4, 400 * 24 * 3600 * SECOND), flags=made.CHAPTER_4 << 2)
    return [(times([], data), notes(['csv'], data)) for data in (one.data(), other.data(), late.data())], [
        (['2024-05-17 09:00:00.0000005'], (0, [])), ([''], (0, [])), ([''], (0, []))]


# ---- the year of times that have none

def year_given() -> Found:
    """--year is the year of the first time; after New Year it is the next one. With it a database of many has times."""
    data = ticking(NEW_YEAR)
    said = times(['--year', '2023'], data)
    with tempfile.TemporaryDirectory() as folder:
        path = pathlib.Path(folder, 'flight.ch10')
        path.write_bytes(data)
        run(['load', '--db', folder + '/many.db', '--unjudged', '--jobs', '1', '--year', '2023', str(path)], b'')
        base = sqlite3.connect(folder + '/many.db')
        stored = [time for time, in base.execute('SELECT time FROM entry_uart ORDER BY rowid')]
        base.close()
        later = run(['catalogue', 'find', '--db', folder + '/many.db', '--from', '2024-01-01'], b'')[1].count(b'flight.ch10')
    return (said[::3], stored == said, later, times(['--year', '2023', '--from', '2024-01-01 00:00:01'], data),
            times(['--year', '2023', '--from', '001 00:00:01'], data), [said for said, in rows(
                ['--channel', '5', '--year', '2023', '--quality'], data, 'quality')][:1]), (
                ['2023-12-31 23:59:58.3000000', '2023-12-31 23:59:59.7000000', '2024-01-01 00:00:01.3000000'], True, 1,
                ['2024-01-01 00:00:01.3000000', '2024-01-01 00:00:01.7000000'],
                ['2024-01-01 00:00:01.3000000', '2024-01-01 00:00:01.7000000'], ['locked'])


def year_by_channel() -> Found:
    """A channel whose times have no year has that of another one that has: the nearest."""
    one = opened()
    one.add(2, 0x11, 0, made.time_f1('2024-01-01 00:00:03.00', source=made.INTERNAL))
    for second, said in enumerate(NEW_YEAR):
        one.add(1, 0x11, second * SECOND, made.time_f1(said, lock=made.LOCKED_IRIG))
        entry(one, second * SECOND + 5, 'a')
    return (times([], one.data())[1:3], rows(['--channel', '5', '--quality'], one.data(), 'quality')[0]), (
        ['2023-12-31 23:59:59.0000005', '2024-01-01 00:00:00.0000005'], ('locked',))


def year_guessed() -> Found:
    """By the setup's date (chapter 9, G\\OD) the year is a guess, and is called so: the first one whose day lies after it, and that
    has 366 days where a packet says so. By the file's date it is the last one before it. Nothing fits, nothing is guessed."""
    def flight(setup: bytes, leap: bool) -> bytes:
        one = opened(setup).add(1, 0x11, 0, made.time_f1('138 09:00:00.00', leap=leap))
        entry(one, 5, 'a')
        return one.data()

    found = []
    for setup, leap in ((b'G\\OD:03-01-2022;', False), (b'G\\OD:03-01-2022;', True), (b'G\\OD:09-01-2022;', False), (b'', True)):
        data = flight(setup, leap)
        found.append((times([], data)[0][:10], rows(['--channel', '5', '--quality'], data, 'quality')[0][0]))
    to = io.BytesIO()
    by_file = command.answer(['csv', '--channel', '5'], lambda: flight(b'', False), lambda: to,
                             lambda: datetime.date(2026, 3, 1))
    return (found, to.getvalue().decode().splitlines()[1].split(',')[3][:10], by_file), (
        [('2022-05-18', 'locked+guessed year'), ('2024-05-17', 'locked+guessed year'), ('2023-05-18', 'locked+guessed year'),
         ('138 09:00:', 'locked')], '2025-05-18', (0, "times: the year 2025 is guessed by the file's date; --year gives another"))


# ---- nothing is left out unseen

def left_out() -> Found:
    """What could not be read has a line for each channel on standard error: the status is 1 where it is of a kind that the command
    writes, and 0 where it is not. The same stands in the summary, the database, the catalogue and the report."""
    one = opened().add(1, 0x11, 0, made.time_f1('2024-05-17 09:00:00.00'))
    for place in range(3):
        one.add(6, 0x30, place, made.messages([(place, b'part')], part=1))
        one.add(20, 0xF3, place, bytes(8))
    entry(one, 5, 'a')
    data = one.data()
    lines = ['channel 6, message: 3 packets not read: a segment of a message that is not whole',
             'channel 20, type-f3: 3 packets not read: a type that is not read here']
    with tempfile.TemporaryDirectory() as folder:
        path = pathlib.Path(folder, 'flight.ch10')
        path.write_bytes(data)
        by_file = notes(['sqlite', '--out', folder + '/one.db'], data)
        base = sqlite3.connect(folder + '/one.db')
        stored = base.execute('SELECT channel, type, packets, why FROM unread').fetchall()
        base.close()
        words = ['--db', folder + '/many.db', '--unjudged', '--jobs', '1', str(path)]
        loaded = notes(['load', *words], b'')
        found = run(['catalogue', 'find', '--db', folder + '/many.db', '--json'], b'')[1].decode()
        shown = run(['catalogue', 'show', '--db', folder + '/many.db', found[12:20]], b'')[1].decode().splitlines()
        page = run(['report', '--unjudged', str(path)], b'')[1].decode()
    summed = run(['summary'], data)[1].decode().splitlines()
    return (notes(['csv'], data)[0], sorted(notes(['csv'], data)[1]), notes(['json', '--channel', '20'], data),
            notes(['csv', '--kind', 'uart'], data), by_file[0], sorted(by_file[1]), stored, loaded[0],
            [line.split(': ', 1)[1] for line in loaded[1][:2]], [line for line in shown if line in lines],
            [line for line in summed if line in lines], [line in page for line in lines], notes(['summary'], data)[0]), (
                1, sorted(lines), (0, lines[1:]), (0, []), 1, sorted(lines),
                [(6, 'message', 3, 'a segment of a message that is not whole'),
                 (20, 'type-f3', 3, 'a type that is not read here')], 1, lines, lines, lines, [True, True], 0)


def no_setup() -> Found:
    """That the first packet is no setup is said by every command, with status 0."""
    one = Recording().add(1, 0x11, 0, made.time_f1('2024-05-17 09:00:00.00'))
    entry(one, 5, 'a')
    said = 'the first packet is no setup'
    found = [notes(words, one.data()) for words in (['csv'], ['json'], ['svg'], ['range', '--from', '0'])]
    return (found, said in run(['summary'], one.data())[1].decode().splitlines()), ([(0, [said])] * 4, True)


def twice() -> Found:
    """A packet that stands twice is called so: its entries do too."""
    one = opened().add(1, 0x11, 0, made.time_f1('2024-05-17 09:00:00.00'))
    entry(one, 5, 'a')
    one.packets.append(one.packets[-1])
    entry(one, 9, 'b')
    return (notes(['csv'], one.data()), len(times([], one.data()))), (
        (0, ['channel 5, uart: 1 packet stands twice, and so do their entries']), 3)


def wrong_sum() -> Found:
    """The checksum that a packet declares is looked at in every type: a wrong one stops a filter there, and a catalogue and a
    report say of such a recording, which the program calls lenient, that it is damaged."""
    one = opened().add(20, 0x09, 5, made.pcm_throughput(bytes(64)), checksum=2)
    entry(one, 9, 'a')
    wrong = one.packets[1][:40] + b'\x01' + one.packets[1][41:]
    data = one.packets[0] + wrong + one.packets[2]
    with tempfile.TemporaryDirectory() as folder:
        path, program = pathlib.Path(folder, 'flight.ch10'), pathlib.Path(folder, 'program')
        path.write_bytes(data)
        program.write_text('#!/bin/sh\n[ "$1" = --version ] && echo r10 0 || { cat > /dev/null; echo lenient 1; }\n')
        program.chmod(0o755)
        run(['catalogue', 'add', '--db', folder + '/many.db', '--program', str(program), '--jobs', '1', str(path)], b'')
        found = run(['catalogue', 'find', '--db', folder + '/many.db'], b'')[1].decode()
        page = run(['report', '--program', str(program), str(path)], b'')
    said = 'a wrong data checksum at offset %d' % len(one.packets[0])
    return (notes(['csv'], data), notes(['csv', '--keep-going'], data)[0], notes(['summary'], data), 'lenient 1, damaged' in found,
            page[0], b'lenient 1, damaged' in page[1]), ((1, [said]), 1, (1, [said]), True, 1, True)


def database_as_input() -> Found:
    """A file that is given as a database and as an input is refused, and stays as it is."""
    with tempfile.TemporaryDirectory() as folder:
        path = pathlib.Path(folder, 'flight.ch10')
        path.touch()
        found = [notes([*words, '--db', str(path), '--unjudged', str(path)], b'') for words in (['catalogue', 'add'], ['load'])]
        size = path.stat().st_size
    return (found, size), ([(2, ['%r is the database itself, and no input' % str(path)])] * 2, 0)


def long_front() -> Found:
    """A recording behind more than 16 MiB of other bytes is one where the call says so."""
    one = opened()
    entry(one, 5, 'a')
    data = bytes(17 << 20) + one.data()
    return (run(['csv', '--keep-going'], data)[0], len(times(['--keep-going', '--front', '20'], data)),
            run(['csv'], data)[2][:20]), (1, 1, 'neither a recording ')


TRIALS: List[Callable[[], Found]] = [
    counter_back, counter_back_ends, counter_back_range, clock_back_range, clock_back_range_size, range_holds_its_time,
    counter_back_states, counter_to_and_fro,
    counter_full,
    order_of_writing, session_without_times, leap_second, leap_second_ranges, leap_second_of_a_day, new_year, invalid_format,
    no_source, qualities, qualities_of_many, best_channel, unlocked_start, network_times, network_leap_second, header_times,
    header_times_come_last, year_given,
    year_by_channel, year_guessed, left_out, no_setup, twice, wrong_sum, database_as_input, long_front]
