"""What stands in recordings that are made here, stated by the standards, and what the filters say of it.
scripts/trials/ch10_trials.py check runs it."""
import contextlib
import csv
import datetime
import io
import json
import os
import pathlib
import random
import sqlite3
import tempfile
import xml.etree.ElementTree as tree
from typing import Callable, Iterator, List, Tuple

import ch10_types
import chapter11
import plain_reader
from ch10 import columns, command, entry_rows, lines, script, vector, walk
from ch10.kinds import KINDS as KINDS_READ
from ch10.packets import packets
from ch10_recordings import SECOND, SETUP_TEXT, Maker, civil_body, flight, foreign
from check_cases import letters, number
from made_kinds import KINDS, NAMES, bus_message

MOMENT = datetime.datetime(2024, 2, 29, 12, 34, 56)


def run(words: List[str], data: bytes) -> Tuple[int, str, str]:
    to = io.BytesIO()
    status, line = command.answer(words, lambda: data, lambda: to)
    return status, to.getvalue().decode(), line or ''


def rows_of(words: List[str], data: bytes) -> List[dict]:
    return list(csv.DictReader(io.StringIO(run(words, data)[1])))


def opened(setup: bytes = SETUP_TEXT) -> Maker:
    make = Maker()
    make.put(0, 0x01, 1000, number(0x0C, 4) + setup)
    make.put(1, 0x11, 1000, civil_body(MOMENT))
    return make


# ---- buses

BUS_MESSAGES = (  # block status, gap times, words, and the columns that are not empty but gaps
    (0, 80, [0x2862, 0x1111, 0x2222, 0x2800], 'value=11112222 bus=A rt=5 tr=R sa=3 wc=2 status1=2800'),
    (0x2000, 95, [0x2C61, 0x2808, 0xABCD], 'value=abcd bus=B rt=5 tr=T sa=3 wc=1 status1=2808 flags=busy'),
    (0x0800, 70 << 8 | 60, [0x0841, 0x4C81, 0x4800, 0x5A5A, 0x0C00],
     'value=5a5a bus=A rt=1 tr=R sa=2 wc=1 rt2=9 sa2=4 status1=4800 status2=0c00 flags=message error'),
    (0, 50, [0x3FE2, 0x3801], 'bus=A rt=7 tr=T sa=31 mode=2 status1=3801 flags=terminal flag'),
    (0, 50, [0x3811, 0x0042, 0x3800], 'value=0042 bus=A rt=7 tr=R sa=0 mode=17 status1=3800'),
    (0, 50, [0x3C12, 0x3800, 0x3C11], 'value=3c11 bus=A rt=7 tr=T sa=0 mode=18 status1=3800'),
    (0, 0, [0xF821, 0x7777], 'value=7777 bus=A rt=31 tr=R sa=1 wc=1'),
    (0x1200, 0, [0x2C61], 'bus=A errors=message error+response timeout rt=5 tr=T sa=3 wc=1'),
    (0x3438, 0, [], 'bus=B errors=message error+format error+word count error+sync type error+invalid word'),
    (0, 1, [0x2860] + [0x0101] * 32 + [0x2800], 'value=%s bus=A rt=5 tr=R sa=3 wc=32 status1=2800' % ('0101' * 32)),
)


def bus_1553() -> Tuple[object, object]:
    make = opened()
    make.put(7, 0x19, 2000, number(len(BUS_MESSAGES), 4) + b''.join(bus_message(2000, *message[:3]) for message in BUS_MESSAGES), 2)
    wanted = []
    for _, gap, _, said in BUS_MESSAGES:
        wanted.append(dict(columns_of(said), name='NAV BUS', bus_name='NAVIGATION', gap1='%.1f' % ((gap & 255) / 10),
                           gap2='%.1f' % ((gap >> 8) / 10)))
    rows = [{name: cell for name, cell in row.items() if cell and name not in ('channel', 'count', 'time', 'lost', 'type')}
            for row in rows_of(['csv', '--kind', '1553'], b''.join(make.parts))]
    return rows, wanted


def columns_of(said: str) -> dict:
    """`name=value name=value`, where a value may have spaces in it."""
    found, last = {}, None
    for word in said.split(' '):
        if '=' in word:
            last, _, value = word.partition('=')
            found[last] = value
        else:
            found[last] += ' ' + word
    return found


def bus_429() -> Tuple[object, object]:
    make = opened()
    word = 3 << 29 | 0x12345 << 10 | 1 << 8 | 0x83
    odd = word | (bin(word).count('1') % 2 == 0) << 31
    body = b''.join(number(head, 4) + number(data, 4) for head, data in (
        (1 << 24, odd), (2 << 24 | 10, odd ^ 1 << 31), (9 << 24 | 1 << 23 | 1 << 22 | 1 << 21 | 5, odd)))
    make.put(8, 0x38, 2000, number(3, 4) + body, 1)
    common = {'channel': 8, 'name': 'AIR DATA', 'lost': 0, 'type': 'arinc', 'label': '203', 'sdi': 1, 'data': 0x12345, 'ssm': 3}
    wanted = [dict(common, count=2000, value='%08x' % odd, bus=1, bus_name='ADC LEFT', errors='', parity=odd >> 31, high=False),
              dict(common, count=2010, value='%08x' % (odd ^ 1 << 31), bus=2, bus_name='ADC RIGHT', errors='even parity',
                   parity=1 - (odd >> 31), high=False),
              dict(common, count=2015, value='%08x' % odd, bus=9, bus_name=None, errors='format error+parity error',
                   parity=odd >> 31, high=True)]
    rows = [json.loads(line) for line in run(['json', '--kind', 'arinc'], b''.join(make.parts))[1].splitlines()]
    turned = [json.loads(line)['label']
              for line in run(['json', '--kind', 'arinc', '--turned-labels'], b''.join(make.parts))[1].splitlines()]
    for row in rows:
        row.pop('time')
    return (rows, turned), (wanted, ['301'] * 3)


def stated_kinds() -> Tuple[object, object]:
    """What the entries of each kind mean that states it, each on a line."""
    found, wanted = [], []
    for kind in KINDS:
        bodies, rows = kind.stated()
        make = opened()
        for counter, body in bodies:
            make.put(kind.channel, kind.data_type, counter, body)
        said = run(['csv'], b''.join(make.parts))[1].splitlines()
        cells = [{name: cell for name, cell in row.items() if cell and name not in EACH} for row in csv.DictReader(said)]
        found.append((kind.name, len(said), cells[1:]))
        wanted.append((kind.name, 2 + len(rows), rows))
    return found, wanted


EACH = ('channel', 'name', 'count', 'time', 'lost', 'type')  # columns of every entry


# ---- times

def clocks() -> Tuple[object, object]:
    """A clock that is 1,000 parts in a million fast, jumps once, steps back once, and misses three seconds."""
    make, jump = Maker(), datetime.timedelta()
    make.put(0, 0x01, 0, number(0x0C, 4) + b'G\\106:17;')
    for second in range(200):
        if second == 100:
            jump += datetime.timedelta(seconds=3600)
        if second == 150:
            jump -= datetime.timedelta(seconds=10)
        if second not in (50, 51, 120):
            drift = datetime.timedelta(microseconds=1000 * second // 10000 * 10000)
            make.put(1, 0x11, second * SECOND, civil_body(MOMENT + datetime.timedelta(seconds=second) + drift + jump))
    found = [json.loads(line) for line in run(['summary', '--json'], b''.join(make.parts))[1].splitlines()]
    clock = next(row['clock'] for row in found if 'clock' in row)
    text = run(['summary'], b''.join(make.parts))[1]
    return (clock['seconds_without'], clock['steps_back'], [(jump['count'], round(jump['seconds'])) for jump in clock['jumps']],
            800 < clock['drift_ppm'] < 1100,
            text.count('time jump on channel 1')), (3, 1, [(100 * SECOND, 3600), (150 * SECOND, -10)], True, 2)


def slow_rate() -> Tuple[object, object]:
    """A channel with an entry a second is said to have one a second, in the table and in the picture."""
    make = opened()
    for second in range(30):
        make.put(5, 0x50, 1000 + second * SECOND, number(1 << 31, 4) + letters(1000 + second * SECOND, b'A'),
                 flags=0x10 if second == 20 else 0)
    data = b''.join(make.parts)
    texts = [element.text for element in tree.fromstring(run(['svg'], data)[1]).iter('{http://www.w3.org/2000/svg}text')]
    axis = [text for text in texts if text.startswith('12:3')]
    return ([text for text in texts if text.endswith('/s')], [text for text in texts if text.endswith('+ lost')], len(axis),
            all(len(text) == 8 for text in axis),
            [line.split()[-6] for line in run(['summary'], data)[1].splitlines() if ' uart ' in line][0]), (
                ['mean 1/s'], ['1+ lost'], len(axis), True, '1')


# ---- recordings of others

def others() -> Tuple[object, object]:
    """Another recorder's recording: what is read, what is opaque, with names, and its entries' times by the day of the year."""
    data = b''.join(foreign())
    status, said, line = run(['summary', '--json'], data)
    rows = {(row['channel'], row['type']): (row['packets'], row['opaque'], row['bad'], row['jumps'])
            for row in map(json.loads, said.splitlines()) if 'packets' in row}
    entries = [json.loads(text) for text in run(['json', '--channel', '5'], data)[1].splitlines()]
    return (status, line, rows, len(entries), entries[0]['time'], entries[0]['text'], run(['setup'], data)[1].encode()), (
        0, '', {(0, 'setup'): (1, 0, 0, 0), (1, 'time'): (10, 0, 0, 0), (5, 'uart'): (40, 0, 0, 0), (20, 'pcm-09'): (40, 40, 0, 0),
                (21, 'video-40'): (40, 40, 0, 0),
                (22, 'ethernet-68'): (40, 40, 0, 0), (23, 'analog-21'): (40, 40, 0, 0), (24, 'uart'): (40, 0, 0, 0)}, 40,
        '060 12:34:10.0000000', 'plain', SETUP_TEXT)


# ---- setup texts

def setup_tree() -> Tuple[object, object]:
    """What a setup text does not name, and what it names otherwise."""
    make = opened(SETUP_TEXT.replace(b'CDT-2:UARTIN', b'CDT-2:1553IN').replace(b'TK1-4:7', b'TK1-4:70'))
    make.put(5, 0x50, 2000, number(1 << 31, 4) + letters(2000, b'A'))
    make.put(7, 0x19, 2000, number(0, 4))
    status, said, _ = run(['setup', '--tree'], b''.join(make.parts))
    lines = said.splitlines()
    return (status, lines[:3], lines[lines.index('') + 1:]), (
        0, ['G  general information', '  PN: FLIGHT', '  106: 17'],
        ['channel 5 is named 1553IN, and has packets of type 50', 'channel 7 is not named', 'channel 6 is named, and has no packet',
         'channel 8 is named, and has no packet',
         'channel 9 is named, and has no packet', 'channel 70 is named, and has no packet'])


SCRIPT = b"""
blocks = 64
volume = "VOL"
time = 1 # the clock
event = 2
[[channel]]
id = 5
kind = "uart"
[[channel]]
id = 7
kind = "1553"
[[channel]]
id = 8
kind = "arinc"
[[step]]
do = "offer"
channel = 8
bus = 3
[[step]]
do = "offer"
channel = 8
"""


def text_for_script() -> Tuple[object, object]:
    """A setup text for a script names each of its channels with its type, and the buses that its steps have."""
    text = bytes.fromhex(run(['tmats', '--hex'], SCRIPT)[1])
    make = opened(text)
    make.put(5, 0x50, 2000, number(1 << 31, 4) + letters(2000, b'A'))
    make.put(7, 0x19, 2000, number(1, 4) + bus_message(2000, 0, 0, [0x2862]))
    make.put(8, 0x38, 2000, number(2, 4) + number(3 << 24, 4) + number(1, 4) + number(9 << 24, 4) + number(1, 4))
    data = b''.join(make.parts)
    rows = [(row['name'], row['bus_name']) for row in rows_of(['csv'], data)]
    by_hand = script.by_lines(SCRIPT.decode())
    return (text.decode() == run(['tmats'], SCRIPT)[1], run(['setup', '--tree'], data)[1].splitlines()[-1], rows,
            by_hand[0]['time'], by_hand[1]['step'][0]), (
                True, 'each channel of the recording is named, with its type',
                [('TIME', ''), ('UART-5', ''), ('1553-7', '1553-7'), ('ARINC-8', 'ARINC-8-3'), ('ARINC-8', '')], 1,
                {'do': 'offer', 'channel': 8, 'bus': 3})


# ---- the ways that have to agree

def database() -> Tuple[object, object]:
    """Each entry of csv stands in its kind's table, with the same columns; losses, damage and channels beside them."""
    parts = flight(random.Random('database'), 200)
    parts[50] = parts[50][:30] + bytes((parts[50][30] ^ 1,)) + parts[50][31:]
    data, found, wanted = b''.join(parts), [], []
    with tempfile.TemporaryDirectory() as folder:
        path = str(pathlib.Path(folder, 'flight.db'))
        status, _, line = run(['sqlite', '--keep-going', '--out', path], data)
        again = run(['sqlite', '--out', path], data)[0]
        base = sqlite3.connect(path)
        for kind in NAMES + ('time', 'event'):
            columns = rows_of(['csv', '--keep-going', '--kind', kind], data)
            table = kind if kind.isalpha() else 'bus' + kind
            names = [name for name in columns[0] if name != 'type']
            for row in base.execute('SELECT %s FROM "%s" ORDER BY rowid' % (', '.join('"%s"' % name for name in names), table)):
                found.append((kind, *('' if cell is None else str(cell) for cell in row)))
            wanted += [(kind, *(row[name] for name in names)) for row in columns]
        damage = list(base.execute('SELECT offset, length, why FROM damage'))
        base.close()
        left = sorted(os.listdir(folder))
    offset = sum(map(len, parts[:50]))
    return (status, line.count('\n'), again, found, damage, left), (
        1, 0, 2, wanted, [(offset, len(parts[50]), 'a wrong data checksum')], ['flight.db'])


def of_ways() -> Maker:
    """A recording with what the ways may take otherwise: entries without bytes and very long ones, words that are not there, states
    that are told anew."""
    draw, make, count = random.Random('of ways'), Maker(), 10 ** 12
    make.put(0, 0x01, count, number(0x0C, 4) + SETUP_TEXT.replace(b'GPS LINE', b'GPS, "LINE"'))
    make.put(5, 0x50, count, number(1 << 31, 4) + letters(count, b'', 3 << 16) + letters(count, b'a,b')
             + letters(count + 1, bytes(70)) + letters(count + 2, b'x' * 64))
    make.put(5, 0x50, count, number(1 << 31, 4) + letters(count, b'$GPGGA,1\\2\t"q"\r\n', 1 << 31 | 9 << 16)
             + letters(count, b'"\\') + letters(count + 3, b'y' * 600))
    make.put(6, 0x30, count, number(2, 4) + letters(count, b'plain', 3 << 30) + letters(count, b'"'), flags=0x10)
    make.put(6, 0x30, 10, number(3, 4) + letters(9, b'1', 1 << 30) + letters(10, b'\r\n', 2 << 30) + letters(99, b'\x7f'))
    make.put(7, 0x19, count, number(3, 4) + bus_message(count, 0xFFFF, 0xFFFF, []) + bus_message(count, 0x800, 0, [0x0841, 0x4C81])
             + bus_message(count, 0, 0, [1] * 50))
    make.put(7, 0x19, count, number(0, 4))
    some = [bus_message(count + place, draw.choice((0, 0x800, 0x2838)), draw.randrange(1 << 16),
                        [draw.choice((0x0841, 0x0C42, 0xF841, 0x083F, draw.randrange(1 << 16)))
                          for _ in range(draw.randrange(12))]) for place in range(400)]
    make.put(7, 0x19, count, number(400, 4) + b''.join(some))
    odd = number(count, 8) + number(0x2000, 2) + number(80, 2) + number(3, 2) + b'\x41\x08\x07'  # which has half a word
    make.put(17, 0x19, count, number(3, 4) + odd + bus_message(count, 0, 0, [0x0841, 7]) + odd)
    make.put(8, 0x38, count, number(0, 4))
    make.put(8, 0x38, count,
             number(4, 4) + b''.join(number(head, 4) + number(word, 4)
                                     for head, word in ((0, 0), ((1 << 32) - 1, (1 << 32) - 1), (1 << 24, 1023 << 10), (5, 9))))
    make.put(9, 0x29, count,
             number(31 << 3, 4)
             + b''.join(number(count + place, 8) + number(draw.choice((0, (1 << 32) - 1, 1 << 31, 5)), 4) for place in range(9)))
    make.put(9, 0x29, count, number(0, 4) + number(count, 8) + number(7, 4))
    make.put(9, 0x29, count, number(3 << 3, 4))
    make.put(9, 0x29, count, number(3 << 3, 4) + number(count, 8) + number(0xFFFFFFF0, 4))
    make.put(65535, 0x50, count, number(1 << 31, 4) + b''.join(letters(count + place % 7, b'%d' % place) for place in range(300)),
             flags=0x10)
    return make


def damaged(parts: List[bytes]) -> List[bytes]:
    """A recording with a bit turned in each tenth packet, after its header."""
    return [part[:25] + bytes((part[25] ^ 1,)) + part[26:] if place % 10 == 5 else part for place, part in enumerate(parts)]


def read_plainly() -> Tuple[object, object]:
    """Each entry as a plain reader reads it, which is of the trials alone: by csv and json, both with --raw too, and as the rows of
    tables of many recordings."""
    names = {(7, None): 'NAVIGATION', (8, 1): 'ADC LEFT', (8, 2): 'ADC RIGHT'}
    wrong, total = [], 0
    steady = [part for part in of_ways().parts if part[16:22] != number(10, 6)]  # whose counter does not begin anew
    for which, parts in enumerate([flight(random.Random('plain'), 400), steady, ch10_types_parts()]):
        data = b''.join(parts)
        wanted = plain_reader.read(data, names)
        total += len(wanted)
        for each, together, few, ahead, jobs in WAYS[:1] + WAYS[2:3]:
            with ways(each, together, few, ahead):
                for raw in ([], ['--raw']):
                    more = raw + ['--jobs', jobs]
                    wrong += [(which, 'csv', raw, *pair)
                              for pair in unlike(csv_rows(more, data), [csv_cells(one, bool(raw)) for one in wanted])]
                    wrong += [(which, 'json', raw, *pair)
                              for pair in unlike(json_rows(more, data), [json_cells(one, bool(raw)) for one in wanted])]
        turned = [csv_cells(one, False) for one in plain_reader.read(data, names, True)]
        wrong += [(which, 'turned', *pair) for pair in unlike(csv_rows(['--turned-labels'], data), turned)]
        for kind, rows in table_rows(data).items():
            wrong += [(which, kind, *pair) for pair in unlike(rows, [(one.count, one.channel, *one.own) for one in wanted
                                                                     if one.kind == kind])]
    return (total > 3000, wrong[:3]), (True, [])


def unlike(found: list, wanted: list) -> list:
    """The first two that are not the same, and how many there are of both."""
    pairs = [pair for pair in zip(found, wanted) if pair[0] != pair[1]][:1]
    return pairs + ([(len(found), len(wanted))] if len(found) != len(wanted) else [])


def csv_rows(words: List[str], data: bytes) -> List[dict]:
    rows = rows_of(['csv'] + words, data)
    return [{name: cell for name, cell in row.items() if name not in ('name', 'time') and cell} for row in rows]


def csv_cells(one: plain_reader.Found, is_raw: bool) -> dict:
    cells = dict(one.raw if is_raw else one.meant, channel=one.channel, count=one.count, lost=one.lost, type=one.kind)
    return {name: str(value) for name, value in cells.items() if value not in (None, '')}


def json_rows(words: List[str], data: bytes) -> List[dict]:
    rows = [json.loads(line) for line in run(['json'] + words, data)[1].splitlines()]
    return [{name: value for name, value in row.items() if name not in ('name', 'time')} for row in rows]


VALUES = {'1553': 'words', 'arinc': 'data', 'uart': 'bytes', 'message': 'bytes', 'discrete': 'states', 'time': 'civil'}


def json_cells(one: plain_reader.Found, is_raw: bool) -> dict:
    cells = dict(one.raw if is_raw else one.meant)
    if is_raw and 'value' in cells:
        cells[VALUES[one.kind]] = cells.pop('value')
    for truth in ('high', 'data_error', 'format') + (('parity',) if is_raw else ()):
        if truth in cells:
            cells[truth] = cells[truth] == 1
    return dict(cells, channel=one.channel, count=one.count, lost=int(one.lost) if one.lost != '1+' else one.lost, type=one.kind)


class OneSession:
    """What is known of a recording whose counter never begins anew."""

    @staticmethod
    def base(_offset: int) -> int:
        return 0

    session = base


def table_rows(data: bytes) -> dict:
    """The rows of a recording's tables, by kind: count, channel, and the table's own columns."""
    found: dict = {}
    keys = {(channel, kind.type) for channel in range(1 << 16) for kind in KINDS_READ}
    for kind, some in entry_rows.Reader(1, keys, None, {}, OneSession).columns(packets(data), lambda counts: counts):
        name = next(one.name for one in KINDS_READ if one.type == kind)
        own = list(entry_rows.flat(some))
        found.setdefault(name, []).extend((row[1], row[4], *row[5:]) for row in zip(*own))
    return {name: sorted(rows, key=lambda row: row[:2]) for name, rows in found.items()}


def ch10_types_parts() -> List[bytes]:
    """Forms that this recorder does not write, with and without stamps, behind secondary headers, and at the top of their bits."""
    draw, parts = random.Random('types'), chapter11.opened(SETUP_TEXT)
    for place in range(300):
        count = 2000 + 50 * place
        second = chapter11.secondary_header(draw.randbytes(8)) if draw.random() < 0.4 else b''
        which = draw.randrange(6)
        if which == 0:
            stamps = draw.random() < 0.5
            body = number(stamps << 31, 4) + b''.join(
                chapter11.uart_entry(draw.choice((b'a,b', b'"', bytes(3), b'x' * draw.randrange(700))), draw.randrange(2),
                                      draw.randrange(9), count + at if stamps else None) for at in range(draw.randrange(5)))
            parts.append(chapter11.packet(5, 0x50, count, body, place & 0xFF, draw.randrange(4), second))
        elif which == 1:
            length, from_top = draw.randrange(32), draw.randrange(2)
            body = chapter11.discretes([(count + at, draw.getrandbits(32)) for at in range(draw.randrange(4))], length,
                                       from_top=from_top)
            parts.append(chapter11.packet(9, 0x29, count, body, place & 0xFF, draw.randrange(4), second))
        elif which == 2:  # events with a data header of 8 bytes
            body = number(1 << 31 | 2, 4) + b''.join(
                number(count + at, 8) + draw.randbytes(8) + number(draw.getrandbits(28), 4) for at in range(2))
            parts.append(chapter11.packet(2, 0x02, count, body, place & 0xFF, draw.randrange(4), second))
        elif which == 3:  # words of ARINC 429 of which the first has a time after the packet's counter too
            body = number(3, 4) + b''.join(number(draw.getrandbits(32), 4) + number(draw.getrandbits(32), 4) for at in range(3))
            parts.append(chapter11.packet(8, 0x38, count, body, place & 0xFF, draw.randrange(4), second))
        else:
            channel, kind, body = draw.choice(ch10_types.STAMPED)
            parts.append(chapter11.packet(channel, kind, count, body, place & 0xFF, draw.randrange(4), second))
    return parts


def recordings_of_ways() -> List[List[bytes]]:
    extra = of_ways().parts
    return [flight(random.Random('ways'), 300) + extra, extra, 2 * flight(random.Random('twice'), 60),
            damaged(flight(random.Random('damaged'), 100))]


def by_ways() -> Tuple[object, object]:
    """By one process and by three, in parts and pages of any size: the same bytes, and the same summary."""
    recordings = recordings_of_ways()
    wrong = []
    for which, parts in enumerate(recordings):
        data = b''.join(parts)
        for words in (['csv'], ['json'], ['csv', '--kind', 'uart'], ['json', '--channel', '7'],
                      ['csv', '--kind', 'arinc', '--turned-labels'], ['json', '--kind', '1553'],
                      ['csv', '--raw'], ['csv', '--keep-going'], ['summary', '--json']):
            wanted = None
            for each, together, few, ahead, jobs in WAYS:
                with ways(each, together, few, ahead):
                    said = run(words + (['--jobs', jobs] if words[0] != 'summary' else []), data)
                wanted = wanted or said
                if said != wanted:
                    wrong.append((which, words, each, together, few, ahead, jobs))
    return (len(wanted[1]) > 0, wrong), (True, [])


# Bytes of a part, entries of a page, packets that are walked together, bytes looked ahead, and processes.
WAYS = ((1 << 20, 40000, 24, 8 << 20, '1'), (12000, 40000, 24, 8 << 20, '3'), (12000, 100, 2, 20000, '1'),
        (12000, 40, 1000, 4000, '3'), (1 << 20, 33, 1, 8 << 20, '2'))


@contextlib.contextmanager
def ways(each: int, together: int, few: int, ahead: int) -> Iterator[None]:
    """Sets what decides how entries are read."""
    kept = lines.EACH, vector.TOGETHER, columns.FEW, walk.AHEAD
    lines.EACH, vector.TOGETHER, columns.FEW, walk.AHEAD = each, together, few, ahead
    try:
        yield
    finally:
        lines.EACH, vector.TOGETHER, columns.FEW, walk.AHEAD = kept


TRIALS: List[Callable] = [bus_1553, bus_429, stated_kinds, clocks, slow_rate, others, setup_tree, text_for_script,
                          database, read_plainly, by_ways]
