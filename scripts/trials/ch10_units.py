"""Measurements in engineering units: packets are made here with values that are known, and `ch10 values` and `ch10 plot` have to
say them by the documents that are made here too."""
import csv
import json
import os
import pathlib
import random
import sqlite3
import struct
import tempfile
import xml.etree.ElementTree as tree
from typing import Callable, List, Sequence, Tuple

from ch10_types import Found, run
from chapter11 import (bus_1553, can_frame, discretes, halves, message_1553, opened, packet, pcm_frame, pcm_unpacked, pcm_word,
                       secondary_header, word)

DOCUMENT = """name,kind,channel,rt,tr,sa,label,sdi,id,word,bits,signed,scale,offset,unit
# lines that begin so are none
HEADING,1553,7,5,T,3,,,,2,0-15,yes,0.0054931640625,,deg
BEARING,1553,7,5,R,4,,,,1,5-12,yes,0.1,,deg
LATITUDE,1553,,1,R,2,,,,1-2,0-31,signed,0.00000001,,deg
ALTITUDE,arinc,8,,,,203,1,,,10-28,yes,0.125,-100,ft
SPEED,arinc,8,,,,206,,,,13-28,,0.0625,,kt
GEAR,discrete,9,,,,,,,,3-4,,,,
TORQUE,can,,,,,,,0x123,,8-23,yes,0.5,,"Nm, at the shaft"
AFTER,1553,7,5,R,4,,,,2,0-15,,,,
"""


def asked(words: Sequence[str], data: bytes, document: str = DOCUMENT, name: str = 'icd.csv') -> Tuple[int, bytes, str]:
    with tempfile.TemporaryDirectory() as folder:
        path = pathlib.Path(folder, name)
        path.write_text(document)
        return run([*words, '--icd', str(path)], data)


def flight(second: bytes = b'') -> bytes:
    """A recording with each measurement of the document, and with messages beside them that are like them but for one field."""
    send, receive = 5 << 11 | 1 << 10 | 3 << 5 | 3, 5 << 11 | 4 << 5 | 1
    between = [1 << 11 | 2 << 5 | 2, 9 << 11 | 1 << 10 | 4 << 5 | 2, 9 << 11, 0xFEDC, 0xBA98, 1 << 11]  # of which RT 1 receives
    some = [[send, 5 << 11, 7, 0x8000, 9], [receive, (0x5A << 5) | 0x1F, 5 << 11], [send ^ 1 << 10, 1, 2, 3, 5 << 11], between,
            [send, 5 << 11, 7]]
    messages = [message_1553(2000 + place, words, 0x800 * (words is between)) for place, words in enumerate(some)]
    parts = [
        packet(7, 0x19, 2000, bus_1553(messages), 0, 0, second),
        packet(8, 0x38, 2100, word(3, 4) + b''.join(word(head, 4) + word(one, 4) for head, one in (
            (1 << 24, 3 << 29 | 0x7FFFF << 10 | 1 << 8 | 0o203), (1 << 24 | 1, 3 << 29 | 0x7FFFF << 10 | 2 << 8 | 0o203),
            (1 << 24 | 1, 0x1234 << 13 | 0o206)))),
        packet(9, 0x29, 2200, discretes([(2200, 0b00010111 << 24)], 8, from_top=1)),
        packet(12, 0x78, 2300, word(3, 4) + can_frame(2300, bytes((0xFF, 0x10, 0xFF, 0x77)), 0x123) + can_frame(
            2301, bytes((1, 2, 3)), 0x124) + can_frame(2302, bytes((1, 2)), 0x123))]
    return b''.join(opened() + parts)


VALUES = [(7, 2000, 'HEADING', -180.0), (7, 2001, 'BEARING', 9.0), (7, 2003, 'LATITUDE', -0.19088744),
          (8, 2100, 'ALTITUDE', -100.125), (8, 2102, 'SPEED', 291.25), (9, 2200, 'GEAR', 2.0), (12, 2300, 'TORQUE', -120.0)]


def by_document() -> Found:
    """Each measurement stands in its column, in its line and in a database, and nothing that is like it but for one field."""
    names = [line.split(',')[0] for line in DOCUMENT.splitlines()[2:]]
    rows = []
    for row in asked(['values'], flight())[1].decode().splitlines()[1:]:
        cells = row.split(',')
        rows += [(int(cells[0]), int(cells[1]), name, float(cell)) for name, cell in zip(names, cells[3:]) if cell]
    title = asked(['values'], flight())[1].decode().splitlines()[0]
    lines = [json.loads(line) for line in asked(['values', '--json'], flight(secondary_header(bytes(8))))[1].splitlines()]
    said = [(line['channel'], line['count'], name, line[name]) for line in lines for name in list(line)[3:]]
    with tempfile.TemporaryDirectory() as folder:
        path = os.path.join(folder, 'values.db')
        first, again = asked(['values', '--out', path], flight()), asked(['values', '--out', path], flight())
        base = sqlite3.connect(path)
        stored = base.execute('SELECT channel, count, name, value FROM value ORDER BY count').fetchall()
        units = dict(base.execute('SELECT name, unit FROM measurement'))
        base.close()
        left = os.listdir(folder)
    ranged = asked(['values', '--from', '2101', '--to', '2250'], flight())[1].decode().splitlines()[1:]
    return (rows, said, stored, first[0], again[0], left, units['TORQUE'], title, [line.split(',')[1] for line in ranged]), (
        VALUES, VALUES, VALUES, 0, 2, ['values.db'], 'Nm, at the shaft',
        'channel,count,time,HEADING [deg],BEARING [deg],LATITUDE [deg],ALTITUDE [ft],SPEED [kt],GEAR,'
        '"TORQUE [Nm, at the shaft]",AFTER',
        ['2102', '2200'])


# ---- DBC

def put(frame: List[int], begin: int, size: int, low_first: bool, value: int) -> None:
    """Puts a number's bits into a frame one by one, as DBC counts them: bit 0 is the lowest of byte 0, bit 8 the lowest of byte 1.
    With the low byte first they go up from the begin; with the high one first, down within a byte, then to the next one's
    highest."""
    at = begin
    for step in range(size):
        bit = value >> (step if low_first else size - 1 - step) & 1
        frame[at // 8] = frame[at // 8] & ~(1 << at % 8) | bit << at % 8
        at = at + 1 if low_first else at - 1 if at % 8 else at + 15


def by_dbc() -> Found:
    """Random signals of both orders, signed and not, in frames of both lengths of identifier."""
    draw, found, wanted = random.Random('dbc'), [], []
    for trial in range(40):
        size, low_first, signed, is_long = draw.randint(1, 64), draw.random() < 0.5, draw.random() < 0.5, draw.random() < 0.5
        value = draw.randrange(-1 << size - 1, 1 << size - 1) if signed else draw.getrandbits(size)
        high = draw.randrange(64 - size + 1)  # bits before the highest one, in the order of the frame's bits
        begin = draw.randrange(64 - size + 1) if low_first else 8 * (high // 8) + 7 - high % 8
        frame = [draw.randrange(256) for _ in range(8)]
        put(frame, begin, size, low_first, value & (1 << size) - 1)
        identifier = draw.getrandbits(29 if is_long else 11)
        document = 'VERSION ""\n\nBO_ %d ENGINE: 8 ECU\n SG_ RPM : %d|%d@%d%s (0.25,-3) [0|0] "1/min" DASH\n' % (
            identifier | is_long << 31, begin, size, low_first, '-' if signed else '+')
        both = [can_frame(2300 + other, bytes(frame), identifier, is_long ^ other) for other in range(2)]
        data = b''.join(opened() + [packet(12, 0x78, 2300, word(2, 4) + b''.join(both))])
        said = [json.loads(line) for line in asked(['values', '--json'], data, document, 'bus.dbc')[1].splitlines()]
        found.append([(line['count'], abs(line['RPM'] - value / 4 + 3) <= abs(value) * 1e-11) for line in said])
        wanted.append([(2300, True)])
    return found, wanted


def wrong_documents() -> Found:
    """A document that is wrong is a line that says where, and status 2; nothing is written."""
    head = 'name,kind,bits,word,label,id,scale,tr\n'
    found = []
    for text, name in ((head + 'A,1553,5-12,33\n', 'a.csv'), (head + 'A,1553,16,1\n', 'a.csv'), (head + 'A,uart,1\n', 'a.csv'),
                       (head + 'A,arinc,1,,9\n', 'a.csv'), (head + 'A,can,1\n', 'a.csv'), (head + 'A,arinc,12-5\n', 'a.csv'),
                       (head + 'A,arinc,1,,,,x\n', 'a.csv'), (head + 'A,arinc,1,,,,nan\n', 'a.csv'),
                       ('name,kind,bit\nA,arinc,1\n', 'a.csv'),
                       (head + 'A,arinc,1\nA,arinc,2\n', 'a.csv'), (head, 'a.csv'), ('', 'a.csv'), (head + ',arinc,1\n', 'a.csv'),
                       ('BO_ 1 X: 8 Y\n SG_ A m0 : 0|8@1+ (1,0) [0|0] "" Z\n', 'a.dbc'),
                       ('BO_ 1 X: 8 Y\n SG_ A : 0|65@1+ (1,0) [0|0] "" Z\n', 'a.dbc'), ('BO_ 1 X: 8 Y\n SG_ A : zero\n', 'a.dbc')):
        status, said, line = asked(['values'], flight(), text, name)
        found.append((status, said, line.count('\n'), len(line) > 10))
    gone = run(['values', '--icd', '/none/at/all'], flight())
    return (found, gone[0], gone[1]), ([(2, b'', 0, True)] * 16, 3, b'')


# ---- drawn

def drawn() -> Found:
    """A plot has a line through the values of each measurement that is asked for, its lowest and highest value, and its unit."""
    rows = [(2000 + 1000 * place, (place * 7) % 50) for place in range(300)]
    body = word(len(rows), 4) + b''.join(can_frame(stamp, bytes((0, value, 0)), 0x123) for stamp, value in rows)
    data = b''.join(opened() + [packet(12, 0x78, 2000, body)])
    document = DOCUMENT.replace('8-23,yes', '8-15,')
    status, made, line = asked(['plot', 'TORQUE', 'GEAR'], data, document)
    picture = tree.fromstring(made)
    texts = [one.text for one in picture.iter('{http://www.w3.org/2000/svg}text')]
    paths = [one.get('d') for one in picture.iter('{http://www.w3.org/2000/svg}path')]
    points = [tuple(map(float, pair.split())) for pair in paths[0][1:].split('L')]
    lows, highs = min(y for _, y in points), max(y for _, y in points)
    back = [round((highs - y) / (highs - lows) * 49) for _, y in points]
    none = asked(['plot', 'NONE'], data, document)
    return (status, line, len(paths), 'TORQUE [Nm, at the shaft]' in texts, '300 values, 0 to 24.5' in texts,
            'no value in the recording' in texts, back == [value for _, value in rows], none[0], 'NONE' in none[2]), (
        0, '', 1, True, True, True, True, 2, True)


# ---- columns by name

COLUMNS = [(name, count, value) for _, count, name, value in VALUES]


def stored_columns(path: str, tables: Sequence[str], names: Sequence[str]) -> List[Tuple[str, int, float]]:
    """The measurements that stand in columns of tables, by count."""
    base, found = sqlite3.connect(path), []
    for table in tables:
        has = [row[1] for row in base.execute('PRAGMA table_info("%s")' % table)]
        for name in names:
            if name in has:
                found += [(name, *row) for row in base.execute(
                    'SELECT count, "%s" FROM "%s" WHERE "%s" IS NOT NULL' % (name, table, name))]
    base.close()
    return sorted(found, key=lambda row: row[1])


def by_columns() -> Found:
    """Each measurement is a column at the end of csv, a key of json and a column of its kind's table; what stood there before
    stands there as it did, also with a kind alone, with the quality after them, and by several processes."""
    names = [line.split(',')[0] for line in DOCUMENT.splitlines()[2:]]
    plain = run(['csv'], flight())[1].decode().splitlines()
    lines = asked(['csv'], flight())[1].decode().splitlines()
    rows = list(csv.reader(lines))
    titles, wide = rows[0][-len(names):], len(plain[0].split(','))
    found = sorted(((names[at], int(row[2]), float(cell)) for row in rows[1:] for at, cell in enumerate(row[wide:]) if cell),
                   key=lambda row: row[1])
    said = [json.loads(line) for line in asked(['json'], flight())[1].splitlines()]
    keys = sorted(((name, row['count'], row[name]) for row in said for name in names if name in row), key=lambda row: row[1])
    bare = [{name: value for name, value in row.items() if name not in names} for row in said]
    one = asked(['csv', '--kind', '1553', '--quality'], flight())[1].decode().splitlines()
    alone = run(['csv', '--kind', '1553', '--quality'], flight())[1].decode().splitlines()
    many = asked(['csv', '--jobs', '2'], flight())[1].decode().splitlines()
    with tempfile.TemporaryDirectory() as folder:
        path = os.path.join(folder, 'flight.db')
        status = asked(['sqlite', '--out', path], flight())[0]
        stored = stored_columns(path, ('bus1553', 'arinc', 'discrete', 'can', 'uart'), names)
    return (found, keys, stored, status, titles, {len(row) - wide for row in rows}, [row[:wide] for row in rows] == list(
        csv.reader(plain)), bare == [
        json.loads(line) for line in run(['json'], flight())[1].splitlines()], many == lines,
            [line.split(',')[-1] for line in one], len(one[0].split(',')) - len(alone[0].split(','))), (
        COLUMNS, COLUMNS, COLUMNS, 0, ['HEADING [deg]', 'BEARING [deg]', 'LATITUDE [deg]', 'ALTITUDE [ft]', 'SPEED [kt]', 'GEAR',
                                       'TORQUE [Nm, at the shaft]', 'AFTER'],
        {8}, True, True, True, ['quality'] + ['locked'] * 5, 4)


def wrong_columns() -> Found:
    """A name that a table has already, both ways to say measurements, measurements of raw values, and a setup text without any are
    lines, and nothing is written."""
    head, found = 'name,kind,bits\n', []
    with tempfile.TemporaryDirectory() as folder:
        path = os.path.join(folder, 'flight.db')
        found.append((asked(['sqlite', '--out', path], flight(), head + 'Label,arinc,1\n')[::2], os.listdir(folder)))
    found += [(asked(words, flight())[0], asked(words, flight())[1]) for words in (['csv', '--measurements'], ['json', '--raw'])]
    found += [run(words, flight())[::2] for words in (['csv', '--measurements'], ['values'], ['plot', 'A'])]
    none = 'the setup text has no measurement that is read: --icd names a document of such'
    return found, [((2, "the measurement 'Label' has the name of another column of the table arinc"), []), (2, b''), (2, b''),
                   (1, none), (1, none), (1, none)]


# ---- by the setup text (chapter 9: groups C, B, D and P)

def group(front: str, **attributes: object) -> bytes:
    """Attributes of a group: keywords are their names, with _ for a dash, and N for the number of them."""
    return b''.join(b'%s\\%s:%s;' % (front.encode(), name.replace('_', '-').encode(), str(value).encode())
                    for name, value in attributes.items())


def conversion(number: int, name: str, **attributes: object) -> bytes:
    return group('C-%d' % number, DCN=name, **attributes)


BUSES = (b'R-1\\TK1-1:7;R-1\\CDT-1:1553IN;R-1\\CDLN-1:BUS A;R-1\\TK1-2:8;R-1\\CDT-2:429IN;R-1\\CDLN-2:AIR;' + group(
    'B-1', DLN='BUS A', BID_1='1', BT_1='1553', TRA_1_1='00101', TRM_1_1='1', STA_1_1='00011', TRA_1_2='00101', TRM_1_2='0',
    STA_1_2='00100', TRA_1_3='XXXXX', TRM_1_3='0', STA_1_3='00010') + group(
        'B-1', MN_1_1_1='HEADING', MWN_1_1_1_1='2', MBM_1_1_1_1='FW', MN_1_2_1='BEARING', MWN_1_2_1_1='1',
        MBM_1_2_1_1='0001111111100000', MN_1_3_1='LATITUDE', MWN_1_3_1_1='2', MBM_1_3_1_1='FW', MFP_1_3_1_1='2', MWN_1_3_1_2='1',
        MBM_1_3_1_2='FW', MFP_1_3_1_2='1') + group(
            'B-2', DLN='AIR', BID_1='1', BT_1='A429', LBL_1_1='10000011', SDI_1_1='01', MN_1_1_1='ALTITUDE', MBM_1_1_1_1='FW',
            LBL_1_2='206', SDI_1_2='XX', MN_1_2_1='SPEED', MBM_1_2_1_1='0' * 3 + '1' * 16 + '0' * 13) + conversion(
                1, 'HEADING', MN3='deg', BFM='TWO', DCT='COE', CO_N=1, CO='0', CO_1='0.0054931640625') + conversion(
                    2, 'BEARING', MN3='deg', BFM='TWO', DCT='PRS', PS3_1=-100, PS4_1=-10, PS3_2=100, PS4_2=10) + conversion(
                        3, 'LATITUDE', MN3='deg', BFM='TWO', DCT='COE', CO_1='0.00000001') + conversion(
                            4, 'ALTITUDE', MN3='ft', BFM='TWO', DCT='COE', CO='-100', CO_1='0.125') + conversion(
                                5, 'SPEED', MN3='kt', BFM='UNS', DCT='COE', CO_1='0.0625'))


def with_setup(text: bytes, data: bytes) -> bytes:
    """A recording with another setup text."""
    return b''.join(opened(text)) + data[len(b''.join(opened())):]


def by_setup() -> Found:
    """Messages of buses by the groups B and C: by values, csv, json, a database and a plot, with no document."""
    data = with_setup(b'G\\106:17;' + BUSES, flight())
    wanted = [row for row in COLUMNS if row[0] not in ('GEAR', 'TORQUE')]
    lines = [json.loads(line) for line in run(['values', '--json'], data)[1].splitlines()]
    by_values = [(name, line['count'], line[name]) for line in lines for name in list(line)[3:]]
    names = [name for name, _, _ in wanted]
    rows = list(csv.DictReader(run(['csv', '--measurements'], data)[1].decode().splitlines()))
    titles = {name: next(one for one in rows[0] if one.split(' ')[0] == name) for name in names}
    by_csv = sorted(((name, int(row['count']), float(row[titles[name]])) for row in rows for name in names if row[titles[name]]),
                    key=lambda row: row[1])
    said = [json.loads(line) for line in run(['json', '--measurements'], data)[1].splitlines()]
    by_json = sorted(((name, row['count'], row[name]) for row in said for name in names if name in row), key=lambda row: row[1])
    with tempfile.TemporaryDirectory() as folder:
        path = os.path.join(folder, 'flight.db')
        run(['sqlite', '--measurements', '--out', path], data)
        stored = stored_columns(path, ('bus1553', 'arinc'), names)
    status, plot, line = run(['plot', 'BEARING'], data)
    return (by_values, by_csv, by_json, stored, titles['SPEED'], status, line, b'BEARING [deg]' in plot), (
        wanted, wanted, wanted, wanted, 'SPEED [kt]', 0, '', True)


def number_of(value: int, size: int, form: str) -> int:
    """The bits of a number in a binary format of chapter 9."""
    whole = (1 << size) - 1
    if form == 'ONE':
        return value if value >= 0 else whole + value
    if form in ('SIG', 'SIM'):
        return abs(value) | ((value < 0) == (form == 'SIG')) << size - 1
    return value + (1 << size - 1) if form == 'OFF' else value & whole


def forms_of_numbers() -> Found:
    """Each binary format, of several sizes, and floating point of both; polynomials of a power of three; pairs, between which it is
    a line, and beyond which there is no value."""
    draw, found, wanted = random.Random('forms'), [], []
    link = b'R-1\\TK1-1:7;R-1\\CDLN-1:B;' + group('B-1', DLN='B', BT_1='1553', STA_1_1='00100', MN_1_1_1='M')
    for form in ('UNS', 'TWO', 'ONE', 'SIG', 'SIM', 'OFF'):
        for size in (2, 9, 16):
            low = draw.randrange(17 - size)
            top = (1 << size - 1) - 1
            value = draw.randint(0, 2 * top + 1) if form == 'UNS' else draw.choice((draw.randint(-top, -1), draw.randint(1, top)))
            bits = (number_of(value, size, form) if form != 'UNS' else value) << low
            noise = draw.getrandbits(16) & ~(((1 << size) - 1) << low)
            mask = '{:016b}'.format(((1 << size) - 1) << low)
            setup = link + group('B-1', MWN_1_1_1_1=1, MBM_1_1_1_1=mask) + conversion(1, 'M', BFM=form)
            data = b''.join(opened(setup) + [packet(7, 0x19, 2000, bus_1553([message_1553(2000, [0x2881, bits | noise, 0x2800])]))])
            found.append([json.loads(line)['M'] for line in run(['values', '--json'], data)[1].splitlines()])
            wanted.append([float(value)])
    for size, value in ((32, 1.5), (64, -123456.789), (32, float('nan'))):
        words = list(struct.unpack('>%dH' % (size // 16), struct.pack('>f' if size == 32 else '>d', value)))
        places = {'MWN_1_1_1_%d' % at: at for at in range(1, 1 + size // 16)}
        setup = link + group('B-1', **places) + conversion(1, 'M', BFM='FPT')
        data = b''.join(opened(setup) + [packet(7, 0x19, 2000, bus_1553([message_1553(2000, [0x2880 | size // 16, *words])]))])
        found.append([json.loads(line)['M'] for line in run(['values', '--json'], data)[1].splitlines()])
        wanted.append([] if value != value else [value])
    for more, some, said in ((dict(DCT='COE', CO='2', CO_1='-1', CO_3='0.5'), (0, 3, 10), (2.0, 12.5, 492.0)),
                             (dict(DCT='PRS', PS3_1=10, PS4_1=100, PS3_2=0, PS4_2=0, PS3_3=20, PS4_3=400), (5, 15, 20, 21),
                              (50.0, 250.0, 400.0))):
        setup = link + group('B-1', MWN_1_1_1_1=1) + conversion(1, 'M', **more)
        messages = [message_1553(2000 + at, [0x2881, one, 0x2800]) for at, one in enumerate(some)]
        data = b''.join(opened(setup) + [packet(7, 0x19, 2000, bus_1553(messages))])
        found.append([json.loads(line)['M'] for line in run(['values', '--json'], data)[1].splitlines()])
        wanted.append(list(said))
    return found, wanted


FRAME = b'R-1\\TK1-1:20;R-1\\CDT-1:PCMIN;R-1\\CDLN-1:TLM;' + group(
    'P-1', DLN='TLM', MF_N=4, MF1=6, MF4=24, F1=12, MFW1_1=4, MFW2_1=16, IDC1_1=1, IDC3_1=3, IDC4_1=10, IDC6_1=0, IDC7_1=1).replace(
        b'MF-N', b'MF\\N')
PLACES = group('D-1', DLN='TLM', MN_1_1='SPEED', LT_1_1='MFWD', MF_1_1=2, MN_1_2='MODE', LT_1_2='WDFR', WP_1_2_1_1=3,
               WFM_1_2_1_1='0' * 8 + '1110', FP_1_2_1_1=1, FI_1_2_1_1=1, MN_1_3='RARE', LT_1_3='WDFR', WP_1_3_1_1=5, FP_1_3_1_1=2,
               FI_1_3_1_1=2, MN_1_4='LONG', LT_1_4='WDFR', WP_1_4_1_1=4, WFP_1_4_1_1=2, FP_1_4_1_1=1,
               FI_1_4_1_1=1, WP_1_4_1_2=3, WFP_1_4_1_2=1, FP_1_4_1_2=1, FI_1_4_1_2=1, MN_1_5='FAST', LT_1_5='WDFR', WP_1_5_1_1=2,
               WI_1_5_1_1=3, FP_1_5_1_1=1, FI_1_5_1_1=1)
SPEED = conversion(1, 'SPEED', MN3='kt', BFM='TWO', DCT='COE', CO_1='0.5')


def minor_frames() -> Found:
    """Measurements in minor frames by the groups D and P, of packed and of unpacked ones: a word, bits of a word, a word in each
    second frame, two words, and one that is there twice in a frame; beside a bus, by time; and by a document."""
    draw = random.Random('frames')
    sizes = (12, 12, 12, 16, 12)
    frames = [[at % 4] + [draw.getrandbits(size) for size in sizes[1:]] for at in range(8)]
    rows = ['{:024b}'.format(0xFAF320) + ''.join('{:0{}b}'.format(*pair) for pair in zip(words, sizes)) for words in frames]
    packed = pcm_word(packed=1) + b''.join(pcm_frame(3000 + 10 * at, row) for at, row in enumerate(rows))
    unpacked = pcm_word(unpacked=1) + b''.join(pcm_unpacked(3000 + 10 * at, halves(0xFAF320, 24) + list(zip(words, sizes)))
                                               for at, words in enumerate(frames))
    wanted = []
    for at, (_, one, two, three, four) in enumerate(frames):
        row = {'SPEED': (one - (one >> 11 << 12)) / 2, 'MODE': two >> 1 & 7, 'LONG': two << 16 | three, 'FAST': one, 'FAST#2': four}
        if at % 2:
            row['RARE'] = four
        wanted.append((20, 3000 + 10 * at, row))
    found = []
    for body in (packed, unpacked):
        data = b''.join(opened(b'G\\106:17;' + FRAME + PLACES + SPEED) + [packet(20, 0x09, 3000, body)])
        lines = [json.loads(line) for line in run(['values', '--json'], data)[1].splitlines()]
        found.append([(line['channel'], line['count'], {name: line[name] for name in list(line)[3:]}) for line in lines])
    document = DOCUMENT + 'FIRST,pcm,20,,,,,,,2,0-11,yes,0.5,,kt\n'
    both = with_setup(b'G\\106:17;' + FRAME, flight()) + packet(20, 0x09, 1990, packed.replace(b'\xb8\x0b', b'\xd0\x07', 1), 1)
    lines = [json.loads(line) for line in asked(['values', '--json'], both, document)[1].splitlines()]
    counts = [line['count'] for line in lines]
    plot = run(['plot', 'SPEED', '--from', '3010', '--to', '3030'], data)
    return (found, counts == sorted(counts), [line['FIRST'] for line in lines if 'FIRST' in line], b'3 values' in plot[1]), (
        [wanted] * 2, True, [row['SPEED'] for _, _, row in sorted(wanted, key=lambda one: (one[1] != 3000, one[1]))], True)


def not_told() -> Found:
    """What the setup text does not tell, or tells in another way, is named with why; the others are read."""
    good = group('B-1', DLN='B', BT_1='1553', STA_1_1='00100', MN_1_1_1='GOOD', MWN_1_1_1_1=1)
    link = b'R-1\\TK1-1:7;R-1\\CDLN-1:B;R-1\\TK1-2:20;R-1\\CDLN-2:TLM;'
    data = [packet(7, 0x19, 2000, bus_1553([message_1553(2000, [0x2881, 7, 0x2800])]))]
    found, wanted = [], []
    bad = group('B-1', MN_1_1_2='BAD', MWN_1_1_2_1=2)
    frame = FRAME[FRAME.index(b'P-1'):]
    for more, why in ((bad + conversion(1, 'BAD', BFM='BCD'), 'its binary format is BCD'),
                      (bad + conversion(1, 'BAD', DCT='DER'), 'its conversion is DER'),
                      (bad + conversion(1, 'BAD', DCT='PRS', PS3_1=1, PS4_1=1), 'it has fewer than two pairs'),
                      (bad + conversion(1, 'BAD', DCT='COE', CO_1='much'), "a coefficient 'much' is no number"),
                      (bad + group('B-1', MBM_1_1_2_1='101'), "the mask '101' has not 16 binary digits"),
                      (bad + group('B-1', MBM_1_1_2_1='0000110011000000'),
                       "the mask '0000110011000000' is not one stretch of bits"),
                      (bad + group('B-1', MTO_1_1_2_1='LSB'), 'its bits are transferred in another order'),
                      (group('B-1', MN_1_1_2='BAD'), 'the setup text does not say where it stands'),
                      (group('B-1', MN_1_2_1='BAD', MWN_1_2_1_1=1, TRA_1_2='99'), "'99' is no number of 5 bits"),
                      (group('D-1', DLN='TLM', MN_1_1='BAD', LT_1_1='MFWD', MF_1_1=1),
                       'the setup text does not say the words of its minor frame'),
                      (frame + group('D-1', DLN='TLM', MN_1_1='BAD', LT_1_1='REL'), 'its location type is REL'),
                      (frame + group('D-1', DLN='TLM', MN_1_1='BAD', LT_1_1='MFWD', MF_1_1=6), 'a minor frame has no word 6'),
                      (frame.replace(b'IDC4', b'IDC9') + group('D-1', DLN='TLM', MN_1_1='BAD', LT_1_1='WDFR', WP_1_1_1_1=1,
                                                                FP_1_1_1_1=2),
                       'the setup text does not say where a minor frame has its number'),
                      (frame + group('D-1', DLN='TLM', MN_1_1='BAD', MN3_1_1='L', LT_1_1='MFWD', MF_1_1=1),
                       'its bits are transferred in another order')):
        status, said, line = run(['values', '--json'], b''.join(opened(link + good + more) + data))
        found.append((status, [json.loads(one)['GOOD'] for one in said.splitlines()], line))
        wanted.append((0, [7.0], 'the measurement BAD is not read: ' + why))
    return found, wanted


TRIALS: List[Callable[[], Found]] = [by_document, by_dbc, wrong_documents, drawn, by_columns, wrong_columns, by_setup,
                                     forms_of_numbers, minor_frames, not_told]
