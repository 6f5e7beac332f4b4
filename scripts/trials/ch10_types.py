"""Packets of each data type that are written from chapter 11 (`chapter11`), and what the filters have to say of them.
`scripts/trials/ch10_trials.py check` runs the trials: each function of TRIALS gives what was found and what is wanted."""
import csv
import io
import json
import pathlib
import re
import sqlite3
import tempfile
from typing import Callable, Dict, List, Sequence, Tuple

import chapter11 as made
from chapter11 import can_frame, discretes, opened, packet, secondary_header, time_of, uart_entry, word
from ch10 import command

Found = Tuple[object, object]
csv.field_size_limit(1 << 24)


def run(words: Sequence[str], data: bytes) -> Tuple[int, bytes, str]:
    """The status, the output and the line of a call."""
    to = io.BytesIO()
    status, line = command.answer(list(words), lambda: data, lambda: to)
    return status, to.getvalue(), line or ''


def cells(words: Sequence[str], data: bytes, *names: str) -> List[Tuple[str, ...]]:
    """Those columns of the entries of `csv`."""
    return [tuple(row[name] for name in names) for row in csv.DictReader(io.StringIO(run(['csv', *words], data)[1].decode()))]


def summary_rows(data: bytes) -> Dict[Tuple[int, str], dict]:
    """The rows of `summary --json` by channel and type."""
    rows = (json.loads(line) for line in run(['summary', '--json'], data)[1].splitlines())
    return {(row['channel'], row['type']): row for row in rows if 'packets' in row}


# ---- UART (11.2.12)

def uart_without_stamps() -> Found:
    """Each entry of a packet whose bit 31 is clear is at the packet's counter, with its parity error, subchannel and bytes."""
    data = b''.join(opened() + [
        packet(5, 0x50, 2000, word(0, 4) + uart_entry(b'ABC', 0, 7) + uart_entry(b'', 1, 9) + uart_entry(b'"x"', 0, 0x3FFF)),
        packet(5, 0x50, 3000, word(1 << 31, 4) + uart_entry(b'D', 0, 1, count=3005), 1),
        packet(5, 0x50, 4000, word(0, 4) + uart_entry(bytes(600), 1, 2), 2, flags=2)])
    row = summary_rows(data)[5, 'uart']
    columns = 'count', 'time', 'value', 'text', 'sub', 'errors'
    said = [json.loads(line) for line in run(['json', '--channel', '5'], data)[1].splitlines()]
    late = cells(['--channel', '5', '--from', '2500'], data, 'count')
    with tempfile.TemporaryDirectory() as folder:
        path = str(pathlib.Path(folder, 'f.db'))
        run(['sqlite', '--out', path], data)
        base = sqlite3.connect(path)
        stored = base.execute('SELECT count, value, sub, errors FROM uart ORDER BY rowid').fetchall()
        base.close()
    wanted = [('2000', '2024-02-29 12:34:56.0001000', '414243', 'ABC', '7', ''),
              ('2000', '2024-02-29 12:34:56.0001000', '', '', '9', 'parity error'),
              ('2000', '2024-02-29 12:34:56.0001000', '227822', '"x"', '16383', ''),
              ('3005', '2024-02-29 12:34:56.0002005', '44', 'D', '1', ''),
              ('4000', '2024-02-29 12:34:56.0003000', '00' * 600, '', '2', 'parity error')]
    return ((row['entries'], row['opaque'], row['first'], row['last']), cells(['--channel', '5'], data, *columns),
            [tuple(str(one[name]) for name in columns) for one in said], late, stored,
            cells(['--raw', '--channel', '5'], data, 'value', 'sub', 'parity')), (
        (5, 0, 2000, 4000), wanted, wanted, [('3005',), ('4000',)],
        [(int(count), value, int(sub), errors) for count, _, value, _, sub, errors in wanted],
        [(value, sub, '1' if errors else '0') for _, _, value, _, sub, errors in wanted])


def uart_without_stamps_cut() -> Found:
    """A length that leads over the body's end is a fault of that packet alone; so is less than a header."""
    whole = uart_entry(b'AB') + uart_entry(b'CD')
    found = []
    for body in (whole[:-1], whole[:-6] + whole[-6:-4], word(4, 2)):
        data = b''.join(opened() + [packet(5, 0x50, 2000, word(0, 4) + body), packet(5, 0x50, 2001, word(0, 4) + whole, 1)])
        status, _, line = run(['csv', '--keep-going'], data)
        found.append((status, cells(['--keep-going', '--channel', '5'], data, 'value'),
                      line.count('less than its entries in a body')))
    return found, [(1, [('4142',), ('4344',)], 1)] * 3


# ---- secondary headers (11.2.1.2)

STAMPED = (
    (5, 0x50, word(1 << 31, 4) + uart_entry(b'ABC', 0, 7, count=2003)),
    (6, 0x30, word(1, 4) + word(2004, 8) + word(2, 2) + word(1, 2) + b'xy'),
    (7, 0x19, word(1, 4) + word(2005, 8) + word(0, 2) + word(80, 2) + word(6, 2) + word(0x2862, 2) + word(0x1111, 2)
     + word(0x2222, 2)),
    (8, 0x38, word(1, 4) + word(1 << 24, 4) + word(0x80000083, 4)),
    (9, 0x29, word(8 << 3, 4) + word(2006, 8) + word(0x81, 4)),
    (2, 0x02, word(1, 4) + word(2007, 8) + word(1 << 28 | 2 << 12 | 3, 4)),
)


def with_second(check: int, change: Callable[[bytes], bytes] = bytes) -> bytes:
    """A packet of each kind that is read, each behind a secondary header, which may be changed."""
    second = change(secondary_header(bytes(range(1, 9))))
    return b''.join(opened() + [packet(channel, kind, 2000, body, 0, check, second) for channel, kind, body in STAMPED])


def second_headers() -> Found:
    """Entries behind a secondary header are those without one, in every form and with every data checksum."""
    plain = b''.join(opened() + [packet(channel, kind, 2000, body) for channel, kind, body in STAMPED])
    found, wanted = [], []
    for check in range(4):
        for words in (['csv'], ['json'], ['csv', '--raw'], ['csv', '--from', '2004']):
            found.append(run(words, with_second(check)))
            wanted.append(run(words, plain))
    rows = summary_rows(with_second(2))
    return (found, sorted((key, row['entries'], row['opaque']) for key, row in rows.items())), (
        wanted, [((0, 'setup'), None, 0), ((1, 'time'), 1, 0), ((2, 'event'), 1, 0), ((5, 'uart'), 1, 0), ((6, 'message'), 1, 0),
                 ((7, '1553'), 1, 0), ((8, 'arinc'), 1, 0), ((9, 'discrete'), 1, 0)])


def second_headers_damaged() -> Found:
    """A wrong checksum of a secondary header is a fault, and so is a wrong data checksum behind one."""
    second = secondary_header(bytes(range(1, 9)))
    body = STAMPED[0][2]
    good = packet(5, 0x50, 2000, body, 1, 2, second)
    found = []
    for at in (24, 31, 35, 40, 50, len(good) - 1):
        bad = good[:at] + bytes((good[at] ^ 4,)) + good[at + 1:]
        status, said, line = run(['summary'], b''.join(opened() + [bad, packet(5, 0x50, 3000, body, 2, 2, second)]))
        found.append((status, [why for why in ('a wrong checksum of the secondary header', 'a wrong data checksum')
                               if why in said.decode() + line]))
    return found, [(1, ['a wrong checksum of the secondary header'])] * 3 + [(1, ['a wrong data checksum'])] * 3


# ---- stamps in the format of the secondary header (11.2.1.1, flag bits 6, 3 and 2)

def stamps_of_second_headers() -> Found:
    """Stamps in each format are counted from the packet's counter on, by their time after that of the secondary header: UART,
    messages, 1553, discretes and events, also where a packet with plain stamps stands beside it."""
    found, wanted = [], []
    for form in range(3):
        start = (77 * 65536 * 100000 - 30, 1700000000 * 10 ** 7 - 40, 987654321)[form]  # whose words are full soon
        flags, second = 0x40 | form << 2, secondary_header(time_of(form, start))
        at = [time_of(form, start + past) for past in (0, 50, 10 ** 7 + 120)]
        parts = [
            packet(5, 0x50, 20000, word(1 << 31, 4) + b''.join(one + uart_entry(b'A') for one in at), 0, flags, second),
            packet(5, 0x50, 40000, word(1 << 31, 4) + uart_entry(b'B', count=40007), 1),
            packet(6, 0x30, 20000, word(1, 4) + at[1] + word(1, 2) + word(0, 2) + b'x\0', 0, flags, second),
            packet(7, 0x19, 20000, word(1, 4) + at[1] + word(0, 2) + word(80, 2) + word(2, 2) + word(0x3811, 2), 0, flags,
                   second),
            packet(9, 0x29, 20000, word(8 << 3, 4) + at[2] + word(1, 4), 0, flags, second),
            packet(2, 0x02, 20000, word(1, 4) + at[1] + word(1 << 28 | 3, 4), 0, flags, second)]
        data = b''.join(opened() + parts)
        found.append((cells([], data, 'channel', 'count'), sum(row['opaque'] for row in summary_rows(data).values())))
        wanted.append(([('1', '1000'), ('5', '20000'), ('2', '20050'), ('5', '20050'), ('6', '20050'), ('7', '20050'),
                        ('5', '40007'), ('5', '10020120'), ('9', '10020120')], 0))
    return found, wanted


def stamps_of_no_header() -> Found:
    """Without a secondary header, or in its reserved format, such stamps are not read, and the packet is counted as opaque."""
    body = word(1 << 31, 4) + uart_entry(b'A', count=5)
    found = []
    for flags, second in ((0x40, b''), (0x4C, secondary_header(bytes(8))), (0x44, secondary_header(bytes(8)))):
        row = summary_rows(b''.join(opened() + [packet(5, 0x50, 2000, body, 0, flags, second)]))[5, 'uart']
        found.append((row['packets'], row['entries'], row['opaque']))
    return found, [(1, 0, 1), (1, 0, 1), (1, 1, 0)]


# ---- discretes (11.2.6)

def discretes_at_the_top() -> Found:
    """With MSB alignment so many discretes stand at the top of the 32 bits: 31 has the highest of them."""
    data = b''.join(opened() + [
        packet(9, 0x29, 2000, discretes([(2000, 0x80000000), (2001, 0x01000000)], 8, from_top=1)),
        packet(9, 0x29, 2010, discretes([(2010, 0x03000000), (2011, 0x03FFFFFF)], 8, from_top=1), 1),
        packet(9, 0x29, 2020, discretes([(2020, 0x02)], 8), 2),
        packet(10, 0x29, 2030, discretes([(2030, 0x80000001)], 0, from_top=1)),
        packet(11, 0x29, 2040, discretes([(2040, 0x7FFFFFFF), (2041, 0x80000000)], 1, from_top=1))])
    return cells(['--kind', 'discrete'], data, 'value', 'bits', 'changed'), [
        ('80000000', '10000000', ''), ('01000000', '00000001', '+0 -7'), ('03000000', '00000011', '+1'),
        ('03ffffff', '00000011', ''), ('00000002', '00000010', '-0'), ('80000001', '1' + 30 * '0' + '1', ''),
        ('7fffffff', '0', ''), ('80000000', '1', '+0')]


def discretes_at_the_top_in_a_database() -> Found:
    """A database has the same columns of them, and in a part that begins at a later packet too."""
    rows = [(2000 + place, (place * 37 & 0xFF) << 24) for place in range(40)]
    parts = [packet(9, 0x29, at, discretes([(at, states)], 8, from_top=1), place & 0xFF, 1)
             for place, (at, states) in enumerate(rows)]
    data = b''.join(opened() + parts)
    with tempfile.TemporaryDirectory() as folder:
        path = str(pathlib.Path(folder, 'f.db'))
        run(['sqlite', '--out', path], data)
        base = sqlite3.connect(path)
        stored = base.execute('SELECT bits, changed FROM discrete ORDER BY rowid').fetchall()
        base.close()
    wanted, before = [], None
    for _, states in rows:
        bits = '{:032b}'.format(states)[:8]
        changed = '' if before is None else ' '.join(
            '%s%d' % ('+' if now == '1' else '-', place)
            for place, (was, now) in enumerate(zip(before[::-1], bits[::-1])) if was != now)
        wanted.append((bits, changed))
        before = bits
    return stored, wanted


# ---- controller area network (11.2.17)

def can_frames() -> Found:
    """Identifiers of both lengths, frames that ask, errors and subchannels, in csv, json and a database."""
    body = word(4, 4) + can_frame(2001, b'\x01\x02\x03', 0x7FF) + can_frame(2002, bytes(8), 0x1ABCDEF0, 1, 0, 5)
    body += can_frame(2003, b'', 0x123, 0, 1, 0x3FFF, 1) + can_frame(2004, b'\xff', 0, 0, 0, 0, 3)
    data = b''.join(opened() + [packet(9, 0x50, 2000, word(0, 4) + uart_entry(b'x')), packet(12, 0x78, 2000, body, 0, 3)])
    columns = 'count', 'value', 'sub', 'errors', 'id', 'extended', 'remote'
    whole = [line.split(',')[1:9:1] for line in run(['csv'], data)[1].decode().splitlines()[:1]]
    said = [json.loads(line) for line in run(['json', '--kind', 'can'], data)[1].splitlines()]
    with tempfile.TemporaryDirectory() as folder:
        path = str(pathlib.Path(folder, 'f.db'))
        run(['sqlite', '--out', path], data)
        base = sqlite3.connect(path)
        stored = base.execute('SELECT count, value, sub, errors, id, extended, remote FROM can ORDER BY rowid').fetchall()
        base.close()
    wanted = [(2001, '010203', 0, '', 0x7FF, False, False), (2002, '00' * 8, 5, '', 0x1ABCDEF0, True, False),
              (2003, '', 0x3FFF, 'format error', 0x123, False, True), (2004, 'ff', 0, 'data error+format error', 0, False, False)]
    row = summary_rows(data)[12, 'can']
    return (cells(['--kind', 'can'], data, *columns), [tuple(one[name] for name in columns) for one in said], stored,
            (row['entries'], row['opaque'], row['first'], row['last']), whole,
            cells(['--channel', '12'], data, 'count', 'type', 'value', 'sub', 'errors')), (
        [tuple(str(int(one)) if isinstance(one, bool) else str(one) for one in row) for row in wanted], wanted,
        [tuple(row) for row in wanted], (4, 0, 2001, 2004), [['name', 'count', 'time', 'lost', 'type', 'value', 'text', 'sub']],
        [(str(row[0]), 'can', row[1], str(row[2]), row[3]) for row in wanted])


def can_frames_cut() -> Found:
    """A frame whose length leads over its body, or has no room for an identifier, is a fault of its packet."""
    whole = can_frame(2001, b'\x01\x02', 1) + can_frame(2002, b'\x03\x04', 2)
    short = whole[:8] + word(3, 2) + whole[10:]
    found = []
    for body in (whole[:-1], short, whole[:20]):
        data = b''.join(opened() + [packet(12, 0x78, 2000, word(2, 4) + body), packet(12, 0x78, 2001, word(2, 4) + whole, 1)])
        found.append((run(['csv', '--keep-going'], data)[0], cells(['--keep-going', '--kind', 'can'], data, 'value', 'id')))
    return found, [(1, [('0102', '1'), ('0304', '2')])] * 3


def fibre_channel() -> Found:
    """Types 0x79 and 0x7a are Fibre Channel, and a setup text that calls them CAN does not agree."""
    data = b''.join(opened(b'R-1\\TK1-1:12;R-1\\CDT-1:CANIN;R-1\\TK1-2:13;R-1\\CDT-2:CANIN;')
                    + [packet(12, 0x79, 2000, bytes(8)), packet(12, 0x7A, 2000, bytes(8), 1), packet(13, 0x78, 2000, word(0, 4))])
    said = run(['setup', '--tree'], data)[1].decode().splitlines()
    return (sorted(summary_rows(data))[2:], said[said.index('') + 1:]), (
        [(12, 'fibre-79'), (12, 'fibre-7a'), (13, 'can')],
        ['channel 1 is not named', 'channel 12 is named CANIN, and has packets of type 79, 7a'])


# ---- ARINC 429 (11.2.8)

def arinc_words() -> Found:
    """Each word is its gap after the one before it, the first one after the packet's counter; with bus, label, SDI, data, SSM and
    the errors of its header."""
    word_ = 2 << 29 | 0x55AA << 10 | 3 << 8 | 0o310
    even = word_ | (bin(word_).count('1') % 2) << 31
    data = b''.join(opened() + [packet(8, 0x38, 2000, made.arinc([(5, 3, even), (0xFFFFF, 200, even ^ 1 << 31)], 0b101)),
                                packet(8, 0x38, 3000000, made.arinc([(0, 0, even ^ 1 << 31)]), 1, 1)])
    common = ('310', '3', str(0x55AA), '2')
    return cells(['--kind', 'arinc'], data, 'count', 'bus', 'errors', 'high', 'label', 'sdi', 'data', 'ssm'), [
        ('2005', '3', 'format error+even parity', '1', *common), (str(2005 + 0xFFFFF), '200', 'format error', '1', *common),
        ('3000000', '0', '', '0', *common)]


def arinc_words_cut() -> Found:
    """Less than its words is a fault of the packet alone; a packet of no words is none."""
    whole, found = made.arinc([(0, 1, 5), (1, 1, 6)]), []
    for body, is_bad in ((whole[:-1], 1), (word(3, 4) + whole[4:], 1), (made.arinc([]), 0)):
        data = b''.join(opened() + [packet(8, 0x38, 2000, body), packet(8, 0x38, 3000, whole, 1)])
        found.append((run(['csv', '--keep-going'], data)[0] - is_bad, cells(['--keep-going', '--kind', 'arinc'], data, 'count')))
    return found, [(0, [('3000',), ('3001',)])] * 3


# ---- setup record and events (11.2.7, formats 1 and 2)

def events_of_a_crew() -> Found:
    """Number and occurrence of each event, with a header of 8 bytes in each and without."""
    some = [(2001, 4095, 65535), (2002, 0, 0)]
    data = b''.join(opened() + [packet(2, 0x02, 2001, made.events(some)),
                                packet(2, 0x02, 3001, made.events([(3001, 7, 9)], b'12345678'), 1, 3)])
    return cells(['--kind', 'event'], data, 'count', 'number', 'occurrence'), [
        ('2001', '4095', '65535'), ('2002', '0', '0'), ('3001', '7', '9')]


def events_cut() -> Found:
    """Less than its events is a fault; where they would fit without the headers that the word says they are not read, and said."""
    whole = made.events([(2001, 1, 1), (2002, 2, 2)])
    found = []
    for body in (whole[:-1], word(3, 4) + whole[4:]):
        data = b''.join(opened() + [packet(2, 0x02, 2000, body), packet(2, 0x02, 2003, whole, 1)])
        found.append((run(['csv', '--keep-going'], data)[0], len(cells(['--keep-going', '--kind', 'event'], data, 'count'))))
    data = b''.join(opened() + [packet(2, 0x02, 2000, word(1 << 31 | 2, 4) + whole[4:])])
    return (found, run(['csv'], data)[::2]), ([(1, 2)] * 2, (1, 'channel 2, event: 1 packet not read: another form of its type'))


def setup_texts() -> Found:
    """The text byte for byte, of several packets one after the other; as a tree; and one in XML, which names no channel."""
    first, more = b'G\\106:17;R-1\\TK1-1:5;R-1\\DSI-1:RADIO;', b'R-1\\N:1;'
    entry = packet(5, 0x50, 2000, made.uart([(2000, b'x')]))
    two = b''.join(opened(first) + [packet(0, 0x01, 1500, made.setup(more, changed=True), 1), entry])
    xml = packet(0, 0x01, 1000, made.setup(b'<Tmats R-1\\TK1-1:5;R-1\\DSI-1:RADIO;/>', xml=True)) + entry
    tree = run(['setup', '--tree'], two)[1].decode().splitlines()
    return (run(['setup'], two), '    DSI-1: RADIO' in tree, cells(['--channel', '5'], two, 'name'),
            run(['setup'], xml)[1][:6], cells(['--channel', '5'], xml, 'name'), summary_rows(two)[0, 'setup']['packets']), (
        (0, first + more, ''), True, [('RADIO',)], b'<Tmats', [('',)], 2)


# ---- what the buses carried, drawn

def heat_map_of_1553() -> Found:
    """The map of a 1553 channel has a cell for each terminal, direction and subaddress, with how many messages there are and how
    many of them are wrong; it is red where some are, and darker where there are more."""
    some = [(5, 0, 3, 7, 0), (5, 1, 3, 2, 0), (6, 0, 4, 40, 10), (31, 1, 30, 1, 1)]  # RT, T/R, SA, messages, wrong ones
    sent = [made.message_1553(2000, [rt << 11 | sends << 10 | sa << 5 | 1], 0x1000 if place < wrong else 0, 80)
            for rt, sends, sa, number, wrong in some for place in range(number)]
    parts = opened() + [packet(7, 0x19, 2000, made.bus_1553(sent)),
                        packet(4, 0x19, 2001, made.bus_1553([made.message_1553(2001, [], 0, 80)]))]
    with tempfile.TemporaryDirectory() as folder:
        path = pathlib.Path(folder, 'bus.ch10')
        path.write_bytes(b''.join(parts))
        status, page, _ = run(['report', '--unjudged', str(path)], b'')
    cells_ = re.findall(r'fill="#(..)(..)(..)"><title>(RT [^<]*)</title>', page.decode())
    colours = [(text, int(red, 16) > int(blue, 16), int(green, 16)) for red, green, blue, text in cells_]
    return (status, [one[:2] for one in colours], colours[0][2] < colours[1][2], colours[2][2] > colours[3][2],
            page.count(b'terminals receive'), page.count(b'<details>')), (
        0, [('RT 5, SA 3, receives: 7 messages', False), ('RT 5, SA 3, transmits: 2 messages', False),
            ('RT 6, SA 4, receives: 40 messages, 10 wrong', True), ('RT 31, SA 30, transmits: 1 messages, 1 wrong', True)],
        True, True, 2, 2)


TRIALS: List[Callable[[], Found]] = [heat_map_of_1553, stamps_of_second_headers, stamps_of_no_header,
                                     can_frames, can_frames_cut, fibre_channel,
                                     uart_without_stamps, uart_without_stamps_cut, second_headers, second_headers_damaged,
                                     discretes_at_the_top, discretes_at_the_top_in_a_database, arinc_words, arinc_words_cut,
                                     events_of_a_crew, events_cut, setup_texts]
