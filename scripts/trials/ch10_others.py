"""Packets of types that few recorders write, from chapter 11 (`chapter11`), one fact a recording, and what every command has to say
of them. `scripts/trials/ch10_trials.py check` runs the trials: each function of TRIALS gives what was found and what is wanted."""
import json
import pathlib
import random
import sqlite3
import tempfile
from typing import Callable, Dict, List, Sequence, Tuple

import chapter11 as made
from ch10 import vector
from ch10.recording import recordings
from ch10_types import Found, cells, run, summary_rows
from chapter11 import opened, packet

Rows = List[Tuple[object, ...]]


def by_ways(data: bytes, kind: str, names: Sequence[str], stored: Sequence[str]) -> Dict[str, Rows]:
    """Columns of the entries of a kind by csv, json and both databases; `stored` are the columns of the table of many."""
    found: Dict[str, Rows] = {'csv': list(cells(['--kind', kind], data, *names))}
    lines = [json.loads(line) for line in run(['json', '--kind', kind], data)[1].splitlines()]
    found['json'] = [tuple(line[name] for name in names) for line in lines]
    with tempfile.TemporaryDirectory() as folder:
        path = pathlib.Path(folder, 'flight.ch10')
        path.write_bytes(data)
        run(['sqlite', '--out', folder + '/one.db'], data)
        run(['load', '--db', folder + '/many.db', '--unjudged', '--jobs', '1', str(path)], b'')
        for name, table, columns in (('one', kind if kind.isalpha() else 'bus' + kind, names), ('many', 'entry_' + kind, stored)):
            base = sqlite3.connect('%s/%s.db' % (folder, name))
            found[name] = base.execute('SELECT %s FROM "%s" ORDER BY rowid' % (', '.join(columns), table)).fetchall()
            base.close()
    return found


def wanted_by(rows: Rows, many: Rows) -> Dict[str, Rows]:
    """Such rows by each way: csv has all as texts."""
    return {'csv': [tuple(map(str, row)) for row in rows], 'json': rows, 'one': rows, 'many': many}


# ---- 16PP194 (11.2.4, format 2)

def weapons_bus() -> Found:
    """Words of 32 bits with the high byte first, and the errors of the status, wherever in its packet a message stands."""
    some = [(2001, [0x12345678, 0xA0000001], 0), (2002, [], 1 << 15 | 1 << 13), (2003, [0xFFFFFFFF], 1 << 14 | 1 << 6 | 1 << 3),
            (2004, list(range(7)), 1)]
    parts = [packet(7, 0x1A, 2000, made.counted([made.message_16pp194(*one) for one in some[:3]]), 0, 2, bytes(8)),
             packet(7, 0x1A, 2004, made.counted([made.message_16pp194(*some[3])]), 1)]
    errors = ['', 'transaction error+message timeout', 'reset+status error+echo error', '']
    rows: Rows = [(count, ''.join('%08x' % word for word in words), error, '%04x' % status)
                  for (count, words, status), error in zip(some, errors)]
    many: Rows = [(count, bytes.fromhex(value), error or None, int(status, 16)) for count, value, error, status in rows]
    data = b''.join(opened() + parts)
    row = summary_rows(data)[7, '16pp194']
    raw = cells(['--raw', '--channel', '7'], data, 'count', 'value', 'status')
    return (by_ways(data, '16pp194', ('count', 'value', 'errors', 'status'), ('count', 'words', 'errors', 'status')),
            (row['entries'], row['opaque'], row['first'], row['last']), raw), (
        wanted_by(rows, many), (4, 0, 2001, 2004), [(str(row[0]), row[1], row[3]) for row in rows])


def weapons_bus_cut() -> Found:
    """A length that leads over the body's end, or is no whole number of words, is a fault of its packet alone."""
    whole = made.message_16pp194(2001, [1, 2])
    odd = whole[:8] + made.word(6, 2) + whole[10:]
    found = []
    for body in (whole[:-1], odd, whole[:11]):
        data = b''.join(opened() + [packet(7, 0x1A, 2000, made.word(1, 4) + body), packet(7, 0x1A, 2001, made.counted([whole]), 1)])
        found.append((run(['csv', '--keep-going'], data)[0], cells(['--keep-going', '--kind', '16pp194'], data, 'value')))
    return found, [(1, [('0000000100000002',)])] * 3


# ---- IEEE 1394 (11.2.13)

def firewire() -> Found:
    """An event of the bus and a block of a stream are at their packet's counter, transactions at their stamps."""
    parts = [packet(30, 0x58, 2000, made.firewire(0, [made.word(1 << 31, 4)])),
             packet(30, 0x58, 2010, made.firewire(1, [b'stream!'], sync=9), 1, 3),
             packet(30, 0x58, 2020, made.firewire(2, [made.transaction(2021, b'abc'), made.transaction(2029, bytes(300))]), 2),
             packet(30, 0x58, 2030, made.firewire(0, [made.word(1, 4)]), 3),
             packet(30, 0x58, 2040, made.firewire(1, [b'']), 4)]
    rows: Rows = [(2000, '00000080', 'bus reset', 0, 0), (2010, b'stream!'.hex(), '', 1, 9), (2021, '616263', '', 2, 0),
                  (2029, '00' * 300, '', 2, 0), (2030, '01000000', '', 0, 0), (2040, '', '', 1, 0)]
    many: Rows = [(count, bytes.fromhex(value), event or None, body, sync) for count, value, event, body, sync in rows]
    data = b''.join(opened() + parts)
    row = summary_rows(data)[30, '1394']
    ranged = cells(['--kind', '1394', '--from', '2022', '--to', '2035'], data, 'count')
    return (by_ways(data, '1394', ('count', 'value', 'event', 'body', 'sync'), ('count', 'value', 'event', 'body', 'sync')),
            (row['entries'], row['opaque'], row['first'], row['last']), ranged), (
        wanted_by(rows, many), (6, 0, 2000, 2040), [('2029',), ('2030',)])


def firewire_cut() -> Found:
    """A transaction that leads over its body, and an event that is no word, are faults; a kind of body that is reserved is not
    read, and said."""
    whole = made.firewire(2, [made.transaction(2001, b'ab')])
    found = []
    for body in (whole[:-1], whole[:10], made.firewire(0, [b'']), made.firewire(0, [bytes(8)])):
        data = b''.join(opened() + [packet(30, 0x58, 2000, body), packet(30, 0x58, 2001, whole, 1)])
        found.append((run(['csv', '--keep-going'], data)[0], cells(['--keep-going', '--kind', '1394'], data, 'value')))
    data = b''.join(opened() + [packet(30, 0x58, 2000, made.firewire(3, [bytes(12)])), packet(30, 0x58, 2001, whole, 1)])
    return (found, run(['csv'], data)[::2], cells([], data, 'value')[1:]), (
        [(1, [('6162',)])] * 4, (1, 'channel 30, 1394: 1 packet not read: another form of its type'), [('6162',)])


def firewire_physical() -> Found:
    """Of the physical layer: status, speed, overflows and bytes of each packet of the bus."""
    some = [(2001, b'abcd', 0x12, 4, 0), (2002, b'', 0, 15, 1), (2005, b'xyz', 0xFF, 0, 2), (2006, bytes(5), 1, 1, 7)]
    errors = ['', 'buffer overflow', 'transfer overflow', 'buffer overflow+transfer overflow']
    data = b''.join(opened() + [packet(31, 0x59, 2000, made.counted([made.physical(*one) for one in some]), 0, 1)])
    rows: Rows = [(count, value.hex(), error, '%02x' % status, speed)
                  for (count, value, status, speed, _), error in zip(some, errors)]
    many: Rows = [(row[0], bytes.fromhex(str(row[1])), row[2] or None, int(str(row[3]), 16), row[4]) for row in rows]
    row = summary_rows(data)[31, '1394phy']
    return (by_ways(data, '1394phy', ('count', 'value', 'errors', 'status', 'speed'),
                    ('count', 'value', 'errors', 'status', 'speed')), (row['entries'], row['opaque'])), (
        wanted_by(rows, many), (4, 0))


def firewire_physical_cut() -> Found:
    """Less than so many packets of the bus as the word says is a fault of the packet alone."""
    whole = made.counted([made.physical(2001, b'ab'), made.physical(2002, b'cd')])
    found = []
    for body in (whole[:-1], whole[:20], made.word(3, 4) + whole[4:]):
        data = b''.join(opened() + [packet(31, 0x59, 2000, body), packet(31, 0x59, 2001, whole, 1)])
        found.append((run(['csv', '--keep-going'], data)[0], cells(['--keep-going', '--kind', '1394phy'], data, 'value')))
    return found, [(1, [('6162',), ('6364',)])] * 3


# ---- streaming configuration (11.2.7, format 4)

NAMED = b'R-1\\TK1-1:5;R-1\\DSI-1:RADIO;R-1\\CDT-1:UARTIN;'


def streaming_configuration() -> Found:
    """`setup --streaming` writes it; where there is no setup, channels have their names by it, and where there is one, by that."""
    own = packet(0, 0x04, 1000, made.streaming(NAMED), 1)
    entry = packet(5, 0x50, 2000, made.uart([(2000, b'x')]))
    stream, both = own + opened()[1] + entry, opened(b'G\\106:17;R-1\\TK1-1:5;R-1\\DSI-1:OTHER;') + [own, entry]
    tree = run(['setup', '--streaming', '--tree'], stream)[1].decode().splitlines()
    row = summary_rows(b''.join(both))[0, 'streaming']
    return (run(['setup', '--streaming'], stream), run(['setup', '--streaming'], b''.join(both)), '    DSI-1: RADIO' in tree,
            cells(['--channel', '5'], stream, 'name'), cells(['--channel', '5'], b''.join(both), 'name'),
            (row['packets'], row['opaque']), run(['csv'], b''.join(both))[2]), (
        (0, NAMED, 'the first packet is no setup'), (0, NAMED, ''), True, [('RADIO',)], [('OTHER',)], (1, 0), '')


def no_streaming_configuration() -> Found:
    """A recording without one is a line, and so is one whose packet has no room for its word."""
    cut = packet(0, 0x04, 1000, b'\x0c\0', 1)
    return ([run(['setup', '--streaming', *more], b''.join(opened()))[::2] for more in ([], ['--tree'])],
            run(['summary'], b''.join(opened() + [cut]))[::2]), (
        [(1, 'the recording has no streaming configuration')] * 2,
        (1, 'a body without its word at offset %d' % len(b''.join(opened()))))


# ---- recording index (11.2.7, format 3)

def recording_index() -> Found:
    """Nodes and roots, with the size of the file and headers within and without: count, time, channel, type and place, and whether
    a packet of that channel and type begins there."""
    inner = packet(5, 0x50, 2000, made.uart([(2000, b'x')]))  # a packet within another, which is none of the recording
    front = opened() + [packet(5, 0x50, 2000, made.uart([(2000, inner)]), 0, 2)]
    places = [0, len(front[0]), len(front[0]) + len(front[1])]
    end, found = len(b''.join(front)), []
    nodes = [(1000, 0, 0x01, 0), (1000, 1, 0x11, places[1]), (2000, 5, 0x50, places[2]), (2000, 6, 0x50, places[2]),
             (2000, 5, 0x30, places[2]), (2000, 5, 0x50, places[2] + 40), (2000, 5, 0x50, 1 << 40)]
    for size, header in ((None, b''), (1 << 33, b'12345678')):
        data = b''.join(front + [packet(0, 0x03, 2000, made.index(nodes, True, size, header), 1),
                                 packet(0, 0x03, 2000, made.index([(1000, end), (1000, 4), (1000, 0)], False, size, header), 2)])
        status, said, line = run(['index'], data)
        found.append((status, line, [row.split(',')[1:] for row in said.decode().splitlines()[1:]]))
    names = {0x01: 'setup', 0x11: 'time', 0x50: 'uart', 0x30: 'message'}
    front_of = {1000: ['1000', '2024-02-29 12:34:56.0000000'], 2000: ['2000', '2024-02-29 12:34:56.0001000']}
    rows = [['node', *front_of[count], str(channel), names[kind], str(at), 'yes' if place < 3 else 'no']
            for place, (count, channel, kind, at) in enumerate(nodes)]
    rows += [['root', *front_of[1000], '', '', str(at), answer] for at, answer in ((end, 'yes'), (4, 'no'), (0, 'no'))]
    return found, [(0, '', rows)] * 2


def recording_index_cut() -> Found:
    """A body with less than its entries is a fault, and so is a recording without an index."""
    whole = made.index([(1000, 0, 0x01, 0), (1000, 1, 0x11, 40)], True, 9, b'12345678')
    data = b''.join(opened() + [packet(0, 0x03, 2000, whole[:-1], 1), packet(0, 0x03, 2000, whole, 2)])
    status, said, line = run(['index'], data)
    return (status, line, len(said.splitlines()), run(['index'], b''.join(opened()))[::2]), (
        1, '1 index packet not read: less than its entries in a body', 3, (1, 'the recording has no index packet'))


# ---- messages in segments (11.2.9)

def segments_of(whole: bytes, sizes: Sequence[int], first: int, count: int, sub: int = 3,
                errors: Sequence[int] = ()) -> List[bytes]:
    """A message in packets of channel 6, with segments of such sizes."""
    parts, at = [], 0
    for place, size in enumerate(sizes):
        part = made.BEGINNING if place == 0 else made.LAST if place == len(sizes) - 1 else made.MIDDLE
        error = errors[place] if errors else 0
        parts.append(packet(6, 0x30, count + 7 * place, made.messages([(count + 7 * place, whole[at:at + size])], sub, part, error),
                            first + place & 0xFF, place % 4))
        at += size
    return parts


def joined_segments() -> Found:
    """A message in segments is one entry, at the stamp of its first one, with the errors of all, also one that is longer than any
    packet's own, and one whose packets stand between those of other channels; by each command, and where a range begins in it."""
    long = random.Random('segments').randbytes(150001)
    one = segments_of(long, (65535, 65535, 18931), 1, 3000, errors=(0, 1, 2))
    two = segments_of(b'two parts', (4, 5), 5, 5000)
    others = [packet(5, 0x50, 3000 + place, made.uart([(3000 + place, b'x')]), place) for place in range(3)]
    data = b''.join(opened() + [packet(6, 0x30, 2000, made.messages([(2000, b'before')], 3), 0)] + [
        part for pair in zip(one, others) for part in pair] + [packet(6, 0x30, 4000, made.messages([(4000, b'')], 3), 4)] + two)
    rows: Rows = [(2000, b'before'.hex(), 3, ''), (3000, long.hex(), 3, 'data error+format error'), (4000, '', 3, ''),
                  (5000, b'two parts'.hex(), 3, '')]
    many: Rows = [(count, bytes.fromhex(str(value)), sub, error or None) for count, value, sub, error in rows]
    row = summary_rows(data)[6, 'message']
    ranged = run(['range', '--from', '2999', '--to', '3001'], data)
    again = cells(['--kind', 'message'], ranged[1], 'count', 'value')
    held = recordings(data)[0]
    by_packet = [(entry.count, entry.value.bytes) for each in held.packets() if each.channel == 6
                 for entry in held.entries_of(each)]
    with tempfile.TemporaryDirectory() as folder:
        path = pathlib.Path(folder, 'flight.ch10')
        path.write_bytes(data)
        page = run(['report', '--unjudged', str(path)], b'')
    return (by_ways(data, 'message', ('count', 'value', 'sub', 'errors'), ('count', 'value', 'sub', 'errors')),
            (row['packets'], row['entries'], row['opaque'], run(['csv'], data)[2]), (ranged[0], again),
            by_packet == [(row[0], row[1] or '-') for row in rows], page[0], b'not read' in page[1]), (
        wanted_by(rows, many), (7, 4, 0, ''), (0, [('3000', long.hex())]), True, 0, False)


def broken_segments() -> Found:
    """What is left of a message that is not whole is not read, and said: without its beginning, its middle or its end, with another
    subchannel, after a loss, or of two messages in one packet. The next one that is whole is read."""
    whole, found, wanted = b'one whole message', [], []
    three = segments_of(whole, (6, 6, 5), 0, 3000)
    good = segments_of(whole, (10, 7), 10, 9000)
    lossy = three[:1] + [packet(6, 0x30, 3007, made.messages([(3007, whole[6:12])], 3, made.MIDDLE), 1, 0x10)] + three[2:]
    other = three[:1] + [packet(6, 0x30, 3007, made.messages([(3007, whole[6:12])], 4, made.MIDDLE), 1)] + three[2:]
    pair = three[:1] + [packet(6, 0x30, 3007, made.messages([(3007, b'ab'), (3008, b'cd')], 3, made.LAST), 1)]
    alone = three[:1] + [packet(6, 0x30, 3007, made.messages([(3007, b'plain')], 3), 1)] + segments_of(whole, (6, 11), 1, 4000)[1:]
    for parts, left in ((three[1:], 2), (three[::2], 2), (three[:2], 2), (lossy, 3), (other, 3), (pair, 2), (alone, 2)):
        data = b''.join(opened() + parts + good)
        found.append((run(['csv'], data)[::2], cells(['--kind', 'message'], data, 'value')[-1:], len(
            cells(['--kind', 'message'], data, 'value')), summary_rows(data)[6, 'message']['opaque']))
        wanted.append(((1, 'channel 6, message: %d packets not read: a segment of a message that is not whole' % left),
                       [(whole.hex(),)], 2 if parts is alone else 1, left))
    return found, wanted


# ---- the time tag bits of MIL-STD-1553 (11.2.4, format 1)

def time_tags() -> Found:
    """Which bit of a message its stamp is of stands in the quality: that of the last word has no name. So it does where a time is
    free, where there is none, and beside a counter error; the other columns stay."""
    parts = [packet(7, 0x19, 2000 + tag, made.bus_1553([made.message_1553(2000 + tag, [0x2862])], tag), tag, 0x20 * (tag == 2))
             for tag in range(4)] + [packet(5, 0x50, 2005, made.uart([(2005, b'x')]))]
    data, timeless = b''.join(opened() + parts), b''.join(opened()[:1] + parts)
    by_json = [json.loads(line)['quality'] for line in run(['json', '--quality'], data)[1].splitlines()[1:]]
    plain = run(['csv'], data)[1].decode().splitlines()
    wanted = ['locked', 'locked+stamp of the first bit', 'locked+counter error+stamp of the first word',
              'locked+stamp of a reserved place', 'locked']
    return ([said for said, in cells(['--quality'], data, 'quality')][1:], by_json,
            [line.rsplit(',', 1)[0] for line in run(['csv', '--quality'], data)[1].decode().splitlines()] == plain,
            [said for said, in cells(['--quality'], timeless, 'quality')]), (
        wanted, wanted, True, ['', 'stamp of the first bit', 'stamp of the first word', 'stamp of a reserved place', ''])


def time_tags_of_many() -> Found:
    """The same where very many messages are written at once, with a channel of each kind."""
    parts = [packet(7 + tag, 0x19, 2000, made.bus_1553([made.message_1553(2000 + at, [0x2862]) for at in range(
        vector.TOGETHER // 2)], tag)) for tag in range(3)]
    found: Dict[Tuple[str, ...], int] = {}
    for row in cells(['--kind', '1553', '--quality'], b''.join(opened() + parts), 'channel', 'quality'):
        found[row] = found.get(row, 0) + 1
    return found, dict.fromkeys([('7', 'locked'), ('8', 'locked+stamp of the first bit'), ('9', 'locked+stamp of the first word')],
                                vector.TOGETHER // 2)


TRIALS: List[Callable[[], Found]] = [
    weapons_bus, weapons_bus_cut, firewire, firewire_cut, firewire_physical, firewire_physical_cut, streaming_configuration,
    no_streaming_configuration, recording_index, recording_index_cut, joined_segments, broken_segments, time_tags,
    time_tags_of_many]
