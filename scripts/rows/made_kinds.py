"""The kinds of channels as the trials make them and read them, a class each. Whoever adds a kind adds it here: random scripts,
sessions, flights, ranges and the file with every kind have it then.

It is written from docs/FORMAT.md and docs/USING.md, and takes nothing from the recorder or from the filters.
"""
import random
import struct
from typing import Callable, Dict, List, Sequence, Tuple

from check_cases import letters, number


def truth(draw: random.Random) -> str:
    return draw.choice(('true', 'false'))


def some_bytes(draw: random.Random, size: int) -> bytes:
    return draw.getrandbits(8 * size).to_bytes(size, 'little')


class Kind:
    """A kind of channel.

    .name       in scripts and lines; .data_type, of its packets; .code, its channel data type in a setup text
    .keys       the values of an entry as `r10 play` prints them, by the names that csv --raw and json --raw have for them
    .value      which of them stands in the column `value` of csv --raw, or None
    .settings   of its channels in a session, beside those of each kind
    .channel    in a flight
    .share      how many channels of it a recording of a range has; .few, how many a small one
    .compared   those columns of csv that its table in a database has too, in the table's order
    """

    name, code, value, data_type, channel = '', '', None, 0, 0
    keys: Sequence[str] = ()
    settings: Dict[str, int] = {}
    share, few = 6, 1
    compared: Sequence[str] = ('value',)

    def random_settings(self, draw: random.Random) -> List[str]:
        """Settings of a channel in a random script, beside those of each kind."""
        return []

    def offer(self, draw: random.Random) -> List[str]:
        """The keys of a random message in the step that offers it."""
        raise NotImplementedError

    def item(self, chance: random.Random, some: str) -> str:
        """The keys of a random message in a session's feed, but its count; its bytes, where it has such, are these hex digits."""
        raise NotImplementedError

    def played(self, item: Dict) -> str:
        """What `r10 play` prints of such a message after its kind."""
        raise NotImplementedError

    def flight_body(self, draw: random.Random, some: Sequence[int]) -> bytes:
        """The body of a packet with random messages at these counts."""
        raise NotImplementedError

    def range_bodies(self, draw: random.Random) -> Callable[[int], bytes]:
        """What makes the bodies of one channel of a range, by the count of the first entry. They lie within a tenth of a second."""
        raise NotImplementedError

    def example(self) -> Tuple[int, int, int, bytes, List[str]]:
        """Of its packet in the file with every kind the channel, the bits of the data checksum, the counter, the body, and what
        `r10 play` prints of each entry after the channel."""
        raise NotImplementedError

    def stated(self) -> Tuple[List[Tuple[int, bytes]], List[Dict[str, str]]]:
        """What entries mean: counters and bodies of packets, and of each entry the cells of csv that are not empty, but those that
        every entry has. Nothing where scripts/trials/ch10_meanings.py states it, with the names that a setup text gives."""
        return [], []


# ---- texts

def text_parts(draw: random.Random, number: int, size: int, subs: int) -> List[Tuple[int, bytes]]:
    """Headers and bytes of random texts."""
    made = []
    for _ in range(number):
        data = some_bytes(draw, draw.randrange(size // 2, size))
        made.append((draw.randrange(subs) << 16 | len(data), data + bytes(len(data) & 1)))
    return made


def text_body(parts: List[Tuple[int, bytes]], count: int, word: int) -> bytes:
    return struct.pack('<I', word) + b''.join(
        struct.pack('<QI', count + 15000 * place, head) + data for place, (head, data) in enumerate(parts))


def flight_texts(draw: random.Random, some: Sequence[int]) -> bytes:
    texts = [draw.choice((b'$GPGGA,%d', b'caf\xe9 %d', b'"%d",', b'%d\r\n')) % draw.randrange(10 ** 6) for _ in some]
    return b''.join(letters(at, text) for at, text in zip(some, texts))


class Uart(Kind):
    name, code, value, data_type, channel = 'uart', 'UARTIN', 'bytes', 0x50, 5
    keys = ('parity', 'sub', 'bytes')
    share = 8
    compared = ('sub', 'errors', 'value')

    def offer(self, draw):
        return ['parity = ' + truth(draw), 'sub = %d' % draw.choice((0, 5, 16383)),
                'bytes = "%s"' % draw.randbytes(draw.randrange(40)).hex()]

    def item(self, chance, some):
        return 'sub = %d, bytes = "%s"' % (chance.randrange(4), some)

    def played(self, item):
        return '0 %d %s' % (item.get('sub', 0), item['bytes'] or '-')

    def flight_body(self, draw, some):
        return number(1 << 31, 4) + flight_texts(draw, some)

    def range_bodies(self, draw):
        parts = text_parts(draw, 60, 80, 4)
        return lambda count: text_body(parts, count, 1 << 31)

    def example(self):
        body = number(1 << 31, 4) + letters(1000, b'ABC', 1 << 31 | 9 << 16) + letters(1010, b'')
        return 5, 8, 1000, body, ['1000 0 uart 1 9 414243', '1010 0 uart 0 0 -']

    def stated(self):
        said = b'$GPGGA,"a"\\\r\n'
        body = number(1 << 31, 4) + letters(2000, said) + letters(2001, b'\x00\x01') + letters(2002, b'', 1 << 31 | 5 << 16)
        return [(2000, body)], [dict(value=said.hex(), text='$GPGGA,"a"\\\\\\r\\n', sub='0'), dict(value='0001', sub='0'),
                                dict(sub='5', errors='parity error')]


class Message(Kind):
    name, code, value, data_type, channel = 'message', 'MSGIN', 'bytes', 0x30, 6
    keys = ('data_error', 'format', 'sub', 'bytes')
    compared = ('sub', 'errors', 'value')

    def offer(self, draw):
        return ['data = ' + truth(draw), 'format = ' + truth(draw), 'sub = %d' % draw.choice((0, 16383)),
                'bytes = "%s"' % draw.randbytes(draw.randrange(40)).hex()]

    def item(self, chance, some):
        return 'sub = %d, format = false, bytes = "%s"' % (chance.randrange(4), some)

    def played(self, item):
        return '0 0 %d %s' % (item.get('sub', 0), item['bytes'] or '-')

    def flight_body(self, draw, some):
        return number(len(some), 4) + flight_texts(draw, some)

    def range_bodies(self, draw):
        parts = text_parts(draw, 30, 160, 2)
        return lambda count: text_body(parts, count, len(parts))

    def example(self):
        body = number(2, 4) + letters(1002, b'\x0a', 1 << 31 | 2 << 16) + letters(1003, b'', 1 << 30)
        return 10, 0, 1002, body, ['1002 0 message 1 0 2 0a', '1003 0 message 0 1 0 -']

    def stated(self):
        body = number(2, 4) + letters(2010, b'ok', 1 << 31 | 1 << 30) + letters(2011, b'\xe9', 1 << 30)
        return [(2010, body)], [dict(value='6f6b', text='ok', sub='0', errors='data error+format error'),
                                dict(value='e9', sub='0', errors='format error')]


# ---- buses

def bus_message(count: int, status: int, gap: int, words: Sequence[int]) -> bytes:
    """An entry of a MIL-STD-1553 packet."""
    return struct.pack('<QHHH%dH' % len(words), count, status, gap, 2 * len(words), *words)


def any_bus_message(draw: random.Random, count: int) -> bytes:
    """A message as a bus has it: of either direction, between terminals, of a mode code, to all, or in error."""
    rt, sa, size = draw.randrange(31), draw.randrange(1, 31), draw.randint(1, 32)
    data = [draw.randrange(65536) for _ in range(size)]
    receive, send = rt << 11 | sa << 5 | size & 31, rt << 11 | 1 << 10 | sa << 5 | size & 31
    bus = draw.choice((0, 0x2000))
    which = draw.randrange(8)
    if which == 0:
        return bus_message(count, bus, 80, [receive] + data + [rt << 11])
    if which == 1:
        return bus_message(count, bus, 90, [send, rt << 11] + data)
    if which == 2:
        other = (rt + 1) % 31
        return bus_message(count, bus | 0x800, 70 << 8 | 80,
                           [receive, other << 11 | 1 << 10 | sa << 5 | size & 31, other << 11] + data + [rt << 11])
    if which == 3:
        return bus_message(count, bus, 60, [rt << 11 | 1 << 10 | 31 << 5 | 2, rt << 11])
    if which == 4:
        return bus_message(count, bus, 60, [rt << 11 | 1 << 10 | 0 << 5 | 18, rt << 11, 0x1234])
    if which == 5:
        return bus_message(count, bus, 0, [31 << 11 | sa << 5 | size & 31] + data)
    if which == 6:
        return bus_message(count, bus | 0x1200, 0, [send])
    return bus_message(count, bus | 0x1038, 0, [draw.randrange(65536) for _ in range(draw.randrange(6))])


def bus_cycle(draw: random.Random, number: int) -> List[Tuple[int, Tuple[int, ...]]]:
    """What a bus says in a cycle: commands to some remote terminals, with data and status words, and each block status."""
    made = []
    for _ in range(number):
        terminal, subaddress, words, receives = draw.randrange(1, 31), draw.randrange(1, 31), draw.randrange(
            1, 33), draw.randrange(2)
        command = terminal << 11 | (0 if receives else 1 << 10) | subaddress << 5 | words & 31
        data = struct.unpack('<%dH' % words, some_bytes(draw, 2 * words))
        said = (command,) + data + (terminal << 11,) if receives else (command, terminal << 11) + data
        made.append((0x2000 if draw.random() < 0.1 else 0, said))
    return made


class Bus(Kind):
    name, code, value, data_type, channel = '1553', '1553IN', 'words', 0x19, 7
    keys = ('status', 'gap', 'words')
    share, few = 16, 2
    compared = ('rt', 'tr', 'sa', 'wc', 'mode', 'rt2', 'sa2', 'status1', 'status2', 'bus', 'errors', 'gap1', 'gap2')

    def offer(self, draw):
        return ['status = %d' % (draw.randrange(1 << 16) & 0x3E38), 'gap = %d' % draw.randrange(1 << 16),
                'words = "%s"' % draw.randbytes(2 * draw.randrange(37)).hex()]

    def item(self, chance, some):
        return 'words = "%08x"' % chance.randrange(2 ** 32)

    def played(self, item):
        return '0000 0000 %s' % (item['words'] or '-')

    def flight_body(self, draw, some):
        return number(len(some), 4) + b''.join(any_bus_message(draw, at) for at in some)

    def range_bodies(self, draw):
        cycle = bus_cycle(draw, 100)
        return lambda count: struct.pack('<I', len(cycle)) + b''.join(
            bus_message(count + 9000 * place, status, 0x0C0C, words) for place, (status, words) in enumerate(cycle))

    def example(self):
        body = number(2, 4) + bus_message(1005, 0x2000, 0, (0x0821, 0xABCD)) + bus_message(1006, 0, 7, ())
        return 7, 16, 1005, body, ['1005 0 1553 2000 0000 0821abcd', '1006 0 1553 0000 0007 -']


class Arinc(Kind):
    name, code, value, data_type, channel = 'arinc', '429IN', 'data', 0x38, 8
    keys = ('bus', 'format', 'parity', 'high', 'data')
    share = 12
    compared = ('value', 'data', 'bus', 'sdi', 'ssm', 'parity', 'high', 'label', 'errors')

    def offer(self, draw):
        return (['bus = %d' % draw.randrange(256)] + ['%s = %s' % (key, truth(draw)) for key in ('format', 'parity', 'high')]
                + ['data = %d' % draw.randrange(1 << 32)])

    def item(self, chance, some):
        return 'bus = %d, data = %d' % (chance.randrange(4), chance.randrange(2 ** 19))

    def played(self, item):
        return '%d 0 0 0 %08x' % (item['bus'], item['data'])

    def flight_body(self, draw, some):
        return number(len(some), 4) + b''.join(
            number(draw.choice((1, 2)) << 24 | draw.choice((0, 0, 0, 1 << 22)) | (draw.randrange(1000) if place else 0), 4)
            + number(draw.randrange(1 << 32), 4) for place in range(len(some)))

    def range_bodies(self, draw):
        words = struct.unpack('<300I', some_bytes(draw, 1200))
        body = struct.pack('<I', 300) + b''.join(
            struct.pack('<II', 1 << 24 | (3000 if place else 0), word) for place, word in enumerate(words))
        return lambda count: body

    def example(self):
        body = number(3, 4) + b''.join(number(head, 4) + number(data, 4) for head, data in (
            (1 << 24 | 1 << 21, 0x12345678), (2 << 24 | 1 << 23 | 100, 0), (255 << 24 | 1 << 22 | 200, 0xFFFFFFFF)))
        return 8, 0, 1000, body, ['1000 0 arinc 1 0 0 1 12345678', '1100 0 arinc 2 1 0 0 00000000',
                                  '1300 0 arinc 255 0 1 0 ffffffff']


# ---- discretes

class Discrete(Kind):
    name, code, value, data_type, channel = 'discrete', 'DISIN', 'states', 0x29, 9
    keys = ('states',)
    settings = {'bits': 8}

    def random_settings(self, draw):
        return ['bits = %d' % draw.randint(1, 31)]

    def offer(self, draw):
        return ['states = %d' % draw.randrange(1 << draw.randint(0, 4))]

    def item(self, chance, some):
        return 'states = %d' % chance.randrange(2)

    def played(self, item):
        return '%08x' % item['states']

    def flight_body(self, draw, some):
        return number(8 << 3, 4) + b''.join(number(at, 8) + number(draw.randrange(256), 4) for at in some)

    def range_bodies(self, draw):
        states = [draw.randrange(256) for _ in range(40)]
        return lambda count: struct.pack('<I', 8 << 3) + b''.join(
            struct.pack('<QI', count + 20000 * place, state) for place, state in enumerate(states))

    def example(self):
        return 9, 32, 1001, number(8 << 3, 4) + number(1001, 8) + number(0x81, 4), ['1001 0 discrete 00000081']

    def stated(self):
        first = number(5 << 3, 4) + b''.join(
            number(2020 + place, 8) + number(states, 4) for place, states in enumerate((0x11, 0x11, 0x06)))
        return [(2020, first), (2030, number(5 << 3, 4) + number(2030, 8) + number(0x16, 4))], [
            dict(value='00000011', bits='10001'), dict(value='00000011', bits='10001'),
            dict(value='00000006', bits='00110', changed='-0 +1 +2 -4'), dict(value='00000016', bits='10110', changed='+4')]


KINDS = (Uart(), Bus(), Arinc(), Discrete(), Message())
BY_NAME = {kind.name: kind for kind in KINDS}
NAMES = tuple(BY_NAME)
BY_SHARE = sorted(KINDS, key=lambda kind: -kind.share)
SHARES = tuple(kind.name for kind in BY_SHARE for _ in range(kind.share))  # of the channels of a range's recording
FEW = tuple(kind.name for kind in BY_SHARE for _ in range(kind.few))  # and of a small one
