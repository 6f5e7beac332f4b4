"""Recordings that are made here by the public standard, for the trials of the filters: flights of this and other recorders, and
what damages them."""
import datetime
import random
from typing import List, Tuple

from check_cases import letters, number
from made_kinds import KINDS

WIDTHS = (0, 1, 2, 4)
SECOND = 10 ** 7
BY_CHANNEL = {kind.channel: kind for kind in KINDS}
CHANNELS = tuple(sorted(BY_CHANNEL))


def summed(channel: int, sequence: int, kind: int, counter: int, body: bytes, check: int = 0, flags: int = 0, second: bytes = b'',
           filler: int = 0) -> bytes:
    """A packet with a data checksum of this kind (0 to 3), after a secondary header, with so many bytes of filler more than it
    takes."""
    width = WIDTHS[check]
    rest = body + bytes(-(len(body) + width) % 4 + filler)
    front = b'\x25\xeb' + number(channel, 2) + number(24 + len(second) + len(rest) + width, 4) + number(len(body), 4)
    front += bytes((8, sequence, flags | check, kind)) + number(counter, 6)
    front += number(sum(int.from_bytes(front[k:k + 2], 'little') for k in range(0, 22, 2)) % 65536, 2)
    total = sum(int.from_bytes(rest[k:k + width], 'little') for k in range(0, len(rest), width)) % 256 ** width if width else 0
    return front + second + rest + number(total, width)


def civil_body(moment: datetime.datetime) -> bytes:
    """The body of a time packet with a date."""
    bcd = [int(moment.strftime(form), 16) for form in ('%S', '%H%M', '%m%d', '%Y')]
    bcd[0] = bcd[0] << 8 | moment.microsecond // 100000 << 4 | moment.microsecond // 10000 % 10
    return number(0x201, 4) + b''.join(number(word, 2) for word in bcd)


def day_body(day: int, clock: Tuple[int, int, int]) -> bytes:
    """The body of a time packet with a day of the year."""
    hours, minutes, seconds = clock
    words = int('%02d' % seconds, 16) << 8, int('%02d%02d' % (hours, minutes), 16), int('%03d' % day, 16)
    return number(1, 4) + b''.join(number(word, 2) for word in words) + bytes(2)


class Maker:
    """Makes packets of a recording, with the sequence number of each channel."""

    def __init__(self, first: int = 0):
        self.first, self.places, self.parts = first, {}, []

    def put(self, channel: int, kind: int, counter: int, body: bytes, check: int = 0, **more) -> None:
        self.places[channel] = (self.places.get(channel, self.first - 1) + 1) & 0xFF
        self.parts.append(summed(channel, self.places[channel], kind, counter, body, check, **more))


SETUP_TEXT = (b'G\\PN:FLIGHT;G\\106:17;G\\DSI\\N:1;G\\DSI-1:REC;G\\DST-1:STO;R-1\\ID:REC;R-1\\N:6;'
              b'R-1\\TK1-1:1;R-1\\DSI-1:CLOCK;R-1\\CDT-1:TIMEIN;R-1\\TK1-2:5;R-1\\DSI-2:GPS LINE;R-1\\CDT-2:UARTIN;'
              b'R-1\\TK1-3:6;R-1\\DSI-3:CREW;R-1\\CDT-3:MSGIN;R-1\\TK1-4:7;R-1\\DSI-4:NAV BUS;R-1\\CDT-4:1553IN;R-1\\CDLN-4:NAV;'
              b'R-1\\TK1-5:8;R-1\\DSI-5:AIR DATA;R-1\\CDT-5:429IN;R-1\\CDLN-5:AIR;R-1\\TK1-6:9;R-1\\DSI-6:SWITCHES;'
              b'R-1\\CDT-6:DISIN;'
              b'B-1\\DLN:NAV;B-1\\NBS\\N:1;B-1\\BID-1:0;B-1\\BNA-1:NAVIGATION;B-1\\BT-1:1553;'
              b'B-2\\DLN:AIR;B-2\\NBS\\N:2;B-2\\BID-1:1;B-2\\BNA-1:ADC LEFT;B-2\\BT-1:A429;B-2\\BID-2:2;B-2\\BNA-2:ADC RIGHT;'
              b'B-2\\BT-2:A429;')


def flight(draw: random.Random, packets: int = 500, first: int = 0) -> List[bytes]:
    """The packets of a recording over all kinds that are read, each with a data checksum, times each second."""
    make, count = Maker(first), 1000
    moment = datetime.datetime(2024, 2, 29, 12, 34, 56)
    make.put(0, 0x01, count, number(0x0C, 4) + SETUP_TEXT, 3)
    start = count
    while len(make.parts) < packets:
        if (count - start) % SECOND == 0:
            make.put(1, 0x11, count, civil_body(moment + datetime.timedelta(seconds=(count - start) // SECOND)), 3)
        channel = draw.choice(CHANNELS + (2,))
        some = sorted(draw.randrange(count, count + SECOND // 20) for _ in range(draw.randint(1, 12)))
        check = draw.choice((1, 2, 3))
        if channel in BY_CHANNEL:
            kind = BY_CHANNEL[channel]
            make.put(channel, kind.data_type, some[0], kind.flight_body(draw, some), check)
        else:
            make.put(2, 0x02, some[0], number(1, 4) + number(some[0], 8) + number(1 << 28 | draw.randrange(1 << 12), 4), check)
        count += SECOND // 20
    return make.parts


# ---- recordings of others

def foreign() -> List[bytes]:
    """A recording of another recorder: days of the year, PCM, video, Ethernet and analog, and packets with a secondary header."""
    make = Maker(7)
    second = bytes(8) + number(0, 2) + number(0, 2)
    make.put(0, 0x01, 5, number(0x0C, 4) + SETUP_TEXT, 2)
    for place in range(40):
        count = 1000 + place * SECOND // 4
        if place % 4 == 0:
            make.put(1, 0x11, count, day_body(60, (12, 34, 10 + place // 4)), 0)
        make.put(20, 0x09, count, number(0x00040000, 4) + bytes(1000), 2)
        make.put(21, 0x40, count, number(0x1000, 4) + b'\x47' + bytes(187), 0)
        make.put(22, 0x68, count, number(2, 4) + b'\x25\xeb' + bytes(102), 3)
        make.put(23, 0x21, count, number(0x10001, 4) + bytes(64), 1)
        make.put(24, 0x50, count, number(1 << 31, 4) + letters(count, b'ABC'), 0, flags=0x80, second=second)
        make.put(5, 0x50, count, number(1 << 31, 4) + letters(count, b'plain'), 2)
    return make.parts
