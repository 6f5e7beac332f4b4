#!/usr/bin/env python3
"""Makes a range's worth of recordings from a seed, for the trials of the catalogue: whole ones, some of other recorders, and
damaged ones.

    scripts/trials/range_recordings.py FOLDER [--count N] [--size BYTES] [--seed S] [--jobs J]

Recording K of a seed is the same bytes wherever and whenever it is made. Each has channels of every kind, in all as many as
scripts/rows/made_kinds.py says, beside time and events. It has names for them in its setup text, and lies in a second of its own
between 2024 and 2026. In each twentieth something is damaged, each tenth has packets of another recorder, and a third lost
messages.
"""
from __future__ import annotations

import argparse
import datetime
import os
import pathlib
import random
import struct
import sys
from concurrent.futures import ProcessPoolExecutor
from typing import Dict, List, Sequence, Tuple

TOP = pathlib.Path(__file__).resolve().parents[2]
sys.path[1:1] = map(str, [TOP, *(TOP / 'scripts').iterdir()])  # modules of the other folders

from made_kinds import BY_NAME, SHARES, some_bytes  # noqa: E402

HEADER = struct.Struct('<HHIIBBBBIH')
WORDS = struct.Struct('<11H')
SECOND = 10 ** 7
START = datetime.datetime(2024, 1, 1)
SYSTEMS = ('NAV', 'ENGINE', 'FUEL', 'RADAR', 'STORES', 'DISPLAY', 'AIRDATA', 'COMM')


def packet(channel: int, sequence: int, data_type: int, counter: int, body: bytes, check: int = 0, flags: int = 0) -> bytes:
    """A packet with the least filler, and a data checksum of 32 bits where it is asked for."""
    rest = body + bytes(-len(body) % 4)
    if check:
        rest += struct.pack('<I', sum(struct.unpack('<%dI' % (len(rest) // 4), rest)) & 0xFFFFFFFF)
    head = HEADER.pack(0xEB25, channel, 24 + len(rest), len(body), 8, sequence & 0xFF, flags | (3 if check else 0), data_type,
                       counter & 0xFFFFFFFF, counter >> 32)
    return head + struct.pack('<H', sum(WORDS.unpack(head)) & 0xFFFF) + rest


def time_body(moment: datetime.datetime) -> bytes:
    digits = [int(moment.strftime(form), 16) for form in ('%S', '%H%M', '%m%d', '%Y')]
    year = moment.year
    leap = year % 4 == 0 and (year % 100 != 0 or year % 400 == 0)
    return struct.pack('<IHHHH', 0x301 if leap else 0x201, digits[0] << 8, *digits[1:])


def setup_text(number: int, channels: List[Tuple[int, str, str]]) -> bytes:
    """A setup text that names the channels."""
    lines = ['G\\PN:RANGE TRIAL', 'G\\TA:TAIL %02d' % (number % 24), 'G\\106:17', 'G\\DSI\\N:1', 'G\\DSI-1:RECORDER',
             'G\\DST-1:STO', 'R-1\\ID:RECORDER',
             'R-1\\RID:SN%04d' % (number % 7), 'R-1\\N:%d' % len(channels)]
    for place, (channel, kind, name) in enumerate(channels, 1):
        lines += ['R-1\\TK1-%d:%d' % (place, channel), 'R-1\\DSI-%d:%s' % (place, name),
                  'R-1\\CDT-%d:%s' % (place, BY_NAME[kind].code), 'R-1\\CHE-%d:T' % place]
    return ''.join(line + ';\r\n' for line in lines).encode()


def recording(seed: int, number: int, size: int, every: Sequence[str] = SHARES) -> bytes:
    """One recording of about this size, with channels of these kinds."""
    draw = random.Random('%d %d' % (seed, number))
    kinds = list(every)
    draw.shuffle(kinds)
    ids = draw.sample(range(3, 200), len(kinds))
    channels = [(channel, kind, '%s %s %d' % (draw.choice(SYSTEMS), kind.upper(), place))
                for place, (channel, kind) in enumerate(zip(ids, kinds), 1)]
    makers = [(channel, BY_NAME[kind].data_type, BY_NAME[kind].range_bodies(draw)) for channel, kind, _ in channels]
    count = draw.randrange(10 ** 9)
    moment = START + datetime.timedelta(seconds=draw.randrange(2 * 365 * 86400))
    foreign, losing = number % 10 == 3, number % 3 == 1
    parts = [packet(0, 0, 0x01, count, struct.pack('<I', 0x0C) + setup_text(number, channels))]
    numbers: Dict[int, int] = {0: 1}
    written = len(parts[0])

    def put(channel: int, data_type: int, counter: int, body: bytes, check: int = 0, flags: int = 0) -> None:
        nonlocal written
        parts.append(packet(channel, numbers.get(channel, 0), data_type, counter, body, check, flags))
        numbers[channel] = numbers.get(channel, 0) + 1
        written += len(parts[-1])

    turn, events = 0, 0
    while written < size:
        base = count + turn * SECOND
        put(1, 0x11, base, time_body(moment + datetime.timedelta(seconds=turn)))
        if turn % 3 == 0:
            put(2, 0x02, base + 5, struct.pack('<IQI', 1, base + 5, 1 << 28 | events << 12 | 7))
            events += 1
        for channel, data_type, make in makers:
            if written >= size and turn:
                break
            first, flags = base + 10 + channel, 0
            if losing and turn and draw.random() < 0.02 * len(SHARES) / len(kinds):
                put(0, 0x00, base, bytes(4) + b'LOSS' + struct.pack('<HHQ', channel, 0, draw.randrange(1, 50)))
                flags = 0x10
            put(channel, data_type, first, make(first), 1, flags)
        if foreign:
            put(250, 0x40, base + 7, some_bytes(draw, 1880))
        turn += 1
    data = b''.join(parts)
    return damaged(draw, data, parts) if number % 20 == 7 else data


def damaged(draw: random.Random, data: bytes, parts: List[bytes]) -> bytes:
    """The same with something wrong in it: a bit, some bytes overwritten, or an end that is cut off."""
    held, way = bytearray(data), draw.randrange(4)
    if way == 0:
        del held[draw.randrange(len(held) // 2, len(held) - 1):]
    elif way == 1:
        at = draw.randrange(len(held))
        held[at] ^= 1 << draw.randrange(8)
    elif way == 2:
        for _ in range(draw.randrange(2, 12)):
            held[draw.randrange(len(held))] ^= 0x55
    else:
        size = len(held) // 100
        at = draw.randrange(len(held) - size)
        held[at:at + size] = bytes(size)
    return bytes(held)


def write_some(folder: str, seed: int, size: int, numbers: range) -> int:
    written = 0
    for number in numbers:
        data = recording(seed, number, size)
        pathlib.Path(folder, 'r%05d.ch10' % number).write_bytes(data)
        written += len(data)
    return written


def write_all(folder: str, count: int, size: int, seed: int, jobs: int) -> int:
    """Writes recordings into a folder; answers how many bytes."""
    os.makedirs(folder, exist_ok=True)
    if jobs == 1:
        return write_some(folder, seed, size, range(count))
    with ProcessPoolExecutor(jobs) as pool:
        return sum(pool.map(write_some, [folder] * jobs, [seed] * jobs, [size] * jobs,
                            [range(k, count, jobs) for k in range(jobs)]))


def main() -> int:
    parser = argparse.ArgumentParser(description='Makes recordings from a seed.')
    parser.add_argument('folder')
    parser.add_argument('--count', type=int, default=2000)
    parser.add_argument('--size', type=int, default=10 ** 6)
    parser.add_argument('--seed', type=int, default=1)
    parser.add_argument('--jobs', type=int, default=1)
    asked = parser.parse_args()
    written = write_all(asked.folder, asked.count, asked.size, asked.seed, asked.jobs)
    print('%d recordings, %d bytes' % (asked.count, written))
    return 0


if __name__ == '__main__':
    sys.exit(main())
