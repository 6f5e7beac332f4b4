#!/usr/bin/env python3
"""Damages recordings and sees what the filters still read of them.

    scripts/trials/ch10_damage.py [COUNT [SEED [read]]]    # so many damaged recordings, else 10,000, from seed 1; with `read` by
                                                           # their packets alone, and not by each command too

A recording of every kind, each packet with a data checksum, or one of another recorder with a copy of a recording within it, has
bits turned, bytes changed, cut out, put in or laid over by zeros. Packets and stretches that were passed over have to fill the
recording, each entry has to be one of a packet that was there, in its order and once, and each packet that nothing touched has to
be read, unless it is alone: nothing shows that it is one.
"""
import collections
import io
import json
import pathlib
import random
import sys
import time
import xml.etree.ElementTree as tree
from concurrent.futures import ProcessPoolExecutor
from typing import Dict, List, Tuple

sys.dont_write_bytecode = True
TOP = pathlib.Path(__file__).resolve().parents[2]
sys.path[1:1] = map(str, [TOP, *(TOP / 'scripts').iterdir()])  # modules of the other folders

from ch10.python import with_numpy  # noqa: E402

if __name__ == '__main__':
    with_numpy()
from ch10 import command  # noqa: E402
from ch10.packets import packets  # noqa: E402
from ch10.survey import Survey  # noqa: E402
import ch10_recordings  # noqa: E402
from check_cases import number  # noqa: E402


PROCESSES = 3


def run(words: List[str], data: bytes) -> Tuple[int, bytes, str]:
    to = io.BytesIO()
    status, line = command.answer(words, lambda: data, lambda: to)
    return status, to.getvalue(), line or ''


def turned(data: bytes, bit: int) -> bytes:
    changed = bytearray(data)
    changed[bit // 8] ^= 1 << bit % 8
    return bytes(changed)


# ---- a bit in each twentieth packet

def each_twentieth(seed: int) -> List[str]:
    """What is wrong of a flight of 500 packets with a bit turned in each twentieth."""
    draw, wrong = random.Random('twentieth %d' % seed), []
    parts = ch10_recordings.flight(draw, 500)
    first = draw.randrange(20)
    hit = set(range(first, len(parts), 20))
    damaged = b''.join(turned(part, draw.randrange(8 * len(part))) if place in hit else part for place, part in enumerate(parts))
    good = b''.join(part for place, part in enumerate(parts) if place not in hit)
    offsets = [sum(map(len, parts[:place])) for place in sorted(hit)]
    stretches = [(offset, len(parts[place])) for offset, place in zip(offsets, sorted(hit))]

    def agree(said, wanted, what):
        if said != wanted:
            wrong.append('seed %d: %s: %.300r, wanted %.300r' % (seed, what, said, wanted))

    for words in (['csv'], ['json']):
        status, said, line = run(words + ['--keep-going'], damaged)
        lines = [one for one in said.splitlines() if not one.startswith(b'{"bad"')]
        agree((status, lines), (1, run(words, good)[1].splitlines()), words[0])
        agree([tuple(int(word.split(' ')[-1]) for word in one.split(': ')[1].split(', ')) for one in line.split('\n')], stretches,
              'lines of ' + words[0])
    bad = [json.loads(one)['bad'] for one in said.splitlines() if one.startswith(b'{"bad"')]
    agree([(one['offset'], one['length']) for one in bad], stretches, 'stretches of json')
    rows = [[json.loads(one) for one in run(['summary', '--json'], data)[1].splitlines()] for data in (damaged, good)]
    keys = 'channel', 'type', 'packets', 'entries', 'bytes', 'first', 'last', 'losses', 'lost', 'opaque'
    said, wanted = ([tuple(row[key] for key in keys) for row in some if row.get('packets')] for some in rows)
    agree(said, wanted, 'rows')
    agree([(row['bad']['offset'], row['bad']['length']) for row in rows[0] if set(row) == {'bad'}], stretches,
          'stretches of the summary')
    pictures = [tree.fromstring(run(words, data)[1]) for words, data in ((['svg', '--keep-going'], damaged), (['svg'], good))]
    said, wanted = ([element.get('d') for element in picture.iter('{http://www.w3.org/2000/svg}path') if element.get('fill')]
                    for picture in pictures)
    agree(said, wanted, 'bars')
    agree(len([element for element in pictures[0].iter('{http://www.w3.org/2000/svg}rect') if element.get('fill-opacity')]),
          len(hit), 'shades')
    agree(run(['range', '--keep-going'], damaged)[1], run(['range'], good)[1], 'range')
    status, said, _ = run(['svg'], damaged)
    agree((status, b'ends at byte %d of %d' % (offsets[0], len(damaged)) in said), (1, offsets[0] > 0), 'where the picture ends')
    return wrong


# ---- damage of every kind

def touched(draw: random.Random, parts: List[bytes]) -> Tuple[bytes, List[int]]:
    """A recording with some damage, and in its order the numbers of the packets that nothing touched, with -1 for all else."""
    pieces: List[Tuple[bytes, int]] = [(part, place) for place, part in enumerate(parts)]
    for _ in range(draw.choice((1, 1, 2, 3, 8))):
        at = draw.randrange(len(pieces))
        part, _ = pieces[at]
        which = draw.randrange(8)
        if which < 3 and part:
            pieces[at] = turned(part, draw.randrange(8 * min(len(part), 24) if which == 0 else 8 * len(part))), -1
        elif which == 3:
            begin = draw.randrange(len(part) + 1)
            pieces[at] = part[:begin] + part[begin + draw.choice((1, 2, 4, 16, 512, 4096)):], -1
        elif which == 4:
            begin = draw.randrange(len(part) + 1)
            put = draw.choice((bytes(draw.randrange(600)), draw.randbytes(draw.randrange(600)) if hasattr(draw, 'randbytes')
                               else b'x' * draw.randrange(600),
                               b'\x25\xeb' * draw.randrange(40)))
            if begin in (0, len(part)):
                pieces.insert(at + (begin > 0), (put, -1))
            else:
                pieces[at] = part[:begin] + put + part[begin:], -1
        elif which == 5:
            until = min(at + draw.randint(1, 4), len(pieces))
            for place in range(at, until):
                pieces[place] = bytes(len(pieces[place][0])), -1
        elif which == 6 and part:
            begin = draw.randrange(len(part))
            pieces[at] = part[:begin] + bytes(len(part) - begin), -1
        elif which == 7 and draw.random() < 0.3:
            pieces = pieces[:at + 1]
            pieces[at] = part[:draw.randrange(len(part) + 1)], -1
    return b''.join(part for part, _ in pieces), [place for _, place in pieces]


def is_summed(part: bytes) -> bool:
    """Whether a packet's data checksum is right, or there is none: then a change of its body is not seen."""
    width = ch10_recordings.WIDTHS[part[14] & 3]
    end = len(part) - width
    return width == 0 or sum(int.from_bytes(part[at:at + width], 'little')
                             for at in range(24, end, width)) % 256 ** width == int.from_bytes(part[end:], 'little')


def alone(parts: List[bytes], places: List[int], read: set, within: set) -> set:
    """Of the packets that nothing touched those of which nothing shows that they are of this recording.

    Such a packet stands in a row of fewer than 8 packets that does not lead to the recording's last byte. And of its row none has
    the sequence number right after, or right before, the next packet that was read of its channel and type; of a row of one packet
    without a data checksum, not both. What stands within the length of a packet at fault whose header is right is a row by itself,
    wherever it leads.
    """
    found, row, rows = set(), [], []
    for place in places + [-1]:
        if place >= 0 and (not row or row[-1] == place - 1 and (place in within) == (row[-1] in within)):
            row.append(place)
        else:
            rows.append(row)
            row = [place] if place >= 0 else []
    leads_on = places and places[-1] >= 0
    for row in rows:
        is_last = leads_on and row[-1:] == [len(parts) - 1] and row[0] not in within
        least = 2 if len(row) == 1 and parts[row[0]][14] & 3 == 0 else 1
        if len(row) < 8 and not is_last and not any(sum(kin(parts, place, read)) >= least for place in row):
            found.update(row)
    return found


def kin(parts: List[bytes], place: int, read: set) -> Tuple[bool, bool]:
    """Whether the packet that was read of the same channel and type before this one has the number right before its own; and the
    one after it."""
    same = [one for one in read if parts[one][2:4] == parts[place][2:4] and parts[one][15] == parts[place][15]]
    before, after = max((one for one in same if one < place), default=None), min((one for one in same if one > place), default=None)
    return (before is not None and parts[place][13] == parts[before][13] + 1 & 0xFF,
            after is not None and parts[after][13] == parts[place][13] + 1 & 0xFF)


def nested(draw: random.Random) -> List[bytes]:
    """A recording with packets of another recording within the bodies of a message channel and of Ethernet."""
    inner, make, count = ch10_recordings.flight(draw, 60, draw.randrange(256)), ch10_recordings.Maker(draw.randrange(256)), 1000
    make.put(0, 0x01, count, number(0x0C, 4) + ch10_recordings.SETUP_TEXT, 3)
    for place in range(60):
        if place % 20 == 0:
            make.put(1, 0x11, count, ch10_recordings.day_body(60, (1, 2, place // 20)), 3)
        some = draw.sample(inner, draw.randint(1, 3)) if place % 2 else inner[place // 2:place // 2 + 3]
        if place % 3:
            make.put(40, 0x30, count, number(len(some), 4) + b''.join(ch10_recordings.letters(count, part) for part in some), 2)
        else:
            make.put(41, 0x68, count, number(1, 4) + b''.join(some), draw.choice((2, 3)))
        count += ch10_recordings.SECOND // 20
    return make.parts


def one_damaged(seed: int, which: int, is_read: bool = False) -> Tuple[Dict[str, int], List[str]]:
    """What came of one damaged recording, and what is wrong of it."""
    draw, wrong, counts = random.Random('%d %d' % (seed, which)), [], collections.Counter()
    is_nested = draw.random() < 0.3
    if is_nested:
        parts = nested(draw)
    elif draw.random() < 0.8:
        parts = ch10_recordings.flight(draw, draw.choice((3, 10, 60)), draw.choice((0, 0, 250)))
    else:
        parts = ch10_recordings.foreign()
    data, untouched = touched(draw, parts)
    if not data:
        return counts, wrong
    survey, first = Survey(data, 0, len(data)), Survey(data, 0, len(data), False)
    found = [data[packet.offset:packet.offset + packet.length] for packet in packets(data, 0, len(data), False, survey.passed)]
    covered = sorted([(packet.offset, packet.length) for packet in packets(data, 0, len(data), False, survey.passed)]
                     + [(stretch.offset, stretch.length) for stretch in survey.damage])
    at = 0
    for offset, length in covered:
        if offset != at or length <= 0:
            wrong.append('a gap or an overlap at %d' % at)
            break
        at = offset + length
    if at != len(data):
        wrong.append('ends at %d of %d' % (at, len(data)))
    places, rest = {part: place for place, part in enumerate(parts)}, iter(range(len(parts)))
    fronts, unseen = {part[:24] for place, part in enumerate(parts) if place not in untouched}, 0
    for part in found:
        if part not in places:
            unseen += 1
            if part[:24] not in fronts or not is_summed(part):
                wrong.append('a packet that was not there, of type %02x' % part[15])
        elif not any(place == places[part] for place in rest):
            wrong.append('a packet out of its order or doubled')
    read = {places[part] for part in found if part in places}
    missed = set(untouched) - read - {-1}
    ends = [(stretch.offset, stretch.offset + int.from_bytes(data[stretch.offset + 4:stretch.offset + 8], 'little'))
            for stretch in survey.damage if stretch.channel is not None]
    within = {place for place in missed
              if any(begin < data.find(parts[place]) and data.find(parts[place]) + len(parts[place]) <= end for begin, end in ends)}
    unread = sorted(missed - alone(parts, untouched, read, within))
    if unread:
        wrong.append('untouched packets that were not read: %s' % unread[:20])
    counts.update(recordings=1, stretches=len(survey.damage), packets=len(found))
    counts.update({'changes that no checksum shows': unseen})
    counts.update({'untouched but alone': len(missed), 'recordings with such': bool(missed)})
    if is_read:
        return counts, ['recording %d: %s' % (which, one) for one in wrong]
    for words in (['csv'], ['json'], ['svg'], ['setup'], ['range', '--from', '1005'], ['summary'], ['summary', '--json']):
        for going in ([], ['--keep-going']):
            if words[0] != 'summary' or not going:
                status, _, line = run(words + going, data)
                fault = survey.fault if going or words[0] == 'summary' else first.fault
                if status != int(bool(fault)) and not line.startswith(('the recording has no', 'neither a recording', 'an empty')):
                    wrong.append('%s ends with %d: %s' % (words + going, status, line))
    return counts, ['recording %d: %s' % (which, one) for one in wrong]


def some_damaged(seed: int, is_read: bool, numbers: range) -> Tuple[Dict[str, int], List[str]]:
    counts, wrong = collections.Counter(), []
    for which in numbers:
        try:
            came, bad = one_damaged(seed, which, is_read)
        except Exception as fault:  # a traceback is what is looked for
            came, bad = {}, ['recording %d: %s: %s' % (which, type(fault).__name__, fault)]
        counts.update(came)
        wrong += bad
    return counts, wrong


def main(words: List[str]) -> int:
    count, seed = (list(map(int, words[:2])) + [10000, 1][len(words):])[:2]
    begun, counts, wrong, is_read = time.time(), collections.Counter(), [], words[2:] == ['read']
    parts = [range(at, min(at + 50, count)) for at in range(0, count + 1, 50)]
    with ProcessPoolExecutor(PROCESSES) as pool:
        for came, bad in pool.map(some_damaged, [seed] * len(parts), [is_read] * len(parts), parts):
            counts.update(came)
            wrong += bad
    for line in wrong[:40]:
        print(line)
    print('%s; %d not as wanted, %.0f s' % (', '.join('%d %s' % (counts[name], name) for name in counts), len(wrong),
                                            time.time() - begun))
    return int(bool(wrong))


if __name__ == '__main__':
    sys.exit(main(sys.argv[1:]))
