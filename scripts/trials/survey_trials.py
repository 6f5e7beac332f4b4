#!/usr/bin/env python3
"""Tries the program r10-survey: its lines and its status, beside those that a second reader makes.

    scripts/trials/survey_trials.py check PROGRAM

The second reader goes over the bytes one place after another, by scripts/tools/judge_recording.py, which was written from the
rules. It shares no code with the program. Tried are an empty input, one packet, damage at the start, in the midst and at the end,
packets that are cut off, inputs in pieces of odd sizes, and made recordings, whole and damaged. Of undamaged ones the figures of
`ch10` have to be the same. Wrong words, an input that cannot be read, and a reader that has gone are tried too. Some 3 seconds of a
processor. Status 1 where something differs.
"""
from __future__ import annotations

import datetime
import os
import pathlib
import random
import signal
import subprocess
import sys
from typing import Any, Dict, List, Optional, Tuple

sys.dont_write_bytecode = True

TOP = pathlib.Path(__file__).resolve().parents[2]
sys.path[1:1] = map(str, [TOP, *(TOP / 'scripts').iterdir()])  # modules of the other folders

from ch10.python import with_numpy  # noqa: E402

with_numpy()

import judge_recording as rules  # noqa: E402
from range_recordings import packet, recording, time_body  # noqa: E402

from ch10.survey import REPORT_ROW, Survey  # noqa: E402

MOST_STRETCHES = 4096
COUNTED = {rules.EVENT: lambda p: (p.size - 4) // 12, rules.TIME: lambda p: 1, rules.DISCRETE: lambda p: (p.size - 4) // 12,
           rules.ARINC: lambda p: (p.size - 4) // 8, rules.BUS: lambda p: len(rules.bus_items(p)),
           rules.MESSAGE: lambda p: len(rules.text_items(p)), rules.UART: lambda p: len(rules.text_items(p))}
CAUGHT: Dict[str, Any] = dict(stdin=subprocess.DEVNULL, stdout=subprocess.PIPE, stderr=subprocess.PIPE)
KEYS = ('other', 'packets', 'bytes', 'entries', 'opaque', 'sums', 'losses', 'gaps')


def surveyed(data: bytes) -> Tuple[List[str], int]:
    """The lines that the program has to print of an input, and its status."""
    channels: Dict[int, dict] = {}
    stretches: List[Tuple[int, int]] = []
    at = lost = 0
    while at < len(data):
        # (a packet is at most so long, unless it is a setup)
        found, fault = rules.foreign(data[at:])
        if fault:
            at, lost = at + 1, lost + 1
            continue
        if lost:
            stretches.append((at - lost, lost))
            lost = 0
        had = channels.get(found.channel)
        if had is None:
            had = channels[found.channel] = dict.fromkeys(KEYS, 0)
            had.update(type=found.type, first=found.counter)
        else:
            had['gaps'] += found.sequence != (had['sequence'] + 1) % 256
        had['sequence'], had['last'] = found.sequence, found.counter
        had['other'] += found.type != had['type']
        had['packets'] += 1
        had['bytes'] += found.length
        had['opaque'] += found.opaque
        had['sums'] += not rules.has_data_sum(found)
        had['losses'] += found.flags >> 4 & 1
        if not found.opaque and found.type in COUNTED:
            had['entries'] += COUNTED[found.type](found)
        at += found.length
    if lost:
        stretches.append((at - lost, lost))
    lines = []
    for channel, it in sorted(channels.items()):
        figures = ' '.join('%s %d' % (key, it[key]) for key in KEYS)
        lines.append('channel %d type 0x%02x %s first %d last %d' % (channel, it['type'], figures, it['first'], it['last']))
    lines += ['stretch offset %d length %d' % it for it in stretches[:MOST_STRETCHES]]
    lines.append('file bytes %d stretches %d' % (len(data), len(stretches)))
    if stretches:
        lines.append('verdict %sfaulty at %d' % ('damaged, ' if channels else '', stretches[0][0]))
    else:
        lines.append('verdict lenient' if channels else 'verdict faulty at 0')
    return lines, int(bool(stretches) or not channels)


def same_as_filters(data: bytes, lines: List[str]) -> List[str]:
    """Where the figures of `ch10` differ, of channels of one type whose packets are all read."""
    rows: Dict[int, list] = {}
    survey = Survey(data, 0, len(data))
    for row in survey.rows:
        rows.setdefault(row.channel, []).append(row)
    wrong = []
    for line in lines:
        words = line.split(' ')
        if words[0] != 'channel':
            continue
        told = dict(zip(words[::2], words[1::2]))
        some = [row for row in rows[int(told['channel'])] if row.packets]
        if len(some) != 1 or some[0].opaque or some[0].kind == REPORT_ROW or told['other'] != '0' or told['opaque'] != '0':
            continue
        row = some[0]
        found = (row.packets, row.bytes, row.losses, row.jumps, row.entries)
        if found != tuple(int(told[key]) for key in ('packets', 'bytes', 'losses', 'gaps', 'entries')):
            wrong.append('%s: the filters have %s' % (line, found))
    if survey.damage:
        wrong.append('the filters find damage')
    return wrong


class Trials:
    """What was tried, and what differed."""

    def __init__(self, program: str) -> None:
        self.program, self.number, self.wrong = program, 0, 0

    def agree(self, found: object, wanted: object, what: str) -> None:
        self.number += 1
        if found != wanted:
            self.wrong += 1
            print('FAILED: %s\n    %r\n    is not %r' % (what, found, wanted))

    def run(self, data: bytes, what: str, piece: int = 0) -> List[str]:
        """Compares what the program says of an input, which it gets in pieces of a size or at once; answers its lines."""
        pipe = subprocess.PIPE
        with subprocess.Popen([self.program], stdin=pipe, stdout=pipe, stderr=pipe, bufsize=0) as made:
            # (it reads all before it writes)
            for at in range(0, len(data), piece or max(len(data), 1)):
                rest = memoryview(data)[at:at + (piece or len(data))]
                while rest:
                    rest = rest[made.stdin.write(rest):]
            made.stdin.close()
            lines, said = made.stdout.read().decode().splitlines(), made.stderr.read()
        wanted, status = surveyed(data)
        for found, line in zip(lines, wanted):
            if found != line:
                self.agree(found, line, what)
                break
        self.agree((len(lines), made.returncode, said), (len(wanted), status, b''), what + ': number of lines, status, faults')
        return lines

    def says(self, words: List[str], wanted: Tuple[int, Optional[bytes], bytes], what: str, **how: Any) -> None:
        made = subprocess.run([self.program, *words], **{**CAUGHT, **how})
        self.agree((made.returncode, made.stdout, made.stderr), wanted, what)


def small() -> List[bytes]:
    """Some packets, of each kind of line."""
    stamp = (1000).to_bytes(8, 'little')
    one = stamp + (5).to_bytes(4, 'little') + b'hello\0'
    moment = datetime.datetime(2024, 2, 29, 12, 34, 56)
    return [packet(0, 0, 0x01, 1000, (12).to_bytes(4, 'little') + b'G\\PN:A;\r\n'),
            packet(1, 7, 0x11, 1000, time_body(moment)),
            packet(5, 255, 0x50, 1000, (0x80000000).to_bytes(4, 'little') + one + one, 1),
            packet(5, 0, 0x50, 1001, (0x80000000).to_bytes(4, 'little') + one, 1, 0x10),
            packet(65535, 3, 0x40, 1002, bytes(36)),
            packet(5, 2, 0x30, 1003, (1).to_bytes(4, 'little') + one, 1),
            packet(9, 0, 0x50, 1004, one, 1, 0x40)]


def damaged(trials: Trials) -> None:
    """Inputs of a few packets, with damage at each place."""
    parts = small()
    whole = b''.join(parts)
    trials.run(b'', 'nothing')
    trials.run(parts[2], 'one packet')
    trials.run(whole, 'a few packets')
    for size in (1, 2, 3, 7, 24, 61):
        trials.run(whole, 'the same in pieces of %d bytes' % size, size)
    trials.run(b'lost' + whole, 'damage at the start')
    trials.run(parts[2] + b'\x25\xeb' + whole, 'damage in the midst')
    trials.run(whole + whole[:23], 'damage at the end')
    trials.run(b'\x25', 'one byte')
    trials.run(bytes(70_000), 'zeros alone')
    trials.run(b'x'.join([parts[1]] * (MOST_STRETCHES + 3)), 'more stretches than are kept')
    for end in range(len(whole) - len(parts[-1]), len(whole)):
        trials.run(whole[:end], 'cut after %d bytes' % end)
    for at in range(0, len(whole), 5):
        held = bytearray(whole)
        held[at] ^= 0x41
        trials.run(bytes(held), 'byte %d is another' % at)
    trials.run(b''.join(packet(channel, 0, 0x40, channel, b'') for channel in range(0, 65536, 13)), 'thousands of channels')
    long = (1).to_bytes(4, 'little') + (5).to_bytes(8, 'little') + (50_000).to_bytes(4, 'little') + bytes(50_000)
    large = packet(3, 0, 0x30, 5, long, 1)
    trials.run(parts[0] + large * 50, 'packets over the ends of windows')


def made(trials: Trials) -> None:
    """Recordings that were made, whole and damaged."""
    draw = random.Random(98)
    for number in range(24):
        data = recording(11, number, 20_000 if number % 4 else 300_000)
        lines = trials.run(data, 'recording %d' % number, draw.choice((0, 0, 4096, 99_991)))
        if surveyed(data)[1] == 0:
            trials.agree(same_as_filters(data, lines), [], 'recording %d beside the filters' % number)
        held = bytearray(data[:20_000])
        for _ in range(draw.randrange(1, 8)):
            held[draw.randrange(len(held))] ^= 1 << draw.randrange(8)
        trials.run(bytes(held), 'recording %d with bits turned' % number)


def calls(trials: Trials) -> None:
    """Words, an input that cannot be read, and an output that takes nothing."""
    usage = b'usage: r10-survey < RECORDING\n'
    for words in (['x'], ['--help', 'x'], [''], ['--versions']):
        trials.says(words, (2, b'', usage), 'wrong words: %s' % words)
    version = (TOP / 'VERSION').read_text(encoding='utf-8').strip()
    for word in ('-V', '--version'):
        made = subprocess.run([trials.program, word], stdin=subprocess.DEVNULL, capture_output=True)
        trials.agree((made.returncode, made.stdout.decode().replace(' (not proved)', ''), made.stderr),
                     (0, 'r10-survey %s\n' % version, b''), word)
    for word in ('-h', '--help'):
        made = subprocess.run([trials.program, word], stdin=subprocess.DEVNULL, capture_output=True)
        trials.agree((made.returncode, b'Usage: r10-survey < RECORDING' in made.stdout, made.stderr), (0, True, b''), word)
    folder = os.open('/', os.O_RDONLY)
    trials.says([], (3, b'', b'r10-survey: cannot read: Is a directory (os error 21)\n'), 'a folder as the input', stdin=folder)
    os.close(folder)
    data, fault = b''.join(small()), b'r10-survey: cannot write\n'
    for words in ([], ['--help'], ['--version']):
        with open('/dev/full', 'wb') as full:
            trials.says(words, (3, None, fault), 'an output that is full: %s' % words, stdout=full, input=data, stdin=None)
        ends = os.pipe()
        os.close(ends[0])
        trials.says(words, (3, None, fault), 'a reader that has gone: %s' % words, stdout=ends[1], input=data, stdin=None,
                    preexec_fn=lambda: signal.signal(signal.SIGPIPE, signal.SIG_IGN))
        os.close(ends[1])


def main(words: List[str]) -> int:
    if len(words) != 2 or words[0] != 'check':
        print(__doc__, file=sys.stderr)
        return 2
    trials = Trials(words[1])
    damaged(trials)
    made(trials)
    calls(trials)
    print('survey_trials: %d comparisons, %d differ' % (trials.number, trials.wrong))
    return int(trials.wrong > 0)


if __name__ == '__main__':
    sys.exit(main(sys.argv[1:]))
