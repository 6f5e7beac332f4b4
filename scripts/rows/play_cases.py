#!/usr/bin/env python3
"""Makes the rows of `r10 play`, and compares it with a reader of the public standard.

    scripts/rows/play_cases.py cases              # what stands in rows/cases from `== play-first` on, up to `== check-first`
    scripts/rows/play_cases.py answers            # the same of rows/answers
    scripts/rows/play_cases.py kept               # fails where one of these files has others in their place
    scripts/rows/play_cases.py compare PROGRAM    # PROGRAM play and scripts/tools/read_chapter10.py --entries print the same of
                                                  # each strict file, and of each file that PROGRAM sim --image records of each
                                                  # example but those of sessions, which leave no image
    scripts/rows/play_cases.py image              # the image of a file with every kind of channel

Packets and the directory are built here from IRIG 106-17, chapters 10 and 11, and the wanted lines stand beside them. Nothing is
taken from the recorder.
"""
import pathlib
import re
import subprocess
import sys

TOP = pathlib.Path(__file__).resolve().parents[2]
sys.path[1:1] = map(str, [TOP, *(TOP / 'scripts').iterdir()])  # modules of the other folders

from check_cases import (CHAIN, FIRST, LONG, OPENING, event, flipped, index_of, letters, lost, number, packet, print_rows, report,
                         told)
from judge_recording import TIME, UART, first_fault
from made_kinds import KINDS as MADE

READER = TOP / 'scripts' / 'tools' / 'read_chapter10.py'
EXAMPLES = TOP / 'examples'
OTHER_CIVIL = bytes.fromhex('010200009959592328020021')


# ---- a file with every kind of channel

def summed(channel, sequence, kind, counter, body, width, flags=0):
    """A packet with a data checksum of so many bits."""
    size = width // 8
    filler = bytes(-(len(body) + size) % 4)
    data = body + filler
    total = sum(int.from_bytes(data[k:k + size], 'little') for k in range(0, len(data), size))
    check = {8: 1, 16: 2, 32: 3}[width]
    return packet(channel, sequence, kind, counter, body, flags=flags | check, filler=filler + number(total % 256 ** size, size))


def every_kind():
    """Each packet of such a file, and the lines of its entries in the order of a replay: by count, then channel."""
    parts = OPENING + [event(0, 1000, 0)]
    lines = ['entry 1 1000 0 time 2024-02-29 12:34:56.78', 'entry 2 1000 0 event 3 0']
    for kind in MADE:
        channel, width, counter, body, said = kind.example()
        parts.append(summed(channel, 0, kind.data_type, counter, body, width) if width else
                     packet(channel, 0, kind.data_type, counter, body))
        lines += ['entry %d %s' % (channel, line) for line in said]
    parts += [packet(1, 1, TIME, 1100, OTHER_CIVIL), event(1, 1100, 1),
              packet(5, 1, UART, 1101, number(1 << 31, 4) + letters(1101, b'D'), flags=0x10)]
    lines += ['entry 1 1100 0 time 2100-02-28 23:59:59.99', 'entry 2 1100 0 event 3 1', 'entry 5 1101 1+ uart 0 0 44']
    lines.sort(key=lambda line: (int(line.split(' ')[2]), int(line.split(' ')[1])))
    return b''.join(parts + index_of(parts, 1100, 1)), lines


KINDS, KIND_LINES = every_kind()
FIRST_LINES = ['entry 1 1000 0 time 2024-02-29 12:34:56.78', 'entry 5 1000 0 uart 0 0 414243', 'entry 5 1010 0 uart 0 0 -']
LOST_LINES = ['entry 1 1000 0 time 2024-02-29 12:34:56.78', 'entry 5 1001 0 uart 0 0 41', 'entry 5 1002 0 uart 0 0 42',
              'entry 5 1004 1+ uart 0 0 44']
TOLD_LINES = LOST_LINES[:3] + ['entry 5 1004 70000 uart 0 0 44']


# ---- images

def big(value, size):
    return value.to_bytes(size, 'big')


def listed(first, size, closed=True, blocks=None):
    """The directory entry of a file."""
    blocks = -(-size // 512) if blocks is None else blocks
    close = b'12345678' if closed else b'-' * 8
    return b'FLT1'.ljust(56, b'\x00') + big(first, 8) + big(blocks, 8) + big(size, 8) + b'2902202412345678' + bytes(8) + close


def directory_block(forward, reverse, entries):
    front = b'FORTYtwo\x0f\xff' + big(len(entries), 2) + big(512, 4) + b'VOL'.ljust(32, b'\x00') + big(forward, 8) + big(reverse, 8)
    return (front + b''.join(entries)).ljust(512, b'\x00')


def image_of(entries, data, blocks):
    """An image of so many blocks whose directory is in blocks 1 and 2 and whose bytes begin at block 3."""
    if len(entries) > 4:
        front = directory_block(2, 1, entries[:4]) + directory_block(2, 1, entries[4:])
    else:
        front = directory_block(1, 1, entries) + bytes(512)
    return (bytes(512) + front + data).ljust(512 * blocks, b'\x00')


def alone(data, closed=True):
    """An image with one file."""
    return image_of([listed(3, len(data), closed)], data, 3 + -(-len(data) // 512))


PAIR = image_of([listed(3, 272), listed(4, len(KINDS))], FIRST.ljust(512, b'\x00') + KINDS, 4 + -(-len(KINDS) // 512))
FIVE = image_of([listed(3, 272)] * 4 + [listed(4, 1)], FIRST, 4)
OUTSIDE = image_of([listed(16, 272)], FIRST, 16)


# ---- rows

def rows():
    """Name, words, input, status and what is to be printed."""
    first = alone(FIRST)
    yield 'play-first', 'play --channel 5', first, 0, FIRST_LINES[1:]
    yield 'play-all-channels', 'play', first, 0, FIRST_LINES
    yield 'play-range', 'play --file 0 --channel 0 --from 1001 --to 1010', first, 0, FIRST_LINES[2:]
    yield 'play-one-count', 'play --from=1000 --to=1000', first, 0, FIRST_LINES[:2]
    yield 'play-range-without-counts', 'play --from 1001 --to 1000', first, 0, []
    yield 'play-channel-that-is-not-there', 'play --channel 65535', first, 0, []
    yield 'play-every-kind', 'play --to 281474976710655', alone(KINDS), 0, KIND_LINES
    yield 'play-second-file', 'play --file 1 --channel 8', PAIR, 0, [line for line in KIND_LINES if line.startswith('entry 8 ')]
    yield 'play-behind-a-lost-message', 'play', alone(b''.join(lost())), 0, LOST_LINES
    yield 'play-behind-a-report', 'play', alone(b''.join(told(70000))), 0, TOLD_LINES
    yield 'play-the-packet-behind-a-report-alone', 'play --channel 5 --from 1003', alone(b''.join(told(70000))), 0, TOLD_LINES[3:]
    yield 'play-behind-a-report-of-the-most', 'play --from 1004', alone(b''.join(told((1 << 64) - 1))), 0, [
        'entry 5 1004 18446744073709551615 uart 0 0 44']
    yield 'play-behind-a-report-of-another-channel', 'play', alone(b''.join(lost()[:3] + [report(1, 6, 1), lost()[3]]),
                                                                   False), 1, ['not strict']
    yield 'play-a-file-that-ends-with-a-report', 'play', alone(b''.join(told(1)[:4]), False), 1, ['not strict']
    yield 'play-not-closed', 'play --channel 5', alone(FIRST[:124], False), 0, FIRST_LINES[1:]
    yield 'play-closed-without-index', 'play', alone(FIRST[:124]), 1, ['not strict']
    yield 'play-not-closed-with-index', 'play', alone(FIRST, False), 1, ['not strict']
    yield 'play-a-chain', 'play --from 1098', alone(b''.join(LONG + CHAIN)), 0, [
        'entry 1 %d 0 time 2024-02-29 12:34:56.78' % count for count in (1098, 1099)]
    yield 'play-a-chain-without-its-last-group', 'play --from 1098', alone(b''.join(LONG + CHAIN[:2])), 1, ['not strict']
    yield 'play-a-chain-not-closed', 'play --from 1098', alone(b''.join(LONG + CHAIN), False), 1, ['not strict']
    yield 'play-a-changed-header', 'play', alone(flipped(FIRST, 22, 1)), 1, ['not strict']
    yield 'play-no-bytes', 'play', alone(b''), 1, ['not strict']
    yield 'play-number-behind-the-last', 'play --file 1', first, 1, ['refused 19 NoSuchFile']
    yield 'play-no-files', 'play', image_of([], b'', 3), 1, ['refused 19 NoSuchFile']
    yield 'play-first-block-outside', 'play', OUTSIDE, 1, ['refused 26 BadDirectory 1']
    yield 'play-fifth-file-outside', 'play --file 4', FIVE, 1, ['refused 26 BadDirectory 2']
    yield 'play-beside-a-file-outside', 'play --file 3', FIVE, 0, FIRST_LINES
    yield 'play-no-directory-before-number', 'play --file 7', bytes(1024), 1, ['refused 26 BadDirectory 1']
    yield 'play-no-input', 'play', b'', 1, ['refused 26 BadDirectory 1']
    yield 'play-from-49-bits', 'play --from 281474976710656', first, 1, ['refused 10 CountRange']
    yield 'play-to-49-bits-before-directory', 'play --to 281474976710656', b'', 1, ['refused 10 CountRange']
    yield 'files-first-block-outside', 'files', OUTSIDE, 0, ['file 0 FLT1 272 1 1']
    yield 'play-channel-too-large', 'play --channel 65536', b'', 2, [
        "r10: invalid value '65536' for '--channel <N>': 65536 is not in 0..=65535; see r10 play --help"]
    yield 'play-number-with-zeros', 'play --from 01', b'', 2, [
        'r10: a number has neither a sign nor zeros before it; see r10 play --help']
    yield 'play-without-a-value', 'play --file', b'', 2, [
        "r10: a value is required for '--file <N>' but none was supplied; see r10 play --help"]
    yield 'play-with-a-name', 'play medium.img', b'', 2, [
        "r10: unexpected argument 'medium.img' found; an image comes from standard input: r10 play < IMAGE; see r10 play --help"]


def hex_lines(data):
    """Lines of 32 bytes in hex digits; lines of up to sixteen dots, each 32 bytes of zeros."""
    lines, dots = [], ''
    for at in range(0, len(data), 32):
        part = data[at:at + 32]
        if part == bytes(32) and len(dots) < 16:
            dots += '.'
            continue
        if dots:
            lines.append(dots)
        dots = '.' if part == bytes(32) else ''
        if part != bytes(32):
            lines.append(part.hex())
    return lines + [dots] * (dots != '')


def case_text(name, words, data, status, _):
    return '\n'.join(['== %s %s' % (name, words), '%d hex' % status] + hex_lines(data)) + '\n'


def answer_text(name, words, _, status, lines):
    return '\n'.join(['== %s %s' % (name, words), str(status)] + lines) + '\n'


def is_session(script: pathlib.Path) -> bool:
    """Whether a script is one of `run`: it has feeds, orders or readers, which `sim` does not know."""
    return re.search(r'^ *(\[\[)?(feed|order|reader)\b', script.read_text(encoding='utf-8'), re.MULTILINE) is not None


def compare(program):
    """Runs both over each strict file, and over each file that the program records of each example, and answers how many do not
    print the same."""
    bad = files = 0
    for data, closed, lines in ((FIRST, True, FIRST_LINES), (KINDS, True, KIND_LINES), (b''.join(lost()), True, LOST_LINES),
                                (b''.join(told(70000)), True, TOLD_LINES), (FIRST[:124], False, FIRST_LINES)):
        image = alone(data, closed)
        played = subprocess.run([program, 'play'], input=image, capture_output=True)
        read = subprocess.run([sys.executable, READER, '--entries'], input=image, capture_output=True)
        wanted = ''.join(line + '\n' for line in lines).encode()
        if not (played.stdout == read.stdout == wanted and played.returncode == read.returncode == 0):
            print('played', played.stdout, played.stderr, 'read', read.stdout, read.stderr, 'wanted', wanted)
            bad += 1
    for script in sorted(EXAMPLES.glob('*.toml')):
        if is_session(script):
            continue
        made = subprocess.run([program, 'sim', '--image'], input=script.read_bytes(), capture_output=True)
        if made.returncode != 0:
            print(script.name, 'recorded', made.stdout[:100], made.stderr)
            bad += 1
            continue
        listed = subprocess.run([program, 'files'], input=made.stdout, capture_output=True).stdout.splitlines()
        for place in range(len(listed)):
            words = ['--file', str(place)]
            played = subprocess.run([program, 'play', *words], input=made.stdout, capture_output=True)
            read = subprocess.run([sys.executable, READER, '--entries', *words], input=made.stdout, capture_output=True)
            if not (played.stdout == read.stdout != b'' and played.returncode == read.returncode == 0):
                print(script.name, *words, 'played', played.stdout, played.stderr, 'read', read.stdout, read.stderr)
                bad += 1
            files += 1
    print('%d files of examples, %d recordings not the same' % (files, bad))
    return bad if files else 1


def main(words):
    assert first_fault(KINDS, True) == 'none', first_fault(KINDS, True)
    if words[:1] == ['compare'] and len(words) == 2:
        return compare(words[1]) > 0
    if words == ['image']:
        sys.stdout.buffer.write(alone(KINDS))
        return 0
    return print_rows(words, rows(), case_text, answer_text, __doc__)


if __name__ == '__main__':
    sys.exit(main(sys.argv[1:]))
