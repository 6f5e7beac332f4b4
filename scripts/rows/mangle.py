#!/usr/bin/env python3
"""Mangles recordings and images, and compares what r10 says of each with what the rules of docs/FORMAT.md say.

    scripts/rows/mangle.py run PROGRAM [--first-fault OTHER] [--seed SEED] [--count COUNT]    # says what differs, and how many came
                                                                                              # to what
    scripts/rows/mangle.py case PROGRAM NUMBER [--seed SEED]                                  # writes the mangled bytes of one
    scripts/rows/mangle.py kept                                                               # judges the kept ones, the rows
                                                                                              # `mangled-..` in rows/

PROGRAM is the program, and OTHER ffi/first_fault.c, compiled over the library, by which each recording is also judged under a
closed and an unclosed entry, rules included. The seed is 1 and the count 10,000 where none is given. Half of the mangled are
recordings, which `check` judges, and `play` on a medium with that file alone; half are images, for `files` and `play`. What is
right is said by judge_recording.py and judge_image.py, which take nothing from the recorder. What is mangled are the recordings
and images of check_cases.py and play_cases.py, and what the program records of the examples and of the scripts in rows/.
"""
import argparse
import collections
import concurrent.futures
import hashlib
import pathlib
import subprocess
import sys

TOP = pathlib.Path(__file__).resolve().parents[2]
sys.path[1:1] = map(str, [TOP, *(TOP / 'scripts').iterdir()])  # modules of the other folders

from check_cases import (CHAIN, CLOSED, FAR, FAR_BY_TWO, FIRST, LONG, LONG_INDEX, MANY, MANY_INDEX, ONE, OPAQUE, OPENING,
                         TWO, index_of,
                         lost, number, report, told)
from judge_image import Refused, answer, listed, said_of
from judge_recording import INDEX, WIDTHS, first_fault, little, verdict
from play_cases import KINDS, PAIR, alone, big, directory_block, listed as entry_bytes

BLOCK = 512
EDGES = (0, 1, 2, 3, 4, 5, 7, 8, 12, 16, 20, 22, 23, 24, 28, 0x1F, 0x20, 0x40, 0x48, 0x4A, 0x7F, 0x80, 0xFF, 0x100, 0x7FFF,
         0x8000, 0xFFFF,
         0x10000, 0xF4240, 0xF4241, 0x7FFFC, 0x80000, 0x80004, 0x7FFFFFFF, 0x80000000, 0xFFFFFFFC, 0xFFFFFFFF, 1 << 32,
         (1 << 47) - 1, 1 << 47,
         (1 << 48) - 1, 1 << 48, 1 << 55, (1 << 63) - 1, 1 << 63, (1 << 64) - 512, (1 << 64) - 1)
TYPES = (0x00, 0x01, 0x02, 0x03, 0x11, 0x19, 0x29, 0x30, 0x38, 0x50, 0x68, 0xFF)


class Dice:
    """Numbers that follow from a seed and the number of a case alone."""

    def __init__(self, seed, case):
        self.text, self.thrown = 'mangle %d %d' % (seed, case), 0

    def below(self, end):
        self.thrown += 1
        found = hashlib.sha256(('%s %d' % (self.text, self.thrown)).encode()).digest()
        return int.from_bytes(found[:12], 'little') % end

    def pick(self, some):
        return some[self.below(len(some))]

    def one_in(self, sides):
        return self.below(sides) == 0

    def data(self, size):
        return bytes(self.below(256) for _ in range(size))


def edge(dice, old, size):
    """Another value of a field of so many bytes."""
    most = 256 ** size
    near = (old + 1, old - 1, old + 4, old - 4, old + 2, old * 2, old ^ (1 << dice.below(8 * size)), old // 2, dice.below(most))
    return dice.pick(near if dice.one_in(2) else EDGES) % most


# ---- recordings

def parts_of(data):
    """The packets of a recording without a fault of framing."""
    parts = []
    while data:
        size = little(data, 4, 4)
        parts.append(data[:size])
        data = data[size:]
    return parts


def mended(part):
    """The same packet with the right sums of its header and its data, where it has room for them."""
    if len(part) < 24:
        return part
    width, rest = WIDTHS[part[14] % 4], part[24:]
    if width and len(rest) >= width and len(rest) % 4 == 0:
        total = sum(little(rest, at, width) for at in range(0, len(rest) - width, width))
        rest = rest[:-width] + number(total % 256 ** width, width)
    total = sum(little(part, at, 2) for at in range(0, 22, 2))
    return part[:22] + number(total % 65536, 2) + rest


def put(data, at, field):
    return data[:at] + field + data[at + len(field):]


FIELDS = ((0, 2), (2, 2), (4, 4), (8, 4), (12, 1), (13, 1), (14, 1), (15, 1), (16, 6), (22, 2))


def change_header(dice, parts, at):
    place, size = dice.pick(FIELDS)
    value = dice.pick(TYPES) if place == 15 else edge(dice, little(parts[at], place, size), size)
    part = put(parts[at], place, number(value, size))
    parts[at] = part if place == 22 or dice.one_in(8) else mended(part)


def change_body(dice, parts, at):
    size = dice.pick((1, 2, 2, 4, 4, 6, 8))
    room = len(parts[at]) - 24 - size
    if room >= 0:
        place = 24 + (0 if dice.one_in(4) else dice.below(room // 2 + 1) * 2)
        part = put(parts[at], place, number(edge(dice, little(parts[at], place, size), size), size))
        parts[at] = part if dice.one_in(8) else mended(part)


def change_data(dice, parts, at):
    """A byte behind the first stamp."""
    part = parts[at]
    if len(part) > 36:
        place = 36 + dice.below(len(part) - 36)
        parts[at] = mended(put(part, place, dice.data(1)))


def change_filler(dice, parts, at):
    """Other bytes behind the body, or more of them."""
    part = parts[at]
    body = 24 + little(part, 8, 4)
    if dice.one_in(2) and len(part) > body >= 24:
        parts[at] = mended(put(part, dice.below(len(part) - body) + body, dice.data(1)))
    elif len(part) >= 24:
        parts[at] = mended(put(part[:body] + bytes(4) + part[body:], 4, number(len(part) + 4, 4)))


def change_channel(dice, parts, at):
    """A packet on another's channel."""
    parts[at] = mended(put(parts[at], 2, dice.pick(parts)[2:4]))


def shift(dice, parts, at):
    """A packet at another count."""
    part = parts[at]
    if len(part) >= 36:
        by = dice.pick((1, 1, 10, 1000000, 1000001, -1, -10, 1 << 47))
        old = little(part, 16, 6)
        part = put(part, 16, number((old + by) % 2 ** 48, 6))
        if part[28:34] == number(old, 6) and not dice.one_in(4):
            part = put(part, 28, number((old + by) % 2 ** 48, 6))
        parts[at] = mended(part)


def flip(dice, parts, at):
    part = parts[at]
    for _ in range(1 + dice.below(3)):
        if part:
            place = dice.below(len(part))
            part = put(part, place, bytes([part[place] ^ (1 << dice.below(8))]))
    parts[at] = mended(part) if dice.one_in(2) else part


def drop(dice, parts, at):
    del parts[at]


def double(dice, parts, at):
    parts.insert(at if dice.one_in(2) else dice.below(len(parts) + 1), parts[at])


def swap(dice, parts, at):
    other = dice.below(len(parts))
    parts[at], parts[other] = parts[other], parts[at]


def cut(dice, parts, at):
    """A packet with fewer or more bytes, whose lengths may be told so."""
    part, by = parts[at], dice.pick((1, 2, 4, 4, 8, 12, 16, 20))
    part = part[:-by] if dice.one_in(2) else part + dice.data(by)
    if len(part) >= 24 and not dice.one_in(4):
        part = put(part, 4, number(len(part), 4))
        if dice.one_in(2):
            part = put(part, 8, number(max(0, little(part, 8, 4) + len(part) - len(parts[at])) % 2 ** 32, 4))
        part = mended(part)
    parts[at] = part


def insert(dice, parts, at):
    parts.insert(at, dice.pick((OPAQUE, report(1, 5, 1), dice.pick(parts_of(KINDS)), dice.data(dice.below(40)),
                                bytes(dice.below(5) * 4))))


def renumber(parts):
    """The same packets with sequence numbers that count from 0 on each channel."""
    seen = collections.Counter()
    for at, part in enumerate(parts):
        if len(part) >= 24:
            channel = little(part, 2, 2)
            parts[at] = mended(put(part, 13, bytes([seen[channel] % 256])))
            seen[channel] += 1


def index_anew(dice, parts):
    """The same packets with an index behind them that names each, which a writer would have put there."""
    data = [part for part in parts if len(part) >= 24 and part[15] != INDEX]
    times = [little(part, 16, 6) for part in data if part[15] == 0x11]
    sequence = sum(little(part, 2, 2) == 0 for part in data)
    entries = 100 if not dice.one_in(8) else dice.pick((1, 2, 99, 101))
    each = dice.pick((None, 1, 1, 2, 3))
    if data and times:
        parts[:] = data + index_of(data, times[-1], sequence, each, entries)


def change_index(dice, parts, at):
    """What is done to packets, done to an index packet."""
    places = [place for place, part in enumerate(parts) if len(part) >= 24 and part[15] == INDEX]
    if places:
        at, other = dice.pick(places), dice.pick(places)
        if dice.one_in(4):
            parts[at], parts[other] = parts[other], parts[at]
        else:
            dice.pick((change_header, change_body, change_body, flip, drop, double, cut))(dice, parts, at)


CHANGES = (change_header, change_header, change_body, change_body, change_data, change_data, change_filler, change_channel,
           shift, shift,
           flip, flip, drop, double, swap, cut, insert, change_index)


def mangled_recording(dice, data):
    parts = parts_of(data)
    for _ in range(dice.pick((1, 1, 1, 2, 3))):
        if parts:
            dice.pick(CHANGES)(dice, parts, dice.below(len(parts)))
    anew = dice.below(6)
    if anew < 4:
        renumber(parts)
    if anew < 3 or anew == 4:
        index_anew(dice, parts)
        if dice.one_in(3):
            change_index(dice, parts, 0)
            if dice.one_in(2):
                renumber(parts)
    data = b''.join(parts)
    if dice.one_in(12):
        data = data[:dice.below(len(data) + 1)]
    if dice.one_in(24):
        data += dice.pick((dice.data(dice.below(30)), bytes(dice.below(30)), b'\x25\xeb' + dice.data(22)))
    return data


# ---- images

def change_block(dice, image, at):
    """A field of a directory block."""
    place, size = dice.pick(((0, 8), (8, 1), (9, 1), (10, 2), (12, 4), (16, 8), (48, 8), (56, 8), (48, 8), (10, 2)))
    links = (0, 1, 2, 3, len(image) // BLOCK - 1, len(image) // BLOCK, at, at + 1)
    value = dice.pick(links) if place in (48, 56) and not dice.one_in(3) else edge(dice, big_at(image, at * BLOCK + place, size),
                                                                                   size)
    return put(image, at * BLOCK + place, big(value % 256 ** size, size))


def change_entry(dice, image, at):
    """A field of an entry of a directory block."""
    place, size = dice.pick(((0, 1), (55, 1), (3, 2), (56, 8), (64, 8), (72, 8), (56, 8), (64, 8), (72, 8), (80, 8), (96, 1),
                             (104, 8), (104, 1)))
    start = at * BLOCK + 64 + 112 * dice.below(4) + place
    old = big_at(image, start, size)
    if place == 104 and size == 8:
        return put(image, start, dice.pick((b'-' * 8, b'12345678', bytes(8), b'-' * 7 + b' ')))
    if size == 8 and place < 80:
        near = (old + 1, old - 1, old + 512, 0, 1, 3, 272, len(image) // BLOCK, len(image) // BLOCK - 1, len(image) // BLOCK + 1)
        if not dice.one_in(3):
            return put(image, start, big(dice.pick(near) % 2 ** 64, 8))
    return put(image, start, big(edge(dice, old, size), size))


def big_at(data, at, size):
    return int.from_bytes(data[at:at + size], 'big')


def change_byte(dice, image, at):
    place = at * BLOCK + dice.below(BLOCK)
    return put(image, place, bytes([image[place] ^ (1 << dice.below(8))])) if place < len(image) else image


def change_blocks(dice, image, at):
    """A block that stands where another does, or nowhere."""
    other, blocks = dice.below(len(image) // BLOCK), [image[k:k + BLOCK] for k in range(0, len(image), BLOCK)]
    blocks[at], blocks[other] = dice.pick(((blocks[other], blocks[at]), (blocks[at], blocks[at]), (bytes(BLOCK), blocks[other])))
    return b''.join(blocks)


def change_length(dice, image, at):
    if dice.one_in(4):
        return image + dice.data(dice.below(40))
    return image[:dice.below(len(image) + 1)] if dice.one_in(2) else image[:BLOCK * dice.below(len(image) // BLOCK + 1)]


def change_file(dice, image, at):
    """A mangled recording where a file stands, and the size of the file told so or not."""
    try:
        files = listed(image)
    except Refused:
        return image
    if not files:
        return image
    place = dice.below(len(files))
    entry = files[place]
    if not entry.is_inside(image) or entry.size == 0:
        return image
    data = entry.data(image)
    data = mangled_recording(dice, data) if verdict(data) == 'strict' else put(data, dice.below(len(data)), b'\xff')
    image = put(image, entry.first * BLOCK, data[:entry.blocks * BLOCK])
    start = place_of(image, place)
    if start is None or len(data) > entry.blocks * BLOCK:
        return image
    return put(image, start + 72, big(len(data), 8))


def place_of(image, file):
    """Where the entry of a file stands, in bytes."""
    entries = listed(image)
    before = sum(entry.listed == entries[file].listed for entry in entries[:file])
    start = entries[file].listed * BLOCK + 64 + 112 * before
    return start if start + 112 <= len(image) else None


IMAGE_CHANGES = (change_block, change_block, change_entry, change_entry, change_byte, change_blocks, change_length, change_file,
                 change_file)


def mangled_image(dice, image):
    for _ in range(dice.pick((1, 1, 1, 2, 3))):
        blocks = len(image) // BLOCK
        if blocks > 1:
            chosen = dice.pick(IMAGE_CHANGES)
            at = 1 if blocks == 2 or dice.one_in(2) else dice.pick((1, 2, dice.below(blocks)))
            image = chosen(dice, image, at)
    return image


COUNTS = (0, 999, 1000, 1001, 1002, 1010, 1100, 2000, 2 ** 47, 2 ** 48 - 1)


def play_words(dice, image):
    """Words of `play`, mostly of a file that is there."""
    words = ['play']
    files = answer(listed, image)[0]
    if not dice.one_in(3):
        words += ['--file', str(dice.below(len(files)) if files and not dice.one_in(8) else dice.pick((0, 1, len(files), 2 ** 63)))]
    if dice.one_in(2):
        words += ['--channel', str(dice.pick((0, 1, 2, 5, 5, 6, 7, 8, 9, 10, 65535)))]
    for name in ('--from', '--to'):
        if dice.one_in(4):
            words += [name, str(dice.pick((2 ** 48, 2 ** 64 - 1)) if dice.one_in(12) else dice.pick(COUNTS))]
    return words


# ---- what is mangled

def scripts():
    """The examples but a session, and the scripts among the rows."""
    for script in sorted((TOP / 'examples').glob('*.toml')):
        if script.stem != 'session':
            yield script.read_bytes()
    for case in (TOP / 'rows' / 'cases').read_bytes().split(b'\n== '):
        head, status, *lines = case.split(b'\n')
        if head.split(b' ')[1:] in ([], [b'sim'],
                                    [b'sim', b'--image']) and status.split(b' ')[:1] == [b'0'] and b'hex' not in status:
            yield b'\n'.join(lines) + b'\n'


def recorded(program, script):
    """The image that the program records of a script, None where it records none."""
    done = subprocess.run([program, 'sim', '--image'], input=script, capture_output=True)
    return done.stdout if done.returncode == 0 else None


class Bases:
    """Recordings and images without a fault."""

    def __init__(self, program):
        self.recordings = [FIRST, FIRST[:124], KINDS, b''.join(lost()), b''.join(ONE), b''.join(TWO), b''.join(CLOSED),
                           b''.join(OPENING),
                           b''.join(LONG + LONG_INDEX), b''.join(MANY + MANY_INDEX), b''.join(told(70000)), b''.join(told(1)[:5])]
        self.chains = [b''.join(it) for it in (LONG + CHAIN, MANY + index_of(MANY, 1000, 1, 1), MANY + index_of(MANY, 1000, 1, 2),
                                               FAR + FAR_BY_TWO)]
        self.images = [alone(FIRST), alone(FIRST[:124], False), alone(KINDS), PAIR, chain_of_five()] + list(map(alone, self.chains))
        for script in scripts():
            image = recorded(program, script)
            if image is not None and image not in self.images and len(image) <= 128 * BLOCK:
                self.images.append(image)
        for image in self.images:
            for entry in listed(image):
                if entry.data(image) not in self.recordings:
                    self.recordings.append(entry.data(image))
        assert all(verdict(data) == 'strict' for data in self.recordings)


def chain_of_five():
    """Five files over two directory blocks."""
    entries = [entry_bytes(3 + k, 272) for k in range(5)]
    data = b''.join(FIRST.ljust(BLOCK, b'\x00') for _ in range(5))
    front = directory_block(2, 1, entries[:4]) + directory_block(2, 1, entries[4:])
    return (bytes(BLOCK) + front + data).ljust(16 * BLOCK, b'\x00')


# ---- cases

Case = collections.namedtuple('Case', 'kind data asked')


def case_of(bases, seed, which):
    """The case of this number: what is mangled, and with which words the program is asked, each with its input."""
    dice = Dice(seed, which)
    if which % 2:
        data = mangled_recording(dice, KINDS if dice.one_in(4) else dice.pick(bases.chains if dice.one_in(4) else bases.recordings))
        closed = dice.one_in(2)
        image = alone(data, closed)
        return Case('recording', data, [(['check'], data), (play_words(dice, image) if dice.one_in(4) else ['play'], image)])
    image = mangled_image(dice, dice.pick(bases.images))
    return Case('image', image, [(['files'], image), (play_words(dice, image), image)])


def wanted_of(words, data):
    """The lines and the status that the rules say."""
    if words == ['check']:
        line = verdict(data)
        return [line], int(line.startswith('faulty'))
    return said_of(data, words)


def by_itself(options, words, data, lines, status):
    """What the program answers, where it is not what is wanted."""
    command = [options.program] + words
    if words[0] == 'judge':
        # (a script has a block beyond the directory)
        command, data = [options.first_fault], alone(data, words[1] == 'closed') + bytes(BLOCK)
    done = subprocess.run(command, input=data, capture_output=True)
    wanted = (''.join(line + '\n' for line in lines).encode(), status, b'')
    seen = (done.stdout, done.returncode, done.stderr)
    return '' if seen == wanted else 'came %r' % (seen,)


def asked_in(bases, seed, which):
    """Name, words, input, lines and status of each call of the case of this number."""
    case = case_of(bases, seed, which)
    for words, data in case.asked:
        lines, status = wanted_of(words, data)
        yield 'case-%d' % which, words, data, lines, status
    if case.kind == 'recording' and case.data:  # (a medium with a file without bytes is not mounted)
        for closed in ('closed', 'unclosed'):
            line = first_fault(case.data, closed == 'closed')
            yield 'case-%d' % which, ['judge', closed], case.data, [line], int(line != 'none')


def word_for(words, lines, status):
    """One word for all answers of a kind."""
    said = lines[0].split(' ') if lines else []
    if words[0] == 'check':
        return 'check: ' + ('faulty ' + said[2] if status else said[0])
    if words[0] == 'judge':
        return 'judge: ' + ' '.join(said[1:] or said)
    kind = ' '.join(said[:3]) if status else 'entries' if words[0] == 'play' and lines else 'files' if lines else 'nothing'
    return '%s: %s' % (words[0], kind)


def judge(words, bases, numbers):
    """What differs in the cases of these numbers, and how often which answer is wanted."""
    asked = [it for which in numbers for it in asked_in(bases, words.seed, which)]
    asked = [it for it in asked if words.first_fault or it[1][0] != 'judge']
    seen = [by_itself(words, *it[1:]) for it in asked]
    wrong = ['%s: %s: wanted %r, %s' % (name, ' '.join(words), lines, came)
             for (name, words, _, lines, _), came in zip(asked, seen) if came]
    return wrong, collections.Counter(word_for(*it[1:2], *it[3:]) for it in asked)


def run(words):
    """Compares, and answers how many answers differ."""
    bases = Bases(words.program)
    counts, wrong = collections.Counter(), []
    groups = [range(at, min(at + 50, words.count)) for at in range(0, words.count, 50)]
    with concurrent.futures.ThreadPoolExecutor(words.lanes) as pool:
        for differing, came in pool.map(lambda group: judge(words, bases, group), groups):
            wrong += differing
            counts.update(came)
    print('seed %d: %d mangled, of %d recordings and %d images' % (words.seed, words.count, len(bases.recordings),
                                                                   len(bases.images)))
    for word, times in sorted(counts.items()):
        print('%6d %s' % (times, word))
    for line in wrong:
        print(line)
    print('%d calls, %d not as wanted' % (sum(counts.values()), len(wrong)))
    return len(wrong)


def rows_of(path):
    """Each row of a file: its first line, and the lines behind it."""
    found = {}
    for row in ('\n' + path.read_text(encoding='ascii', errors='replace')).split('\n== ')[1:]:
        head, *lines = row.rstrip('\n').split('\n')
        found[head] = lines
    return found


def data_of(lines):
    """The bytes of a row's input in hex digits and dots."""
    return b''.join(bytes.fromhex(line) if '.' not in line else bytes(32 * len(line)) for line in lines)


def kept():
    """Says which of the kept rows has another answer than the rules."""
    folder, bad, seen = TOP / 'rows', 0, 0
    answers = rows_of(folder / 'answers')
    for head, (status, *lines) in rows_of(folder / 'cases').items():
        name, *words = head.split(' ')
        if name.startswith('mangled-'):
            seen += 1
            data = data_of(lines)
            if words[0] == 'judge':
                line = first_fault(data, words[1] == 'closed')
                wanted = [line], int(line != 'none')
            else:
                wanted = wanted_of(words, data)
            if answers[head] != [str(wanted[1])] + wanted[0] or status != '%d hex' % wanted[1]:
                print('%s: wanted %r, there is %r' % (name, wanted, answers[head]))
                bad += 1
    print('%d kept, %d not as wanted' % (seen, bad))
    return bad


def main(words):
    parser = argparse.ArgumentParser(description=__doc__, formatter_class=argparse.RawDescriptionHelpFormatter)
    parser.add_argument('task', choices=('run', 'case', 'kept'))
    parser.add_argument('program', nargs='?')
    parser.add_argument('number', nargs='?', type=int)
    parser.add_argument('--first-fault', metavar='OTHER')
    parser.add_argument('--seed', type=int, default=1)
    parser.add_argument('--count', type=int, default=10000)
    parser.add_argument('--lanes', type=int, default=2)
    words = parser.parse_args(words)
    if words.task == 'kept':
        return int(kept() > 0)
    if words.program is None or (words.task == 'case' and words.number is None):
        parser.error('PROGRAM is missing, or the number of a case')
    if words.task == 'run':
        return int(run(words) > 0)
    if words.task == 'case':
        sys.stdout.buffer.write(case_of(Bases(words.program), words.seed, words.number).data)
    return 0


if __name__ == '__main__':
    sys.exit(main(sys.argv[1:]))
