#!/usr/bin/env python3
"""Compares scripts/ch10.py with r10, and with what is stated of recordings that are made here.

    scripts/trials/ch10_trials.py check                            # without r10, in seconds: recordings of every kind, of other
                                                                   # recorders, and at fault
    scripts/trials/ch10_trials.py examples PROGRAM                 # what PROGRAM records of each script of examples/
    scripts/trials/ch10_trials.py random PROGRAM [COUNT [SEED]]    # what it records of so many random scripts: else 200, from seed
                                                                   # 1
    scripts/trials/ch10_trials.py using PROGRAM                    # the lines of docs/USING.md that begin with `$`, and what stands
                                                                   # below each
    scripts/trials/ch10_trials.py large MEBIBYTES > RECORDING      # a recording of about that size, for measures

Of each file that `r10 files` lists, the entries of csv and json have to be those of `r10 play`, whole, of a channel and in a range;
the summary's numbers have to be those of these lines and of the listing; the file has to be strict by `r10 check`, and to have the
setup text that the script gave; a range of civil times, what those lines say is in it; and a picture, a strip for each channel.
"""
import csv
import datetime
import io
import json
import os
import pathlib
import random
import struct
import subprocess
import sys
import tempfile
import xml.etree.ElementTree as tree
from concurrent.futures import ThreadPoolExecutor

sys.dont_write_bytecode = True
TOP = pathlib.Path(__file__).resolve().parents[2]
sys.path[1:1] = map(str, [TOP, *(TOP / 'scripts').iterdir()])  # modules of the other folders

from ch10.python import with_numpy  # noqa: E402

with_numpy()
from ch10 import command, inputs  # noqa: E402
import ch10_damage  # noqa: E402
import ch10_exports  # noqa: E402
import ch10_hostile  # noqa: E402
import ch10_index  # noqa: E402
import ch10_jobs  # noqa: E402
import ch10_meanings  # noqa: E402
import ch10_others  # noqa: E402
import ch10_tables  # noqa: E402
import ch10_times  # noqa: E402
import ch10_types  # noqa: E402
import ch10_units  # noqa: E402
import check_cases  # noqa: E402
import judge_recording  # noqa: E402
import made_kinds  # noqa: E402
import play_cases  # noqa: E402
from check_cases import FIRST, letters, lost, number, packet, told  # noqa: E402

FILTER = str(TOP / 'scripts' / 'ch10.py')
LAST_COUNT = (1 << 48) - 1


def run(words, data):
    """The status, the output and the line of a call, made here."""
    to = io.BytesIO()
    status, line = command.answer(words, lambda: data, lambda: to)
    return status, to.getvalue(), line


def ran(words, data):
    """The output of a call that must end well."""
    status, said, line = run(words, data)
    if status != 0:
        raise Bad('%s ends with %d: %s' % (words, status, line))
    return said


class Bad(Exception):
    """What does not agree."""


def agree(said, wanted, what):
    if said != wanted:
        raise Bad('%s: %.600r, wanted %.600r' % (what, said, wanted))


# ---- what the other side says

class Program:
    """r10 itself."""

    def __init__(self, program):
        self.program = program

    def call(self, words, data, status=0):
        done = subprocess.run([self.program] + words, input=data, capture_output=True)
        if done.returncode != status:
            raise Bad('r10 %s ends with %d: %r' % (words, done.returncode, done.stdout[-200:] + done.stderr))
        return done.stdout

    def files(self, image):
        return self.call(['files'], image).decode().splitlines()

    def play(self, image, words):
        return self.call(['play'] + words, image).decode().splitlines()

    def verdict(self, data):
        return self.call(['check'], data).decode().strip()


class Stated:
    """What is known of an image without r10: a line and the entries of each of its files."""

    def __init__(self, listing, lines):
        self.listing, self.lines = listing, lines

    def files(self, image):
        return self.listing

    def play(self, image, words):
        said = dict(zip(words[::2], words[1::2]))
        channel, first, last = int(said.get('--channel', 0)), int(said.get('--from', 0)), int(said.get('--to', LAST_COUNT))
        return [line for line in self.lines[int(said['--file'])]
                if first <= int(line.split(' ')[2]) <= last and channel in (0, int(line.split(' ')[1]))]

    def verdict(self, data):
        return judge_recording.verdict(data)


# ---- what a filter's output says, as r10's lines

KEYS = dict({kind.name: kind.keys for kind in made_kinds.KINDS}, time=('civil',), event=('number', 'occurrence'))
VALUES = {kind.value for kind in made_kinds.KINDS} | {'civil'}


def plain(value):
    return str(int(value)) if isinstance(value, bool) else str(value)


def line_of(found, value_of):
    said = [value_of(key) for key in KEYS[found['type']]]
    return ' '.join(map(plain, ['entry', found['channel'], found['count'], found['lost'], found['type']] + [
        '-' if said_is_empty == '' else said_is_empty for said_is_empty in said]))


def csv_lines(said):
    return [(line_of(row, lambda key: row['value' if key in VALUES else key]), row['time'])
            for row in csv.DictReader(io.StringIO(said.decode()))]


def json_lines(said):
    return [(line_of(row, lambda key: row[key]), row['time']) for row in map(json.loads, said.decode().splitlines())]


# ---- times by the lines alone

def ticks(text):
    """A civil time in units of 100 ns."""
    whole, _, part = text.partition('.')
    past = datetime.datetime.fromisoformat(whole) - datetime.datetime.min
    return (past.days * 86400 + past.seconds) * 10 ** 7 + int(part.ljust(7, '0'))


def text_of(value, places=7):
    moment = datetime.datetime.min + datetime.timedelta(seconds=value // 10 ** 7)
    return moment.strftime('%Y-%m-%d %H:%M:%S.').rjust(20, '0') + ('%07d' % (value % 10 ** 7))[:places]


def times_of(lines):
    """Of each line its civil time, by the last time that isn't later, or else the first."""
    found = []
    for line in lines:
        words = line.split(' ', 5)
        if words[4] == 'time':
            found.append((int(words[2]), ticks(words[5])))
    said = []
    for line in lines:
        count = int(line.split(' ')[2])
        before = [pair for pair in found if pair[0] <= count]
        at, civil = before[-1] if before else found[0]
        said.append(civil + count - at)
    return said


# ---- one image

def compare(image, other, setups, draw, starts=None):
    """Compares each filter with what the other side says of an image. Answers how many files, entries, files that are not closed
    and losses there were."""
    listing = other.files(image)
    agree(ran(['summary'], image).decode().splitlines()[0].split(', ')[1],
          '%d file%s' % (len(listing), '' if len(listing) == 1 else 's'), 'summary')
    total = losses = 0
    for place, line in enumerate(listing):
        _, shown, name, size, blocks, closed = line.split(' ')
        agree(shown, str(place), 'number')
        of = ['--file', shown]
        lines = other.play(image, of)
        total += len(lines)
        losses += losses_in(lines)
        times = times_of(lines)
        wanted = list(zip(lines, map(text_of, times)))
        agree(csv_lines(ran(['csv', '--raw'] + of, image)), wanted, 'csv')
        agree(json_lines(ran(['json', '--raw'] + of, image)), wanted, 'json')
        compare_summary(rows_in(ran(['summary', '--json'] + of, image)), lines, dict(wanted), name,
                        int(size), closed)
        compare_table(ran(['summary'] + of, image).decode(), lines, int(size))
        data = ran(['file', name], image)
        agree(ran(['file'] + of, image), data, 'file by its number')
        agree(len(data), int(size), 'size')
        agree(other.verdict(data), 'strict', 'verdict')
        if starts is not None:
            agree(data, image[512 * starts:512 * starts + int(size)], 'bytes of a file')
            starts += int(blocks)
        agree(csv_lines(ran(['csv', '--raw'], data)), wanted, 'csv of a recording')
        agree(ran(['setup'] + of, image), setups[name], 'setup')
        compare_ranges(image, data, other, of, lines, times, draw)
        compare_picture(ran(['svg'] + of, image), lines)
    return len(listing), total, sum(line.endswith(' 0') for line in listing), losses


def rows_in(said):
    """The objects of `summary --json` that are of a channel and type."""
    return [found for found in map(json.loads, said.decode().splitlines()) if 'packets' in found]


def losses_in(lines):
    """How many entries have a gap."""
    return sum(line.split(' ')[3] != '0' for line in lines)


def lost_in(lines):
    """How many messages were lost, as a number, and of how many losses it isn't told; a loss of an untold number is one at
    least."""
    gaps = [line.split(' ')[3] for line in lines]
    return sum(1 if gap == '1+' else int(gap) for gap in gaps), gaps.count('1+')


def compare_summary(rows, lines, times, name, size, closed):
    agree(sum(row['bytes'] for row in rows), size, 'bytes')
    agree({(row['name'], row['closed']) for row in rows}, {(name, closed == '1')}, 'name and closed')
    agree(sum(row['jumps'] + row['opaque'] for row in rows), 0, 'jumps and opaque')
    found = {}
    for line in lines:
        _, channel, count, _, kind = line.split(' ')[:5]
        row = found.setdefault((int(channel), kind), [0, 0, 0, 0, int(count), int(count), times[line], times[line]])
        for place, more in enumerate((1, losses_in([line]), *lost_in([line]))):
            row[place] += more
        row[5], row[7] = int(count), times[line]
    keys = 'entries', 'losses', 'lost', 'untold', 'first', 'last', 'first_time', 'last_time'
    said = {(row['channel'], row['type']): [row[key] for key in keys] for row in rows if row['entries'] is not None}
    agree(said, found, 'summary')
    agree({row['type'] for row in rows if row['entries'] is None} - {'setup', 'index', 'report'}, set(), 'types without entries')
    reports = [row['packets'] for row in rows if row['type'] == 'report']
    agree(sum(reports), losses_in(lines) - lost_in(lines)[1], 'loss reports')
    for row in rows:
        if row['rate'] is not None:
            agree(round(row['rate'] * (row['last'] - row['first']) / 10 ** 7), row['entries'] - 1, 'rate')


def compare_table(said, lines, size):
    words = [line.split() for line in said.splitlines()]
    total = next(line for line in words if line[:1] == ['all'])
    lost, untold = lost_in(lines)
    agree(total[2:4] + total[4:],
          [str(len(lines)), str(size), str(losses_in(lines)), '%d%s' % (lost, '+' if untold else ''), '0', '0', '0'], 'table')


def compare_ranges(image, data, other, of, lines, times, draw):
    counts = [int(line.split(' ')[2]) for line in lines]
    first, last = sorted(draw.choice(counts) + draw.choice((-1, 0, 0, 1)) for _ in range(2))
    first = max(first, 0)
    channel = draw.choice(lines).split(' ')[1]
    by_count = ['--from', str(first), '--to', str(last)]
    for more in ([], ['--channel', channel]):
        wanted = other.play(image, of + more + by_count)
        agree([line for line, _ in csv_lines(ran(['csv', '--raw'] + of + more + by_count, image))], wanted,
              'csv %s' % (more + by_count))
        agree([line for line, _ in json_lines(ran(['json', '--raw'] + of + more + by_count, image))], wanted,
              'json %s' % (more + by_count))
    compare_cut(data, by_count, [line for line, count in zip(lines, counts) if first <= count <= last], other)
    early, late = sorted(draw.choice(times) + draw.choice((-1, 0, 0, 1, -10 ** 6, 10 ** 6)) for _ in range(2))
    by_time = ['--from', text_of(early), '--to', text_of(late).replace(' ', draw.choice(' T'))]
    wanted = [line for line, at in zip(lines, times) if early <= at <= late]
    agree([line for line, _ in csv_lines(ran(['csv', '--raw'] + of + by_time, image))], wanted, 'csv %s' % by_time)
    compare_cut(data, by_time, wanted, other)
    compare_picture(ran(['svg'] + of + by_time, image), lines, wanted)


def compare_cut(data, within, wanted, other):
    """A range as a recording: no recorder's fault, the same entries in the range, and no packet without one but setup, one time,
    and a loss report right before a packet that has a loss."""
    cut = ran(['range'] + within, data)
    verdict = other.verdict(cut)
    if verdict not in ('strict', 'lenient 0'):
        raise Bad('range %s: %s' % (within, verdict))
    said = [line for line, _ in csv_lines(ran(['csv', '--raw'], cut))]
    agree([line for line in said if line in set(wanted)], wanted, 'range %s' % within)
    kept, rest = packets_of(cut), iter(packets_of(data))
    agree([part for part in kept if part not in rest], [], 'the packets of a range, in their order')
    agree([sum(part[15] == kind for part in kept) for kind in (1, 3)], [1, 0], 'setup and index packets of a range')
    reports = [(part, behind) for part, behind in zip(kept, kept[1:] + [bytes(24)]) if part[15] == 0]
    agree([part[32:34] == behind[2:4] and behind[14] & 0x10 for part, behind in reports], [0x10] * len(reports),
          'reports of a range')
    reports = [part for part, _ in reports]
    without = sum(not {bare(line) for line in csv_of(part)} & set(map(bare, wanted)) for part in kept if part[15] != 1
                  and part not in reports)
    if without > 1:
        raise Bad('range %s has %d packets without an entry in it' % (within, without))


def bare(line):
    """A line without what was lost, which a packet by itself does not tell."""
    words = line.split(' ')
    return ' '.join(words[:3] + words[4:])


def csv_of(data):
    return [line for line, _ in csv_lines(ran(['csv', '--raw'], data))]


def packets_of(data):
    at, found = 0, []
    while at < len(data):
        length = int.from_bytes(data[at + 4:at + 8], 'little')
        found.append(data[at:at + length])
        at += length
    return found


def compare_picture(said, lines, drawn=None):
    """A strip for each channel, with the losses of those entries that are drawn."""
    drawn = lines if drawn is None else drawn
    picture = tree.fromstring(said)
    texts = [element.text for element in picture.iter('{http://www.w3.org/2000/svg}text')]
    channels = sorted({int(line.split(' ')[1]) for line in lines})
    agree([int(text.split(' ')[1]) for text in texts if text.startswith('channel ')], channels, 'strips')
    agree(sum(int(text.split(' ')[0].rstrip('+').replace(',', '')) for text in texts if text.endswith(' lost')
              and text[:1].isdigit()),
          lost_in(drawn)[0], 'losses of a picture')
    bars = [element for element in picture.iter('{http://www.w3.org/2000/svg}path') if element.get('fill')]
    agree(len(bars), len({line.split(' ')[1] for line in drawn}), 'strips with bars')


# ---- random scripts

def script_of(draw):
    """A script that records all kinds into some files, with its setup texts by the files' names, and its reserved blocks."""
    kinds = list(made_kinds.NAMES) + [draw.choice(made_kinds.NAMES) for _ in range(draw.randrange(3))]
    draw.shuffle(kinds)
    numbers = draw.sample(range(1, draw.choice((12, 65536))), len(kinds) + 2)
    reserved = draw.randint(1, 3)
    lines = ['blocks = %d' % draw.choice((300, 1000)), 'directory = %d' % reserved, 'volume = "VOL"', 'nodes = 100',
             'time = %d' % numbers[-1],
             'event = %d' % numbers[-2]]
    channels = list(zip(numbers, kinds))
    for channel, kind in channels:
        lines += ['[[channel]]', 'id = %d' % channel, 'kind = "%s"' % kind, 'capacity = %d' % draw.randint(1, 6),
                  'check = %d' % draw.choice((0, 8, 16, 32)),
                  'bytes = %d' % draw.choice((128, 256, 524288)), 'number = %d' % draw.choice((1, 2, 5, 65535))]
        lines += made_kinds.BY_NAME[kind].random_settings(draw)
    clock = Clock(draw)
    steps, setups = ['do = "mount"'], {}
    for place in range(draw.randint(1, 4)):
        name = 'FLT%d' % place
        setups[name] = draw.randbytes(draw.randrange(40))
        steps += [clock.tick(), 'do = "start"\nname = "%s"\nsetup = "%s"' % (name, setups[name].hex())]
        for _ in range(draw.randint(5, 90)):
            steps.append(step_of(draw, clock, channels))
        steps += ['do = "pump"\nchannel = %d\nk = %d' % (channel, draw.randrange(9)) for channel, _ in channels]
        steps.append('do = "stop"')
        if draw.random() < 0.2:
            steps += ['do = "dismount"', 'do = "mount"']
    if draw.random() < 0.4:
        while steps[-1] != 'do = "stop"':
            steps.pop()
        steps[-1] = 'do = "commit"' if draw.random() < 0.7 else 'do = "files"'
    return '\n'.join(lines) + '\n' + ''.join('[[step]]\n%s\n' % step for step in steps), setups, reserved


class Clock:
    """The count of a script and the civil time of its ticks, which drift and sometimes jump."""

    def __init__(self, draw):
        self.draw, self.count = draw, draw.choice((0, 1000, draw.randrange(1 << 47)))
        self.civil = ticks(text_of(draw.randrange(ticks('1970-01-01 00:00:00'), ticks('2100-01-01 00:00:00')) // 10 ** 5 * 10 ** 5))

    def go_on(self, most):
        past = self.draw.randrange(most)
        self.count += past
        self.civil += past
        return self.count

    def tick(self):
        self.go_on(self.draw.choice((1000, 3000000)))
        if self.draw.random() < 0.1:
            self.civil += self.draw.randint(-86400 * 10 ** 7, 86400 * 10 ** 7)
        return 'do = "tick"\ncount = %d\ncivil = "%s"' % (self.count, text_of(self.civil, 2))


def step_of(draw, clock, channels):
    which = draw.random()
    channel, kind = draw.choice(channels)
    if which < 0.02:
        return 'do = "lose"\nchannel = %d\ncount = %d' % (channel, draw.choice((0, 1, 40, 1 << 40)))
    if which < 0.76:
        lines = ['do = "offer"', 'channel = %d' % channel, 'count = %d' % clock.go_on(draw.choice((2, 2, 500, 90000, 1500000)))]
        return '\n'.join(lines + made_kinds.BY_NAME[kind].offer(draw))
    if which < 0.88:
        return 'do = "pump"\nchannel = %d\nk = %d' % (channel, draw.randint(1, 5))
    if which < 0.92:
        return 'do = "event"\nnumber = %d\ncount = %d' % (draw.choice((0, 7, 4095)), clock.go_on(1000))
    return clock.tick() if which < 0.96 else 'do = "commit"'


def random_trial(program, seed, place):
    draw = random.Random('%d %d' % (seed, place))
    script, setups, reserved = script_of(draw)
    try:
        other = Program(program)
        image = other.call(['sim', '--image'], script.encode())
        return compare(image, other, setups, draw, 1 + reserved) + (None,)
    except Bad as bad:
        return 0, 0, 0, 0, 'recording %d: %s' % (place, bad)


def random_trials(program, count, seed):
    done, bad = [], []
    with ThreadPoolExecutor(3) as pool:
        for row in pool.map(lambda place: random_trial(program, seed, place), range(count)):
            done.append(row)
            if row[4]:
                bad.append(row[4])
                print(row[4], flush=True)
            if len(done) % 20 == 0:
                print('(%d of %d)' % (len(done), count), file=sys.stderr, flush=True)
    sums = tuple(sum(row[k] for row in done) for k in range(4))
    print('%d recordings from seed %d: %d files, %d entries, %d files not closed, %d losses; %d do not agree'
          % ((count, seed) + sums + (len(bad),)))
    return len(bad) > 0


# ---- the examples

def example_trials(program):
    """Each example but a session, as it stands and without its erase. Of one image, calls through the shell's pipes too."""
    draw, bad, files, total = random.Random(1), 0, 0, 0
    other = Program(program)
    for path in sorted((TOP / 'examples').glob('*.toml')):
        if path.stem == 'session':
            continue
        steps = path.read_text().split('[[step]]\n')
        for script in ('[[step]]\n'.join(steps), '[[step]]\n'.join(step for step in steps if not step.startswith('do = "erase"'))):
            try:
                image = other.call(['sim', '--image'], script.encode())
                done = compare(image, other, {'FLT1': b'ABCD', 'FLT2': b''}, draw, 3)
                by_shell(program, image, other)
                files, total = files + done[0], total + done[1]
            except Bad as said:
                print('%s: %s' % (path.name, said))
                bad += 1
    print('the examples, each with and without its erase: %d files, %d entries; %d do not agree' % (files, total, bad))
    return bad > 0


def by_shell(program, image, other):
    """Filters as they are called: from a file, through a pipe, and into the program."""
    with tempfile.NamedTemporaryFile() as medium:
        medium.write(image)
        medium.flush()
        for line in other.files(image):
            name = line.split(' ')[2]
            said = subprocess.run('"%s" file %s < "%s" | "%s" check' % (FILTER, name, medium.name, program), shell=True,
                                  capture_output=True)
            agree((said.stdout, said.stderr), (b'strict\n', b''), 'file | r10 check')
            of = line.split(' ')[1]
            for call in ('"%s" csv --raw --file %s < "%s"', 'cat "%s" | "%s" csv --raw --file %s'):
                words = (FILTER, of, medium.name) if call.startswith('"') else (medium.name, FILTER, of)
                said = subprocess.run(call % words, shell=True, capture_output=True)
                agree(csv_lines(said.stdout), csv_lines(ran(['csv', '--raw', '--file', of], image)), 'csv by the shell')


# ---- the page that shows them

def shown_calls(page):
    """Each line of a page that is typed, and what is to be printed."""
    call, below = None, []
    for line in page.splitlines() + ['']:
        if call is not None and (line.startswith('    $ ') or line and not line.startswith('    ')):
            yield call, '\n'.join(below).strip('\n')
            call = None
        if line.startswith('    $ '):
            call, below = line[6:], []
        else:
            below.append(line[4:])
    if call is not None:
        yield call, '\n'.join(below).strip('\n')


def using_trials(program):
    """Runs these lines one after the other in one folder. One with the word FILE has no file to be run with."""
    bad, done = 0, 0
    with tempfile.TemporaryDirectory() as folder:
        for name in ('scripts', 'examples', 'ch10'):
            pathlib.Path(folder, name).symlink_to(TOP / name)
        pathlib.Path(folder, 'r10').symlink_to(pathlib.Path(program).resolve())
        how = {'cwd': folder, 'env': dict(os.environ, PATH=folder + ':' + os.environ['PATH']), 'shell': True,
               'capture_output': True}
        subprocess.run('r10 sim --image < examples/first.toml > medium.img', **how)
        for call, wanted in shown_calls((TOP / 'docs' / 'USING.md').read_text()):
            if 'FILE' in call.split(' '):
                continue
            said = subprocess.run(call, **how)
            done += 1
            if (said.stdout.decode().strip('\n'), said.stderr, said.returncode) != (wanted, b'', 0):
                print('%s\n%s%s' % (call, said.stdout.decode(), said.stderr.decode()))
                bad += 1
    print('%d lines of docs/USING.md; %d print something else' % (done, bad))
    return bad > 0


# ---- without r10

FIRST_SUMMARY = """\
recording: 272 bytes in 5 packets
from 2024-02-29 12:34:56.7800000 to 2024-02-29 12:34:56.7800010, 0.0000010 seconds
time on channel 1: 1 packet, 0 jumps, 0 steps back, 0 seconds without one; drift not known

channel type  packets entries bytes entries/s losses lost jumps opaque bad
      0 setup       1       -    32         -      0    0     0      0   0
      0 index       2       -   148         -      0    0     0      0   0
      1 time        1       1    36         -      0    0     0      0   0
      5 uart        1       2    56 1000000.0      0    0     0      0   0
    all             5       3   272                0    0     0      0   0

channel type  first last first time             last time
      0 setup  1000 1000 2024-02-29 12:34:56.78 2024-02-29 12:34:56.78
      0 index  1000 1000 2024-02-29 12:34:56.78 2024-02-29 12:34:56.78
      1 time   1000 1000 2024-02-29 12:34:56.78 2024-02-29 12:34:56.78
      5 uart   1000 1010 2024-02-29 12:34:56.78 2024-02-29 12:34:56.78
"""


def stated_images():
    pair = ['file 0 FLT1 272 1 1', 'file 1 FLT1 %d %d 1' % (len(play_cases.KINDS), -(-len(play_cases.KINDS) // 512))]
    yield play_cases.alone(FIRST), ['file 0 FLT1 272 1 1'], [play_cases.FIRST_LINES]
    yield play_cases.alone(play_cases.KINDS), [pair[1].replace('file 1', 'file 0')], [play_cases.KIND_LINES]
    yield play_cases.alone(b''.join(lost())), ['file 0 FLT1 %d 1 1' % len(b''.join(lost()))], [play_cases.LOST_LINES]
    data = b''.join(told(70000))
    yield play_cases.alone(data), ['file 0 FLT1 %d 1 1' % len(data)], [play_cases.TOLD_LINES]
    yield play_cases.alone(FIRST[:124], False), ['file 0 FLT1 124 1 0'], [play_cases.FIRST_LINES]
    yield play_cases.image_of([], b'', 3), [], []


def day_of_year(channel, sequence, counter, words):
    return packet(channel, sequence, 0x11, counter, number(0, 4) + b''.join(number(word, 2) for word in words))


def others_recordings():
    """Recordings of other recorders, and of each what the summary says of its rows: channel, type, packets, entries, jumps, opaque;
    and its entries' times."""
    opening = [packet(0, 7, 0x01, 5, number(0x0C | 1 << 9, 4) + b'<xml/>'), day_of_year(1, 0, 1000, (0x5678, 0x1234, 0x0060))]
    yield (b''.join(opening + [packet(5, 0, 0x50, 2000, number(1 << 31, 4) + letters(2000, b'A')),
                               packet(9, 3, 0x40, 2500, bytes(40))]),
           [(0, 'setup', 1, None, 0, 0), (1, 'time', 1, 1, 0, 0), (5, 'uart', 1, 1, 0, 0), (9, 'video-40', 1, None, 0, 1)],
           ['060 12:34:56.7800000', '060 12:34:56.7801000'])
    yield (b''.join(opening + [packet(5, 0, 0x50, 2000, number(1 << 31, 4) + letters(2000, b'A'), flags=0x40),
                               packet(5, 1, 0x50, 2000, number(1 << 31, 4) + letters(2000, b'A'), flags=0x40),
                               packet(5, 2, 0x50, 2000, number(1 << 31, 4) + letters(2000, b'A'), flags=0x40),
                               packet(5, 4, 0x50, 2010, number(1 << 31, 4) + letters(2010, b'A')),
                               packet(6, 0, 0x30, 2000, number(1 << 16 | 9, 4) + letters(2000, b'A')),
                               packet(0, 8, 0x03, 1000, number(1 << 30 | 1, 4) + bytes(24)),
                               packet(7, 0, 0xF3, 1, b'', flags=2)]),
           [(0, 'setup', 1, None, 0, 0), (0, 'index', 1, None, 0, 1), (1, 'time', 1, 1, 0, 0), (5, 'uart', 4, 1, 1, 3),
            (6, 'message', 1, 0, 0, 1),
            (7, 'type-f3', 1, None, 0, 1)], ['060 12:34:56.7800000', '060 12:34:56.7801010'])
    yield (b''.join(check_cases.packet(5, 0, 0x50, 2000, number(1 << 31, 4) + letters(2000, b'A') + letters(1000, b''))
                    for _ in range(1)),
           [(5, 'uart', 1, 2, 0, 0)], [None, None])


def check():
    """What is compared without r10: how many do not agree."""
    draw, bad, done = random.Random(1), 0, 0
    trials = [lambda it=it: compare(it[0], Stated(it[1], it[2]), {'FLT1': b'ABCD'}, draw, 3) for it in stated_images()]
    trials += [lambda: agree(ran(['summary'], FIRST).decode(), FIRST_SUMMARY, 'the first summary')]
    trials += [lambda it=it: compare_others(*it) for it in others_recordings()]
    trials += [lambda it=it: compare_verdict(*it) for it in check_cases.verdicts()]
    trials += [lambda it=it: agree(run(it[0], it[1])[::2], it[2:], str(it[0])) for it in calls()] + [compare_shell]
    modules = (ch10_meanings, ch10_hostile, ch10_times, ch10_types, ch10_others, ch10_exports, ch10_units, ch10_tables, ch10_index,
               ch10_jobs)
    trials += [lambda it=it: agree(*it(), it.__name__) for module in modules for it in module.TRIALS]
    trials += [lambda seed=seed: agree(ch10_damage.each_twentieth(seed), [], 'a bit in each twentieth packet') for seed in range(3)]
    trials += [lambda which=which: agree(ch10_damage.one_damaged(1, which)[1], [], 'damage') for which in range(20)]
    for trial in trials:
        try:
            trial()
            done += 1
        except Bad as said:
            print(said)
            bad += 1
    print('%d agree, %d do not' % (done, bad))
    return bad > 0


def compare_others(data, rows, times):
    said = rows_in(ran(['summary', '--json'], data))
    keys = 'channel', 'type', 'packets', 'entries', 'jumps', 'opaque'
    agree([tuple(row[key] for key in keys) for row in said], rows, 'rows')
    left = ['channel %d, %s: ' % row[:2] for row in rows if row[5] and row[1] in KEYS]
    status, said_json, line = run(['json'], data)
    agree([json.loads(line)['time'] for line in said_json.decode().splitlines()], times, 'times')
    for name in left:
        if name not in (line or ''):
            raise Bad('%r does not say what of %s was not read' % (line, name))
    agree(status, int(bool(left)), 'status')
    tree.fromstring(ran(['svg'], data))
    agree(run(['csv'], data)[0], status, 'status of csv')
    ran(['range', '--from', '0'], data)


def compare_verdict(name, data, wanted):
    """What `r10 check` judges good is read whole, and what it judges faulty is at fault at the same place.

    An event with a data header is read here and opaque there.
    """
    status, said, line = run(['summary'], data)
    words = wanted.split(' ')
    if words[0] != 'faulty':
        agree((status, line), (0, None), name)
        opaque = words[1] if len(words) > 1 else '0'
        agree(said.decode().split('\nchannel')[1].splitlines()[-1].split()[-2], opaque, name)
    else:
        agree(status, 1, name)
        if inputs.is_recording(data) and not line.endswith('at offset %s' % words[1]):
            raise Bad('%s: %s, wanted %s' % (name, line, wanted))


def calls():
    """Words, an input, the status and the line that are wanted."""
    image = play_cases.alone(FIRST)
    cut = 'less than its packet at offset 212'
    yield ['csv'], FIRST[:250], 1, cut
    yield ['json'], FIRST[:250], 1, cut
    yield ['svg'], FIRST[:250], 1, cut
    yield ['setup'], FIRST[:250], 1, cut
    yield ['range'], FIRST[:250], 1, cut
    yield ['csv'], b'', 1, 'an empty input'
    yield ['csv'], bytes(
        1024), 1, 'neither a recording (no sync pattern at offset 0) nor an image of a medium (no directory block at offset 512)'
    yield ['setup'], FIRST[68:124], 1, 'the recording has no setup packet'
    yield ['csv', '--from', '12:00:00'], FIRST[68:124], 1, 'the recording has no time: --from and --to take its counts'
    yield ['csv', '--from', '060 12:00:00'], FIRST, 1, "the recording's times have a date"
    yield ['csv', '--from', '12:34:56.78', '--to', '2024-02-29'], FIRST, 2, (
        "argument --to: '2024-02-29' is neither a count nor a time such as '2024-02-29 12:34:56.78', '060 12:34:56.78' or 12:34:56;"
        " see ch10 csv --help")
    yield ['file', 'FLT2'], image, 1, 'no file has the name FLT2: the image has FLT1'
    yield ['file', 'FLT1'], FIRST, 1, 'the input is a recording and no image: it has no files'
    yield ['file'], image, 2, 'file takes a NAME, or --file N; see ch10 file --help'
    yield ['csv', '--file', '1'], image, 1, 'no file has the number 1: the image has 1'
    yield ['csv', '--file', '01'], image, 2, "argument --file: '01' is no decimal number; see ch10 csv --help"
    yield ['csv'], play_cases.OUTSIDE, 1, 'a file outside the image at offset 8192'
    yield ['csv', 'medium.img'], image, 2, (
        "unexpected argument 'medium.img'; a recording or an image comes from standard input: < FILE; see ch10 csv --help")
    yield [], image, 2, 'the following arguments are required: COMMAND; see ch10 --help'
    yield ['csv', '--file', 'FLT1'], image, 2, (
        "argument --file: 'FLT1' is no number of a file, from 0 on: ch10 summary < IMAGE lists the files; see ch10 csv --help")
    known = ('the commands are summary, csv, json, svg, setup, index, tmats, sqlite, hdf5, mat, range, file, export, values, plot, '
             'catalogue, load, report, mend and rescue')
    for word, near in (('ls', "; the nearest is 'summary'"), ('sumary', "; the nearest is 'summary'"), ('qqq', '')):
        yield [word], image, 2, "there is no command '%s'%s; %s; see ch10 --help" % (word, near, known)
    yield ['medium.img'], image, 2, (
        "there is no command 'medium.img'; a recording or an image comes from standard input: < FILE; %s; see ch10 --help" % known)
    yield ['csv', '--help'], b'', 0, None


def compare_shell():
    """Calls by the shell: a reader that goes away is no line, a full disk is one."""
    with tempfile.NamedTemporaryFile() as medium:
        medium.write(play_cases.alone(FIRST))
        medium.flush()
        for call, wanted in (('"%s" summary < %s | head -n 3 | tail -n 1',
                              (b'file 0 FLT1: 272 bytes in 5 packets, closed\n', b'', 0)),
                             ('"%s" file FLT1 < %s | tail -c 4', (b'\0\0\0\0', b'', 0)),
                             ('"%s" csv < %s > /dev/full', (b'', b'ch10: a read or a write failed: No space left on device\n', 3))):
            said = subprocess.run(call % (FILTER, medium.name), shell=True, capture_output=True)
            agree((said.stdout, said.stderr, said.returncode), wanted, call)
        gone, end = os.pipe()
        os.close(gone)
        medium.seek(0)
        said = subprocess.run([FILTER, 'csv'], stdin=medium, stdout=end, stderr=subprocess.PIPE)
        os.close(end)
        agree((said.stderr, said.returncode), (b'', 3), 'a reader that has gone')


# ---- a large recording

def large(size, to):
    """Writes a recording of about so many bytes: three hours of traffic, in packets of some twenty to two hundred entries."""
    draw, written, count, places = random.Random(1), 0, 1000, {}

    def put(channel, kind, counter, body, check=0, flags=0):
        nonlocal written
        places[channel] = (places.get(channel, -1) + 1) & 0xFF
        data = check_cases.packet(channel, places[channel], kind, counter, body, flags=flags) if not check else play_cases.summed(
            channel, places[channel], kind, counter, body, check, flags=flags)
        to.write(data)
        written += len(data)

    put(0, 0x01, count, number(0x0C, 4) + b'ABCD')
    moment = datetime.datetime(2024, 2, 29, 12, 34, 56)
    start = count
    while written < size << 20:
        if (count - start) % 10 ** 7 == 0:
            now = moment + datetime.timedelta(seconds=(count - start) // 10 ** 7)
            bcd = [int(now.strftime(form), 16) for form in ('%S00', '%H%M', '%m%d', '%Y')]
            put(1, 0x11, count, number(0x201, 4) + b''.join(number(word, 2) for word in bcd))
        flags = 0x10 if draw.random() < 0.01 else 0
        step = 10 ** 6
        for channel, kind in ((5, 0x50), (6, 0x30)):
            some = sorted(draw.randrange(count, count + step) for _ in range(100))
            front = number(1 << 31, 4) if kind == 0x50 else number(len(some), 4)
            put(channel, kind, some[0], front + b''.join(letters(at, draw.randbytes(draw.randrange(8, 40))) for at in some), 16,
                flags)
        some = sorted(draw.randrange(count, count + step) for _ in range(150))
        put(7, 0x19, some[0], number(len(some), 4) + b''.join(
            made_kinds.bus_message(at, 0, 0, struct.unpack('<16H', draw.randbytes(32))) for at in some), 32)
        put(8, 0x38, count,
            number(200, 4) + b''.join(number(1 << 24 | (4900 if place else 0), 4) + draw.randbytes(4) for place in range(200)), 8)
        put(9, 0x29, count,
            number(8 << 3, 4) + b''.join(number(count + 50000 * place, 8) + number(draw.randrange(256), 4) for place in range(20)))
        count += step


def main(words):
    if words == ['check']:
        return check()
    if len(words) == 2 and words[0] == 'examples':
        return example_trials(words[1])
    if len(words) == 2 and words[0] == 'using':
        return using_trials(words[1])
    if 2 <= len(words) <= 4 and words[0] == 'random':
        return random_trials(words[1], *(list(map(int, words[2:])) + [200, 1][len(words) - 2:]))
    if len(words) == 2 and words[0] == 'large':
        large(int(words[1]), sys.stdout.buffer)
        return 0
    print(__doc__)
    return 2


if __name__ == '__main__':
    sys.exit(main(sys.argv[1:]))
