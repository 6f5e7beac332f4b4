#!/usr/bin/env python3
"""Measures the proved program of crates/r10_bench beside the plain Rust program of bench/, and prints one table.

    scripts/measure/bench.py [MESSAGES]                   three runs of each, in turn; of each measure the middle one
    scripts/measure/bench.py [MESSAGES] --instructions    instructions too, by valgrind, of smaller runs
    scripts/measure/bench.py [MESSAGES] --memory          memory too, by bench/count_malloc.c
    scripts/measure/bench.py [MESSAGES] --lengths         recording alone, by the length of its messages; with --instructions those
                                                          too

MESSAGES is 1,000,000 where no number is given. The proved program is crates/r10_bench/out/r10_bench, or that of --proved. The plain
one is built by cargo where it is not there or older than its source, without a registry; --plain names another. Both measure the
processor time of their thread. A ratio is how fast the proved program is, of the plain one: at 0.50 it takes twice as long, or
twice the instructions or bytes. "Apart" is how far the runs of a measure lie apart, of 100: the greater of both programs. How quick
the machine was, by sums and by jumps through a table, is measured before and after. With --runs 0 no time is measured. Status 1
where the file of one, its index or its replay has another size than that of the other.
"""
import argparse
import concurrent.futures
import os
import pathlib
import re
import subprocess
import sys
import tempfile
import time

TOP = pathlib.Path(__file__).resolve().parents[2]
PLAIN = TOP / 'bench' / 'target' / 'release' / 'r10_plain'
PROVED = TOP / 'crates' / 'r10_bench' / 'out' / 'r10_bench'

# What the kinds of messages are called by both programs.
KINDS = {
    'UART messages': 'uart',
    'message channel messages': 'message',
    'MIL-STD-1553 messages': 'bus',
    'ARINC 429 words': 'arinc',
    'discrete states': 'discrete',
}
FILES = (
    ('UART messages', 1024, 4, 3), ('UART messages', 1024, 4, 2), ('UART messages', 1024, 256, 3), ('UART messages', 1024, 256, 2),
    ('UART messages', 64, 4, 3),
    ('UART messages', 8, 4, 3), ('message channel messages', 64, 4, 3), ('MIL-STD-1553 messages', 4, 4, 3),
    ('MIL-STD-1553 messages', 64, 4, 3), ('ARINC 429 words', 4, 4, 3),
    ('discrete states', 4, 4, 3),
)
# Each measure: its name, what it is, and its unit.
MEASURES = [
    ('recorder', 'whole recorder, messages of 32 bytes: offer, pump, commit and stop', 'messages/s'),
    ('replay', 'replay of the closed file in one instalment', 'entries/s'),
    ('replay-behind', 'replay after each commit, 4,096 entries each', 'entries/s'),
    ('check', 'the closed file is judged before its replay', 'bytes/s'),
    ('channel', 'lane and builder, messages of 8 bytes', 'messages/s'),
    ('copy', 'plain copy of the same bytes', 'messages/s'),
    ('packets-20000', 'recording packets of one message each', 'packets/s'),
    ('find-20000', 'find, packets of a channel 8 ms apart', 'ns'),
    ('find-2000', 'find, packets of a channel 0.8 ms apart', 'ns'),
    ('close', 'index of a file of packets of one message each', 'bytes/s'),
] + [('judge-%s-%d-%d-%d' % (KINDS[kind], channels, flags, size),
      'judging %s of %s bytes, %d channels, checksums of %d bits' % (kind, format(size, ','), channels, {2: 16, 3: 32}[flags]),
      'bytes/s') for kind, size, channels, flags in FILES]

# What both must agree on.
SAME = (('recorder-file', 'bytes of the file'), ('replay-entries', 'entries of the replay'), ('close-index', 'bytes of the index'))

# Messages of several lengths, in bytes, which both programs measure.
LENGTHS = (8, 16, 32, 39, 64, 255, 256, 1000, 60000)
# The lines of the proved program for one length: the length, messages a second, and how many messages.
LENGTH_LINES = r'recorder-length (\d+) bytes\n(?:.*\n)*?recorder (\d+) messages/s (\d+) in '

# The numbers of messages of which instructions are counted; of long ones, of those with as many bytes as so many of 64.
COUNTED = (65536, 131072)
COUNTED_BY_LENGTH = (32768, 65536)

# How many rounds of messages the proved program records before it commits.
COMMITTED = 64

# How often an entry is looked for, whatever the number of messages.
SEARCHES = 10000


def proved_figures(text):
    """What the proved program printed, by the names of the plain one. It says how many searches a second there were, of so many."""
    found = plain_figures(text)
    for name, number, nanos in re.findall(r'^(find-\d+) \d+ searches/s (\d+) in (\d+) ns$', text, re.MULTILINE):
        found[name] = int(nanos) // int(number)
    return found


def figures_by_length(text):
    """What the proved program printed of messages of several lengths: messages a second."""
    return {'length-%s' % length: int(rate) for length, rate, _ in re.findall(LENGTH_LINES, text)}


def state_of(plain):
    """How quick the machine is now."""
    found = plain_figures(output([plain, 1, 'state']))
    return '%.2f billion sums and %.0f million jumps' % (found['state-sums'] / 1e9, found['state-jumps'] / 1e6)


def plain_figures(text):
    """What a program printed: lines NAME VALUE UNIT, behind which more may stand."""
    return {name: int(value) for name, value, *_ in (line.split(' ') for line in text.splitlines())}


def output(words, **more):
    """What a program prints, which must end well."""
    ended = subprocess.run([str(word) for word in words], stdout=subprocess.PIPE, text=True, **more)
    if ended.returncode:
        sys.exit('bench: %s: status %d' % (' '.join(map(str, words)), ended.returncode))
    return ended.stdout


def middle(runs, name):
    """The middle figure of a measure, and how far the runs are apart, of 100."""
    figures = sorted(run[name] for run in runs if name in run)
    if not figures:
        return None, 0
    at = figures[len(figures) // 2]
    return at, round(100 * (figures[-1] - figures[0]) / max(1, at))


def told(value, unit):
    """A figure as the table has it."""
    if value is None:
        return '-'
    if unit == 'ns':
        return '%.2f µs' % (value / 1000) if value < 100000 else '%.0f µs' % (value / 1000)
    if unit == 'bytes/s':
        return '%.2f GB/s' % (value / 1e9)
    if value < 1000000:
        return '%.1f thousand %s' % (value / 1e3, unit)
    return '%.1f million %s' % (value / 1e6, unit)


def ratio(proved, plain, unit):
    """How fast the proved program is, of the plain one."""
    if not proved or not plain:
        return '-'
    return '%.2f' % (plain / proved if unit == 'ns' else proved / plain)


def share(ours, theirs):
    """How little the proved program takes, of the plain one: a ratio of instructions or bytes."""
    return '%.2f' % (theirs / ours) if ours and theirs else '-'


def few(value):
    """A number of instructions or bytes: with two places where it is small."""
    if value is None:
        return '-'
    return '%.2f' % value if value < 10 else format(round(value), ',')


HEAD = ('| %s | r10 | Plain | Ratio | Apart | Instructions: r10 | Plain | Ratio |\n'
        '|---|---|---|---|---|---|---|---|')


def print_row(words, times, spread, unit, counted):
    """A row: what is measured, its times, and its instructions where these were counted."""
    ours, theirs = times
    print('| %s | %s | %s | %s | %s | %s | %s | %s |' % (
        words, told(ours, unit), told(theirs, unit), ratio(ours, theirs, unit), '-' if ours is None else spread,
        few(counted[0]), few(counted[1]), share(*counted)))


def print_table(proved, plain, counted):
    """The table of the middle figures, with instructions by the names of their measures."""
    print(HEAD % 'Measure')
    for name, words, unit in MEASURES:
        (ours, spread), (theirs, other) = middle(proved, name), middle(plain, name)
        print_row(words, (ours, theirs), max(spread, other), unit, counted.get(name, (None, None)))


def print_lengths(proved, plain, counted):
    """The table of recording by the length of messages, with instructions by their lengths."""
    print(HEAD % 'Bytes of a message')
    for length in LENGTHS:
        name = 'length-%d' % length
        (ours, spread), (theirs, other) = middle(proved, name), middle(plain, name)
        print_row(format(length, ','), (ours, theirs), max(spread, other), 'messages/s', counted.get(length, (None, None)))


def differing(proved, plain):
    """What the programs do not agree on."""
    for name, words in SAME:
        seen = {run.get(name) for run in proved + plain}
        if len(seen) > 1:
            yield '%s differ: %s' % (words, sorted(map(str, seen)))


def first_line(words):
    """The first line that a program prints, or a dash where there is none."""
    try:
        return subprocess.run(words, cwd=TOP, stdout=subprocess.PIPE, stderr=subprocess.DEVNULL,
                              text=True).stdout.partition('\n')[0] or '-'
    except OSError:
        return '-'


def print_machine(words, before):
    """Where, when and of what the figures are."""
    lines = pathlib.Path('/proc/cpuinfo').read_text(encoding='utf-8').splitlines()
    model = next((line.partition(':')[2].strip() for line in lines if line.startswith('model name')), 'unknown')
    load = 'load %.1f before, %.1f after' % (before, os.getloadavg()[0])
    commit = first_line(['git', 'rev-parse', '--short', 'HEAD'])
    print('%s, %d processors, %s; %s; commit %s; %s.' % (model, os.cpu_count(), load,
                                                         time.strftime('%d %B %Y, %H:%M UTC', time.gmtime()), commit,
                                                  first_line(['rustc', '--version'])))
    print('%s messages; the middle one of %d runs of each program, in turn; processor time of the thread.\n' % (
        format(words.messages, ','), words.runs))


def spans(program, words, folder):
    """The instructions between two readings of the clock, by what is printed: a list for each part of the program that reads the
    clock before it prints. And what it prints."""
    log = pathlib.Path(folder) / '-'.join(['callgrind', program.name] + words)
    marks = ['--dump-before=%s' % name for name in ('clock_gettime*', 'write', '__write', 'writev')]
    text = output(['valgrind', '--tool=callgrind', '--combine-dumps=yes', '--callgrind-out-file=%s' % log] + marks + [program] +
                  words, stderr=subprocess.DEVNULL)
    found, here, mark = [], None, ''
    with log.open(encoding='utf-8', errors='replace') as lines:
        for line in lines:
            if line.startswith('desc: Trigger: '):
                mark = line
            elif line.startswith('totals: '):
                if 'clock_gettime' not in mark:
                    here = None
                elif here is None:
                    here = []
                    found.append(here)
                else:
                    here.append(int(line.split()[1]))
    log.unlink()
    return [it for it in found if it], text


def recorded(part):
    """The instructions of a recording in the proved program. Of each group of rounds the span of each round is timed, and the one
    behind the last, with the commit; then the stop."""
    size, (*groups, _, stop) = 2 * COMMITTED + 1, part
    return stop + sum(span for at, span in enumerate(groups)
                      if at % size % 2 == 0 and at % size < size - 1 or at % size == size - 2 or at == len(groups) - 1)


def proved_instructions(words, number, folder):
    """The instructions of each measure of the proved program, and its figures."""
    (small, recorder, replay, follow, wide, narrow, close, *judged), text = spans(words.proved, [str(number)], folder)
    found = {
        'copy': sum(small[0::3]), 'channel': sum(small[1::3]), 'recorder': recorded(recorder), 'check': replay[0],
        'replay': sum(replay[2:4]), 'replay-behind': sum(follow[9::12]) + sum(follow[10::12]), 'close': close[-1],
        'packets-20000': sum(wide[:-3:2]) + wide[-3], 'find-20000': wide[-1], 'find-2000': narrow[-1],
    }
    for (kind, size, channels, flags), judging in zip(FILES, judged):
        found['judge-%s-%d-%d-%d' % (KINDS[kind], channels, flags, size)] = judging[0]
    return found, proved_figures(text)


def plain_instructions(words, number, folder):
    """The same of the plain program."""
    (small, recorder, replay, follow, wide, found_wide, _, narrow, close, *judged), text = spans(words.plain, [str(number)], folder)
    found = {
        'copy': sum(small[0::4]), 'channel': sum(small[2::4]), 'recorder': sum(recorder[::2]), 'check': replay[0],
        'replay': replay[2], 'replay-behind': sum(follow[::2]), 'close': close[-1],
        'packets-20000': sum(wide[::2]), 'find-20000': found_wide[0], 'find-2000': narrow[0],
    }
    for (kind, size, channels, flags), judging in zip(FILES, judged):
        found['judge-%s-%d-%d-%d' % (KINDS[kind], channels, flags, size)] = judging[0]
    return found, plain_figures(text)


def instructions(words):
    """Instructions of each measure: those of a run with more messages, less those of one with fewer, by the difference of messages,
    or of the bytes of the file where it is judged. Those of a search, and of a packet in the index, are of the larger run alone.
    Both programs run side by side."""
    with tempfile.TemporaryDirectory() as folder, concurrent.futures.ThreadPoolExecutor(2) as both:
        asked = [[both.submit(count, words, number, folder) for number in COUNTED]
                 for count in (proved_instructions, plain_instructions)]
        runs = [[it.result() for it in of_one] for of_one in asked]
    files = [figures['recorder-file'] for _, figures in runs[0]]
    found = {}
    for name, _, _ in MEASURES:
        pair = []
        for (fewer, _), (more, _) in runs:
            if name.startswith('find'):
                pair.append(more[name] / SEARCHES)
            elif name == 'close':
                pair.append(more[name] / COUNTED[1])
            elif name == 'check':
                pair.append((more[name] - fewer[name]) / (files[1] - files[0]))
            elif name.startswith('judge'):
                pair.append((more[name] - fewer[name]) / (64 * (COUNTED[1] - COUNTED[0])))
            else:
                pair.append((more[name] - fewer[name]) / (COUNTED[1] - COUNTED[0]))
        found[name] = tuple(pair)
    return found


def length_instructions(words):
    """Instructions a message by its length: those of a run with more messages, less those of one with fewer."""
    sent = [re.findall(LENGTH_LINES, output([words.proved, 'lengths', number])) for number in COUNTED_BY_LENGTH]
    with tempfile.TemporaryDirectory() as folder, concurrent.futures.ThreadPoolExecutor(2) as both:
        ours = [both.submit(spans, words.proved, ['lengths', str(number)], folder) for number in COUNTED_BY_LENGTH]
        theirs = [both.submit(spans, words.plain, [str(number), 'lengths'], folder) for number in COUNTED_BY_LENGTH]
        ours = [[recorded(part) for part in it.result()[0]] for it in ours]
        theirs = [[sum(part[::2]) for part in it.result()[0]] for it in theirs]
    found = {}
    for at, (less, more) in enumerate(zip(*sent)):
        number = int(more[2]) - int(less[2])
        if number > 0:  # (of the longest there are as many in both)
            found[int(more[0])] = tuple((it[1][at] - it[0][at]) / number for it in (ours, theirs))
    return found


def most_asked(program, parts, shim, line):
    """How many bytes a program asks for at most, beyond those that it has, until it prints a line that begins so; and the text that
    it prints."""
    ended = subprocess.run([str(program)] + parts, stdout=subprocess.PIPE, stderr=subprocess.PIPE,
                           env={**os.environ, 'LD_PRELOAD': str(shim)})
    if ended.returncode:
        sys.exit('bench: %s: status %d' % (program, ended.returncode))
    text = ended.stdout.decode()
    at = 0 if text.startswith(line) else text.index('\n' + line) + 1
    asked = [(0, 0, 0)] + [tuple(map(int, it.split(b' ')[1:])) for it in ended.stderr.splitlines() if it.startswith(b'asked ')]
    for (had, _, _), (_, most, written) in zip(asked, asked[1:]):
        if written == at:
            return most - had, text
    return None, text


def medium_of(messages, size):
    """The bytes of the medium on which so many messages of so many bytes are recorded, in both programs."""
    return ((117 + size) * messages // 512 + 64) * 512


def print_memory(words):
    """What is asked for at most: beyond the medium by a recording, an entry of a replay in one instalment beyond what the recorder
    and its medium had, and a packet of a file of packets of one message each."""
    number = words.messages
    with tempfile.TemporaryDirectory() as folder:
        shim = pathlib.Path(folder) / 'count_malloc.so'
        subprocess.run([os.environ.get('CC', 'cc'), '-O2', '-shared', '-fPIC', '-o', shim, TOP / 'bench' / 'count_malloc.c'],
                       check=True)
        ours, text = most_asked(words.proved, [str(number)], shim, 'replay-entries ')
        theirs, other = most_asked(words.plain, [str(number), 'replay'], shim, 'check ')
        entries = proved_figures(text)['replay-entries'], plain_figures(other)['replay-entries']
        recorded = [most_asked(words.proved, [str(number)], shim, 'recorder-length ')[0],
                    most_asked(words.plain, [str(number), 'record'], shim, 'recorder ')[0]]
        packets = [most_asked(words.proved, ['close', str(number)], shim, 'close-packets ')[0],
                   most_asked(words.plain, [str(number), 'close'], shim, 'close ')[0]]
    each = [most / count for most, count in zip((ours, theirs), entries)]
    beyond = [(most - medium_of(number, 32)) / 1e6 for most in recorded]
    books = [(most - medium_of(number, 32)) / 1e6 for most in packets]
    print('\n| Memory asked for at most | r10 | Plain | Ratio |\n|---|---|---|---|')
    print('| replay of %s entries in one instalment, bytes an entry | %.0f | %.0f | %s |' % (
        format(entries[0], ','), *each, share(*each)))
    print('| recording %s messages of 32 bytes and its stop, MB beyond the medium | %.2f | %.2f | %s |' % (
        format(number, ','), *beyond, share(*beyond)))
    print('| recording %s packets of one message each, and their index, MB beyond the medium | %.1f | %.1f | %s |' % (
        format(number, ','), *books, share(*books)))


def main(words):
    parser = argparse.ArgumentParser(description=__doc__, formatter_class=argparse.RawDescriptionHelpFormatter)
    parser.add_argument('messages', nargs='?', type=int, default=1000000)
    parser.add_argument('--proved', type=pathlib.Path, default=PROVED)
    parser.add_argument('--plain', type=pathlib.Path, default=PLAIN)
    parser.add_argument('--runs', type=int, default=3)
    parser.add_argument('--instructions', action='store_true')
    parser.add_argument('--memory', action='store_true')
    parser.add_argument('--lengths', action='store_true')
    words = parser.parse_args(words)
    if not words.proved.is_file():
        sys.exit('bench: there is no %s: scripts/build/build.py --crate r10_bench makes it' % words.proved)
    if words.plain == PLAIN:
        subprocess.run(['cargo', 'build', '--release', '--offline', '--quiet'], cwd=TOP / 'bench', check=True)
    before, proved, plain, first = os.getloadavg()[0], [], [], state_of(words.plain)
    for _ in range(words.runs):
        if words.lengths:
            proved.append(figures_by_length(output([words.proved, 'lengths', words.messages])))
            plain.append(plain_figures(output([words.plain, words.messages, 'lengths'])))
        else:
            proved.append(proved_figures(output([words.proved, words.messages])))
            plain.append(plain_figures(output([words.plain, words.messages])))
    print_machine(words, before)
    print('The machine, a second: %s before, %s after.\n' % (first, state_of(words.plain)))
    if words.lengths:
        print_lengths(proved, plain, length_instructions(words) if words.instructions else {})
        return 0
    print_table(proved, plain, instructions(words) if words.instructions else {})
    wrong = list(differing(proved, plain))
    for line in wrong:
        print(line)
    if words.memory:
        print_memory(words)
    return int(bool(wrong))


if __name__ == '__main__':
    sys.exit(main(sys.argv[1:]))
