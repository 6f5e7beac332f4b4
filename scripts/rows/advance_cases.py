#!/usr/bin/env python3
"""Makes the row of `r10 sim` that advances over a file of 257 messages, and compares the program with a scan of that file.

    scripts/rows/advance_cases.py cases          # what stands in rows/cases as `== advanced-over-257-messages`
    scripts/rows/advance_cases.py answers        # the same of rows/answers
    scripts/rows/advance_cases.py kept           # fails where one of these files has another in its place
    scripts/rows/advance_cases.py run PROGRAM    # the same advances over each of the three channels too, and every entry is read:
                                                 # says what differs

The file has a time, at count 1000, and a message on channel 6 at each count from 1000 to 1256; nothing is on channel 7. Each count
from 999 to 1258 is the first of a range, and the last of another: 520 advances of a cursor. How many entries come, and which, is
what a scan over that list leaves. Nothing is taken from the recorder.
"""
import pathlib
import subprocess
import sys
from collections.abc import Iterator

TOP = pathlib.Path(__file__).resolve().parents[2]
sys.path[1:1] = map(str, [TOP, *(TOP / 'scripts').iterdir()])  # modules of the other folders

from check_cases import print_rows  # noqa: E402

HEAD = """blocks = 64
directory = 2
volume = "VOL"
nodes = 100
time = 1
event = 2
channel = [
    { id = 5, kind = "uart", capacity = 2, check = 0, bytes = 524288, number = 65535 },
    { id = 6, kind = "uart", capacity = 4, check = 0, bytes = 524288, number = 65535 },
]
step = [
"""
MOST = 2 ** 48 - 1
COUNTS = range(999, 1259)
WHOLE = [(1000, 1, 'entry 1 1000 0 time 2024-02-29 12:34:56.78')] + [(1000 + at, 6, 'entry 6 %d 0 uart 0 0 78' % (1000 + at))
                                                                     for at in range(257)]

Step = tuple[str, str]


def recorded() -> Iterator[Step]:
    """The steps that record the file, each with its reply."""
    yield '{ do = "mount" }', 'ok'
    yield '{ do = "tick", count = 1000, civil = "2024-02-29 12:34:56.78" }', 'ok'
    yield '{ do = "start", name = "FLT1", setup = "41424344" }', 'ok'
    for at in range(257):
        yield '{ do = "offer", channel = 6, count = %d, bytes = "78" }' % (1000 + at), 'ok'
        yield '{ do = "pump", channel = 6, k = 1 }', 'moved 1'
        yield '{ do = "commit" }', 'ok'
    yield '{ do = "stop" }', 'stopped 0 0'


def scanned(channels: list[int], first: int, last: int) -> list[str]:
    """The entries of these channels from one count to another, by count, then channel."""
    return [line for count, channel, line in sorted(WHOLE) if channel in channels and first <= count <= last]


def advanced(channels: list[int], first: int, last: int, most: int) -> Iterator[Step]:
    """The steps of one cursor: it is advanced once, and at most so many entries are read."""
    found = scanned(channels, first, last)
    yield '{ do = "cursor", file = 0, channels = %s, from = %d, to = %d }' % (channels, first, last), 'cursor 0'
    yield '{ do = "advance", id = 0 }', 'advanced %d' % len(found)
    for line in (found + ['none'])[:most]:
        yield '{ do = "next", id = 0 }', line
    yield '{ do = "close", id = 0 }', 'ok'


def over(channels: list[int], most: int) -> Iterator[Step]:
    """The steps of all cursors on these channels."""
    for count in COUNTS:
        yield from advanced(channels, count, MOST, most)
        yield from advanced(channels, 0, count, most)


def script_of(steps: list[Step]) -> str:
    return HEAD + ''.join('    %s,\n' % step for step, _ in steps) + ']\n'


def lines_of(steps: list[Step]) -> str:
    return ''.join('%d %s\n' % (at, reply) for at, (_, reply) in enumerate(steps, 1))


def rows() -> Iterator[tuple[str, list[Step]]]:
    yield 'advanced-over-257-messages', [*recorded(), *over([1, 6, 7], 1)]


def case_text(name: str, steps: list[Step]) -> str:
    return '== %s sim\n0\n%s' % (name, script_of(steps))


def answer_text(name: str, steps: list[Step]) -> str:
    return '== %s sim\n0\n%s' % (name, lines_of(steps))


def run(program: str) -> int:
    """Runs the program over cursors on all three channels and on each by itself, which read all, and answers how many lines
    differ."""
    bad = advances = entries = 0
    for channels in ([1, 6, 7], [1], [6], [7]):
        steps = [*recorded(), *over(channels, MOST)]
        done = subprocess.run([program, 'sim'], input=script_of(steps), capture_output=True, text=True, check=False)
        came, wanted = done.stdout.splitlines(), lines_of(steps).splitlines()
        bad += sum(one != other for one, other in zip(came, wanted)) + abs(len(came) - len(wanted)) + (done.returncode != 0)
        advances += 2 * len(COUNTS)
        entries += sum(reply.startswith('entry') for _, reply in steps)
    print('%d advances, %d entries read, %d lines that differ from a scan' % (advances, entries, bad))
    return bad


def main(words: list[str]) -> int:
    if words[:1] == ['run'] and len(words) == 2:
        return run(words[1]) > 0
    return print_rows(words, rows(), case_text, answer_text, __doc__)


if __name__ == '__main__':
    sys.exit(main(sys.argv[1:]))
