#!/usr/bin/env python3
"""Ranges of time by an index: that beside a recording, and its own one.

    scripts/trials/ch10_index.py many [COUNT [SEED]]    # so many recordings, else 300, from seed 1
    scripts/trials/ch10_index.py large GIBIBYTES FOLDER # a recording of that size, most of it holes, with an index of its own and
                                                        # without; how long a second of it takes, and how many bytes are read

What a call answers by an index (its status, its bytes, its lines) has to be what it answers where it walks the recording.
"""
import contextlib
import io
import json
import os
import pathlib
import random
import shutil
import subprocess
import sys
import tempfile
import time
from typing import Callable, Iterator, List, Optional, Tuple

sys.dont_write_bytecode = True
TOP = pathlib.Path(__file__).resolve().parents[2]
sys.path[1:1] = map(str, [TOP, *(TOP / 'scripts').iterdir()])  # modules of the other folders

from ch10.python import with_numpy  # noqa: E402

if __name__ == '__main__':
    with_numpy()
from ch10 import command, kept, survey, walk  # noqa: E402
from ch10.inputs import Source  # noqa: E402
import ch10_damage  # noqa: E402
import ch10_others  # noqa: E402
import ch10_recordings  # noqa: E402
import ch10_times  # noqa: E402
import check_cases  # noqa: E402
import play_cases  # noqa: E402
from ch10_recordings import BY_CHANNEL, CHANNELS, SECOND, Maker, civil_body  # noqa: E402
from check_cases import loss, number  # noqa: E402
from ch10_types import Found  # noqa: E402

Answer = Tuple[int, bytes, Optional[str]]
START = 1000


# ---- recordings

def strict_flight(draw: random.Random, packets: int = 300) -> List[bytes]:
    """The packets of a recording over all kinds, some after losses with their reports; the counts of a channel rise from packet to
    packet, and packets of different channels overlap."""
    make, count, low = Maker(), START, {}
    make.put(0, 0x01, count, number(0x0C, 4) + ch10_recordings.SETUP_TEXT)
    last_time = count
    moment = ch10_recordings.datetime.datetime(2024, 2, 29, 12, 34, 56)
    while len(make.parts) < packets:
        if (count - START) % SECOND == 0:
            last_time = count
            make.put(1, 0x11, count, civil_body(moment + ch10_recordings.datetime.timedelta(seconds=(count - START) // SECOND)))
        channel = draw.choice(CHANNELS)
        begin = max(low.get(channel, 0), count - draw.choice((0, SECOND // 10)))
        some = sorted(draw.randrange(begin, count + SECOND // 20) for _ in range(draw.randint(1, 12)))
        low[channel] = some[-1]
        kind, flags = BY_CHANNEL[channel], 0
        if draw.random() < 0.2:
            flags = 0x10
            make.put(0, 0x00, last_time, loss(channel, draw.randrange(1, 5)))
        make.put(channel, kind.data_type, some[0], kind.flight_body(draw, some), draw.choice((0, 1, 2, 3)), flags=flags)
        count += SECOND // 20
    return make.parts


def closed(parts: List[bytes], each: int = 3, entries: int = 10) -> bytes:
    """A recording with its own index."""
    sequence = sum(part[2:4] == b'\0\0' for part in parts)
    last = [part for part in parts if part[15] == 0x11][-1]
    return b''.join(parts + check_cases.index_of(parts, int.from_bytes(last[16:22], 'little'), sequence, each, entries))


def others() -> Iterator[bytes]:
    """Recordings of the rows, of other recorders, of two sessions, and with messages in segments."""
    yield from (play_cases.FIRST, play_cases.KINDS, b''.join(check_cases.lost()), b''.join(check_cases.told(70000)))
    yield b''.join(ch10_recordings.foreign())
    yield ch10_times.two_flights()
    yield ch10_times.two_flights(True)
    long = random.Random('segments').randbytes(70001)
    yield b''.join(ch10_others.opened() + ch10_others.segments_of(long, (65535, 4466), 0, 3000)
                   + ch10_others.segments_of(b'two parts', (4, 5), 2, 5000))
    yield from (play_cases.FIRST[:250], check_cases.flipped(play_cases.KINDS, 190, 1), play_cases.FIRST[68:])


# ---- calls

@contextlib.contextmanager
def small() -> Iterator[str]:
    """A folder, in which an index is kept of recordings of any size."""
    before = kept.LEAST, kept.SAMPLES, kept.EACH, kept.END
    kept.LEAST, kept.SAMPLES, kept.EACH, kept.END = 0, 2, 16, 64  # so that a sample is not all of a recording
    folder = tempfile.mkdtemp()
    try:
        yield folder
    finally:
        kept.LEAST, kept.SAMPLES, kept.EACH, kept.END = before
        os.chmod(folder, 0o755)
        shutil.rmtree(folder)


class Walks:
    """How many recordings were walked."""

    def __init__(self) -> None:
        self.number, self.go = 0, survey.Survey.go_to

    def __enter__(self) -> 'Walks':
        def counted(*words: object) -> None:
            self.number += 1
            self.go(*words)  # type: ignore[arg-type]

        survey.Survey.go_to = counted  # type: ignore[method-assign,assignment]
        return self

    def __exit__(self, *_: object) -> None:
        survey.Survey.go_to = self.go  # type: ignore[method-assign]


def answer(words: List[str], path: str) -> Answer:
    """What a call answers of a file."""
    data, to = pathlib.Path(path).read_bytes(), io.BytesIO()
    state = os.stat(path)
    status, line = command.answer(words, lambda: data, lambda: to, None, lambda: Source(path, state.st_size, state.st_mtime_ns))
    return status, to.getvalue(), line


def windows(draw: random.Random, data: bytes, path: str) -> List[str]:
    """The words of a range: from an entry's count or time to another's, or one unit beside it."""
    lines = answer(['csv', '--raw', '--keep-going', '--walk'], path)[1].decode().splitlines()[1:]
    if not lines:
        return ['--from', '0', '--to', '2000']
    cells = [line.split(',') for line in (draw.choice(lines), draw.choice(lines))]
    if draw.random() < 0.5 or not all(cell[2] for cell in cells):
        low, high = sorted(max(int(cell[1]) + draw.choice((-1, 0, 0, 1)), 0) for cell in cells)
        return [['--from', str(low)], ['--to', str(high)], ['--from', str(low), '--to', str(high)]][draw.choice((0, 1, 2, 2))]
    low_time, high_time = sorted(cell[2] for cell in cells)
    return ['--from', low_time, '--to', high_time]


CALLS = (['csv'], ['json'], ['range'], ['csv', '--raw'], ['csv', '--quality', '--channel', '5'], ['json', '--kind', 'discrete'])


def by_ways(draw: random.Random, data: bytes, folder: str) -> Tuple[List[str], int, int]:
    """What does not agree of calls that walk a recording, that make its index, and that read it; and how many walks the second and
    the third made."""
    path, wrong = os.path.join(folder, 'flight.ch10'), []
    pathlib.Path(path).write_bytes(data)
    words = draw.choice(CALLS) + windows(draw, data, path) + draw.choice(([], ['--keep-going']))
    wanted = answer(words + ['--walk'], path)
    made = []
    for way in ('first', 'second'):
        with Walks() as walks:
            said = answer(words, path)
        made.append(walks.number)
        if said != wanted:
            wrong.append('%s %s: %.300r, wanted %.300r' % (words, way, said, wanted))
    for name in os.listdir(folder):
        os.unlink(os.path.join(folder, name))
    return wrong, made[0], made[1]


# ---- what is compared

def kept_beside() -> Found:
    """An index that is made and read, of recordings of the rows, of others, and of damaged ones: the same answers, and no walk the
    second time."""
    draw, wrong, walked = random.Random('kept'), [], set()
    with small() as folder:
        some = list(others())
        for data in some + [ch10_damage.touched(draw, strict_flight(draw, 80))[0] for _ in range(6)]:
            bad, first, second = by_ways(draw, data, folder)
            wrong += bad
            walked.add(second)
    return (wrong, walked), ([], {0})


def damaged_both_ways() -> Found:
    """A damaged recording that is asked with --keep-going and without, in both orders: each has an index of its own."""
    found = []
    with small() as folder:
        path = os.path.join(folder, 'flight.ch10')
        for first in (0, 1):
            parts = strict_flight(random.Random('both'), 60)
            parts[30] = bytes(len(parts[30]))
            pathlib.Path(path).write_bytes(b''.join(parts))
            ways = [['csv', '--from', '1000'], ['csv', '--from', '1000', '--keep-going']]
            for words in (ways[first], ways[1 - first], ways[first], ways[1 - first]):
                with Walks() as walks:
                    said = answer(words, path)
                found.append((said == answer(words + ['--walk'], path), walks.number))
            found.append((sorted(os.listdir(folder)), 0))
            for name in os.listdir(folder):
                os.unlink(os.path.join(folder, name))
    return found, ([(True, 1), (True, 1), (True, 0), (True, 0),
                    (['flight.ch10', 'flight.ch10.idx', 'flight.ch10.until.idx'], 0)] * 2)


def own_index(seeds: int = 6) -> Found:
    """The index at the end of a recording: the same answers with no walk at all, also at the edges of packets, right after losses,
    and of states whose packet before lies outside the range."""
    wrong, walked = [], set()
    with small() as folder:
        for seed in range(seeds):
            draw = random.Random('own %d' % seed)
            bad, first, _ = by_ways(draw, closed(strict_flight(draw, draw.choice((40, 150))), draw.choice((1, 3, 50)),
                                                 draw.choice((7, 100))), folder)
            wrong += bad
            walked.add(first)
    return (wrong, walked), ([], {0})


def at_the_edges() -> Found:
    """Ranges that begin and end at each entry of a recording with its own index, and one unit beside it, by counts and by civil
    times: the lines of the whole that lie in them."""
    draw, wrong, walks = random.Random('edges'), [], 0
    data = closed(strict_flight(draw, 40))
    with small() as folder:
        path = os.path.join(folder, 'flight.ch10')
        pathlib.Path(path).write_bytes(data)
        head, *lines = answer(['csv', '--raw'], path)[1].decode().splitlines()
        cells = [line.split(',')[1:3] for line in lines]
        for first in range(0, len(cells), 25):
            for side in (0, 1):
                other = min(first + draw.randrange(20), len(cells) - 1)
                low, high = int(cells[first][0]) + side, int(cells[other][0]) - draw.choice((0, 1))
                early, late = cells[first][1], cells[other][1]
                for words, has in ((['--from', str(low), '--to', str(high)], lambda cell: low <= int(cell[0]) <= high),
                                   (['--from', early, '--to', late], lambda cell: early <= cell[1] <= late)):
                    wanted = [line for line, cell in zip(lines, cells) if has(cell)]
                    with Walks() as found:
                        said = answer(['csv', '--raw'] + words, path)[1].decode().splitlines()
                        cut = answer(['range'] + words, path)
                    walks += found.number
                    if said != [head] + wanted:
                        wrong.append('csv %s: %.300r, wanted %.300r' % (words, said, wanted))
                    if cut != answer(['range', '--walk'] + words, path):
                        wrong.append('range %s' % words)
    return (wrong, walks), ([], 0)


def damaged_within() -> Found:
    """A recording with its own index that is damaged where it is read: it is walked, and answers what a walk does."""
    wrong, walked = [], 0
    with small() as folder:
        path = os.path.join(folder, 'flight.ch10')
        for seed in range(10):
            draw = random.Random('within %d' % seed)
            parts = [part for part in strict_flight(draw, 60)]
            data = closed(parts)
            place = draw.randrange(2, len(parts))
            while parts[place][14] & 3 == 0:
                place = draw.randrange(2, len(parts))
            at = sum(map(len, parts[:place]))
            count = int.from_bytes(parts[place][16:22], 'little')
            data = ch10_damage.turned(data, 8 * at + draw.randrange(8 * len(parts[place])))
            pathlib.Path(path).write_bytes(data)
            words = draw.choice(CALLS) + ['--from', str(max(count - 1000, 0)), '--to', str(count + 10)]
            with Walks() as walks:
                said = answer(words, path)
            walked += walks.number
            if said != answer(words + ['--walk'], path):
                wrong.append('%d %s' % (seed, words))
            for name in os.listdir(folder):
                os.unlink(os.path.join(folder, name))
    return (wrong, walked), ([], 10)


def stale() -> Found:
    """An index of what the file was before: of other bytes in its sample, of another size or time, of bytes of the range that the
    sample has not, or of two packets in place of one there; one of another recording; and one that is cut off or has a bit turned.
    Each is made anew."""
    draw, found = random.Random('stale'), []
    with small() as folder:
        path = os.path.join(folder, 'flight.ch10')
        beside = path + '.idx'
        parts = strict_flight(draw, 200)
        data = b''.join(parts)
        places = [place for place, part in enumerate(parts) if part[14] & 3 and place > 150]
        count = int.from_bytes(parts[places[0]][16:22], 'little')
        words = ['csv', '--keep-going', '--from', str(count), '--to', str(count + SECOND)]

        def made(octets: bytes, changed: int) -> Tuple[bytes, Answer]:
            pathlib.Path(path).write_bytes(octets)
            os.utime(path, ns=(changed, changed))
            said = answer(words, path)
            return pathlib.Path(beside).read_bytes(), said

        index, _ = made(data, 10 ** 18)
        other = b''.join(strict_flight(random.Random('other'), 200))
        foreign = made(other, 10 ** 18)[0]
        in_range = sum(map(len, parts[:places[0]])) + 30
        turned = [ch10_damage.turned(data, 8 * in_range), ch10_damage.turned(data, 8 * 40)]
        cases = [(data, 10 ** 18, foreign), (data, 10 ** 18 + 1, index), (data + parts[-1], 10 ** 18, index)]
        cases.append((other, 10 ** 18, index))
        size = len(parts[places[0]])
        two = ch10_recordings.summed(99, 0, 0x09, count, bytes(4)) + ch10_recordings.summed(99, 1, 0x09, count, bytes(size - 52))
        turned.append(data[:in_range - 30] + two + data[in_range - 30 + size:])
        cases += [(one, 10 ** 18, index) for one in turned]
        cases += [(data, 10 ** 18, ch10_damage.turned(index, draw.randrange(8 * len(index)))) for _ in range(6)]
        cases += [(data, 10 ** 18, index[:draw.randrange(len(index))]) for _ in range(3)] + [(data, 10 ** 18, b'')]
        for octets, changed, before in cases:
            pathlib.Path(path).write_bytes(octets)
            os.utime(path, ns=(changed, changed))
            pathlib.Path(beside).write_bytes(before)
            with Walks() as walks:
                said = answer(words, path)
            with Walks() as again:
                same = answer(words, path)
            found.append((walks.number, again.number, said == same == answer(words + ['--walk'], path)))
    return found, [(1, 0, True)] * len(found)


def not_written() -> Found:
    """A folder that cannot be written to, and an index that is a folder: no error, and nothing left behind."""
    draw = random.Random('not written')
    with small() as folder:
        path = os.path.join(folder, 'flight.ch10')
        pathlib.Path(path).write_bytes(b''.join(strict_flight(draw, 60)))
        words = ['csv', '--from', '1000', '--to', '9000000']
        wanted = answer(words + ['--walk'], path)
        os.mkdir(path + '.idx')
        first = answer(words, path), sorted(os.listdir(folder))
        os.rmdir(path + '.idx')
        real, kept.tempfile.NamedTemporaryFile = kept.tempfile.NamedTemporaryFile, refused  # type: ignore[attr-defined,assignment]
        try:
            second = answer(words, path), sorted(os.listdir(folder))
        finally:
            kept.tempfile.NamedTemporaryFile = real  # type: ignore[attr-defined]
    return (first, second), ((wanted, ['flight.ch10', 'flight.ch10.idx']), (wanted, ['flight.ch10']))


def refused(*_: object, **__: object) -> None:
    raise PermissionError(13, 'Permission denied')


def of_an_image() -> Found:
    """Of an image each file has an index of its own; and a call from the shell finds the file that it reads."""
    draw = random.Random('image')
    with small() as folder:
        path = os.path.join(folder, 'medium.img')
        pathlib.Path(path).write_bytes(play_cases.alone(closed(strict_flight(draw, 60))))
        words = ['csv', '--file', '0', '--from', '1000', '--to', '9000000', '--keep-going']
        wanted = answer(words + ['--walk'], path)
        with Walks() as walks:
            said = answer(words, path)
    return (said == wanted, walks.number, wanted[0]), (True, 0, 0)


def by_the_shell() -> Found:
    """A call from the shell keeps the index of a file of eight megabytes beside it, and answers the same; with --walk none."""
    draw = random.Random('shell')
    with tempfile.TemporaryDirectory() as folder:
        path = os.path.join(folder, 'flight.ch10')
        parts = strict_flight(draw, 200)
        count = int.from_bytes(parts[-1][16:22], 'little')
        filler = [ch10_recordings.summed(99, place & 0xFF, 0x09, count, bytes(500000), 0) for place in range(18)]
        pathlib.Path(path).write_bytes(b''.join(parts + filler))
        said = []
        for more in (['--walk'], [], []):
            with open(path, 'rb') as held:
                done = subprocess.run([sys.executable, str(TOP / 'scripts' / 'ch10.py'), 'csv', '--from', '1000', '--to', '9000000']
                                      + more, stdin=held, capture_output=True)
            said.append((done.returncode, done.stdout, done.stderr, sorted(os.listdir(folder))))
    return ([one[:3] == said[0][:3] for one in said], [one[3] for one in said], said[0][0]), (
        [True] * 3, [['flight.ch10'], ['flight.ch10', 'flight.ch10.idx'], ['flight.ch10', 'flight.ch10.idx']], 0)


def all_of(data: bytes) -> object:
    """All that a walk over a recording finds."""
    made = survey.Survey(data, 0, len(data))
    columns = [list(getattr(made, name)) for name in ('lows', 'highs', 'places', 'of')]
    return (json.dumps(kept.fields(made)), columns, dict(made.states_before()), made.segments.firsts, made.latest,
            sorted(made.timing.sessions.last.items()))


def changed(part: bytes, at: int, value: bytes) -> bytes:
    """A packet with other bytes in its header, and the checksum of that."""
    part = part[:at] + value + part[at + len(value):]
    return part[:22] + number(sum(int.from_bytes(part[at:at + 2], 'little') for at in range(0, 22, 2)) & 0xFFFF, 2) + part[24:]


def counted_back(draw: random.Random, parts: List[bytes]) -> List[bytes]:
    """The packets with the counters of a channel, or of all, set back from one on, after a setup or without one, and sequence
    numbers as they were."""
    first, by = draw.randrange(10, len(parts) - 6), draw.choice((SECOND // 2, SECOND, 3 * SECOND, 9 * SECOND))
    channel = draw.choice((None, part_channel(parts[first])))
    back = [changed(part, 16, number(max(int.from_bytes(part[16:22], 'little') - by, 0), 6))
            if place >= first and channel in (None, part_channel(part)) else part for place, part in enumerate(parts)]
    setup = first - draw.choice((0, 6, 9))
    return back[:setup] + draw.choice(([], [parts[0]])) + back[setup:]


def part_channel(part: bytes) -> int:
    return int.from_bytes(part[2:4], 'little')


def reaching_over(draw: random.Random, parts: List[bytes]) -> List[bytes]:
    """The packets, of which one without a data checksum says that it reaches into the next one."""
    able = [place for place, part in enumerate(parts[:-2]) if part[14] & 3 == 0 and place > 10]
    place = draw.choice(able)
    parts[place] = changed(parts[place], 4, number(len(parts[place]) + 24, 4))
    return parts


def runs(count: int = 40) -> Found:
    """A walk that adds many packets at once finds what one does that looks at each, of recordings of the rows, of others, of two
    sessions, and of damaged ones."""
    draw, wrong, many = random.Random('runs'), [], 0
    some = list(others())
    for place in range(count):
        parts = strict_flight(draw, draw.randrange(20, 120))
        if place % 2:
            parts = parts[:30] + ch10_recordings.flight(draw, 100, draw.randrange(256)) + parts[30:]
        if place % 4 == 3:
            part = draw.choice(parts)
            parts.insert(draw.randrange(len(parts)), part)
        if place % 5 in (1, 4):
            parts = counted_back(draw, parts)
        if place % 5 == 2:
            parts = reaching_over(draw, parts)
        some.append(ch10_damage.touched(draw, parts)[0] if place % 3 else b''.join(parts))
    for data in some:
        found, before = [], walk.RUN
        for walk.RUN in (before, 1 << 60):
            found.append(all_of(data))
        walk.RUN = before
        many += len(data)
        if found[0] != found[1]:
            wrong.append('%.200r, %.200r' % next((one, two) for one, two in zip(*found) if one != two))
    return (wrong, many > 500000), ([], True)


TRIALS: List[Callable[[], Found]] = [kept_beside, damaged_both_ways, own_index, at_the_edges, damaged_within, stale,
                                     not_written, of_an_image, by_the_shell, runs]


# ---- by hand

def many(count: int, seed: int) -> int:
    wrong: List[str] = []
    walked = [0, 0]
    with small() as folder:
        for place in range(count):
            draw = random.Random('%d %d' % (seed, place))
            parts = strict_flight(draw, draw.randrange(20, 400))
            data = closed(parts) if draw.random() < 0.5 else ch10_damage.touched(draw, parts)[0]
            bad, first, second = by_ways(draw, data, folder)
            wrong += bad
            walked = [walked[0] + first, walked[1] + second]
    print('\n'.join(wrong[:20]))
    print('%d recordings, %d not the same; %d walked at first, %d again' % (count, len(wrong), walked[0], walked[1]))
    return bool(wrong)


def large(size: int, folder: str) -> int:
    """Ten megabytes a second of traffic, most of it long messages whose bytes are holes; entries of other kinds between them."""
    draw, path = random.Random('large'), os.path.join(folder, 'large.ch10')
    moment = ch10_recordings.datetime.datetime(2024, 2, 29, 12, 34, 56)
    sequence, nodes, at, count = {}, [], 0, START
    hollow = 65000

    def put(held: io.BufferedIOBase, channel: int, kind: int, counter: int, body: bytes, check: int = 2, rest: int = 0) -> None:
        nonlocal at
        place = sequence[channel] = (sequence.get(channel, -1) + 1) & 0xFF
        part = ch10_recordings.summed(channel, place, kind, counter, body + bytes(rest), check if not rest else 0)
        nodes.append(part[16:22] + bytes(2) + part[2:4] + part[15:16] + bytes(1) + number(at, 8))
        held.seek(at)
        held.write(part[:len(part) - rest] if rest else part)
        at += len(part)

    with open(path, 'wb') as held:
        put(held, 0, 0x01, count, number(0x0C, 4) + ch10_recordings.SETUP_TEXT)
        while at < size << 30:
            if (count - START) % SECOND == 0:
                past = ch10_recordings.datetime.timedelta(seconds=(count - START) // SECOND)
                put(held, 1, 0x11, count, civil_body(moment + past))
            for channel in (5, 7, 8, 9):
                kind = BY_CHANNEL[channel]
                put(held, channel, kind.data_type, count, kind.flight_body(draw, [count + 1000 * place for place in range(40)]))
            for place in range(15):
                put(held, 6, 0x30, count + place, number(1, 4) + number(count + place, 8) + number(hollow, 4), rest=hollow)
            count += SECOND // 10
        end = at
        held.truncate(end)
    bare = os.path.join(folder, 'bare.ch10')
    subprocess.run(['cp', '--sparse=always', path, bare], check=True)
    with open(path, 'r+b') as held:
        held.seek(end)
        held.write(b''.join(index_of_nodes(nodes, end, count // SECOND * SECOND, sequence[0] + 1)))
    middle = moment + ch10_recordings.datetime.timedelta(seconds=(count - START) // SECOND // 2)
    words = ['--from', str(middle), '--to', str(middle + ch10_recordings.datetime.timedelta(seconds=1))]
    print('%d bytes, %d packets' % (end, len(nodes)))
    for name, file in (('by its own index', path), ('walked, and its index kept', bare), ('by the index kept', bare)):
        for call in ('csv', 'range'):
            began = time.monotonic()
            with open(file, 'rb') as source:
                made = subprocess.Popen([sys.executable, str(TOP / 'scripts' / 'ch10.py'), call] + words, stdin=source,
                                        stdout=subprocess.PIPE)
                said = made.communicate()[0]
            print('%s of a second, %s: %.2f s passed, %d bytes answered' % (call, name, time.monotonic() - began, len(said)))
            if name == 'walked, and its index kept':
                break
    return 0


def index_of_nodes(nodes: List[bytes], end: int, counter: int, sequence: int) -> Iterator[bytes]:
    """Index packets for some entries, in groups of a hundred nodes."""
    before: Optional[int] = None
    some = [nodes[first:first + 100] for first in range(0, len(nodes), 100)]
    for first in range(0, len(some), 100):
        made = [check_cases.packet(0, (sequence + first + place) & 0xFF, 0x03, counter,
                                   number(1 << 31 | len(one), 4) + b''.join(one))
                for place, one in enumerate(some[first:first + 100])]
        root = check_cases.root_of(made, end, counter, 0, before=before)
        before = end + sum(map(len, made))
        end = before + len(root)
        yield from made + [root]


def main(words: List[str]) -> int:
    if words[:1] == ['many']:
        return many(*(list(map(int, words[1:])) + [300, 1][len(words) - 1:]))
    if len(words) == 3 and words[0] == 'large':
        return large(int(words[1]), words[2])
    print(__doc__)
    return 2


if __name__ == '__main__':
    sys.exit(main(sys.argv[1:]))
