"""Several processes: what they write is what one writes, and what goes wrong in one of them ends all with a line."""
import os
import random
import sqlite3
import tempfile
from typing import Callable, Iterator, List, Optional, Sequence, Tuple

import chapter11 as made
from ch10 import database, kept, replay, survey_parts
from ch10.standard import Fault
from ch10.survey import Survey
from ch10_damage import nested, touched
from ch10_index import strict_flight
from ch10_recordings import flight, foreign
from ch10_types import Found, run
import ch10_times
import play_cases


def dumped(data: bytes, jobs: int, folder: str) -> Tuple[int, Optional[str], List[str], List[str]]:
    """The status and line of `sqlite` by so many processes, what stands in the database, and which files there are."""
    path = os.path.join(folder, 'made.db')
    status, _, line = run(['sqlite', '--keep-going', '--jobs', str(jobs), '--out', path], data)[:3]
    files = sorted(os.listdir(folder))
    lines: List[str] = []
    if os.path.exists(path):
        base = sqlite3.connect(path)
        lines = list(base.iterdump())
        base.close()
        os.unlink(path)
    return status, line, lines, files


class Small:
    """Parts of a few packets, so that a small recording has many."""

    def __enter__(self) -> None:
        self.before = replay.Ordered.parts.__defaults__
        replay.Ordered.parts.__defaults__ = (2000, None)

    def __exit__(self, *_: object) -> None:
        replay.Ordered.parts.__defaults__ = self.before


def databases() -> Found:
    """A database by one process, by three, and by more than there are parts: the same rows with the same numbers, of flights, of
    two sessions, and of a damaged one; and no file beside it."""
    draw, found = random.Random('jobs'), []
    recordings = [b''.join(strict_flight(draw, 150)), ch10_times.two_flights(), touched(draw, strict_flight(draw, 150))[0]]
    with Small(), tempfile.TemporaryDirectory() as folder:
        for data in recordings:
            one = dumped(data, 1, folder)
            found.append([dumped(data, jobs, folder) == one and len(one[2]) > 30 and one[3] == ['made.db'] for jobs in (3, 60)])
    return found, [[True, True]] * 3


def a_part_at_fault() -> Found:
    """A fault, a full disk, a want of memory, and a process that is killed, in one of three: a line, and nothing left behind."""
    data, found = b''.join(strict_flight(random.Random('fault'), 150)), []
    real = database.add_part

    def die(*_: object) -> None:
        os.kill(os.getpid(), 9)

    def fails(error: Callable[[], None]) -> Callable:
        def add_part(base: object, number: int, ordered: object, part: replay.Part, reader: object) -> None:
            if part.low > 5 * 10 ** 7:
                error()
            real(base, number, ordered, part, reader)  # type: ignore[arg-type]
        return add_part

    def raises(error: BaseException) -> Callable[[], None]:
        def fail() -> None:
            raise error
        return fail

    with Small(), tempfile.TemporaryDirectory() as folder:
        for error in (raises(Fault('no such entry')), raises(OSError(28, 'No space left on device')), raises(MemoryError()), die):
            database.add_part = fails(error)
            try:
                found.append(dumped(data, 3, folder))
            finally:
                database.add_part = real
    return found, [(1, 'no such entry', [], []), (3, 'a read or a write failed: No space left on device', [], []),
                   (3, 'out of memory', [], []),
                   (3, 'a read or a write failed: a process ended: is there enough memory?', [], [])]


# ---- one pass by several processes

class Parts:
    """Parts that begin at these places; .taken is how many of them were put together as a process found them."""

    def __init__(self, starts: Sequence[int]) -> None:
        self.starts, self.taken, self.before = list(starts), 0, (survey_parts.starts_of, survey_parts.take)

    def take(self, *given: object) -> None:
        self.taken += 1
        self.before[1](*given)  # type: ignore[arg-type]

    def __enter__(self) -> 'Parts':
        survey_parts.starts_of, survey_parts.take = (lambda *_: self.starts), self.take  # type: ignore[assignment]
        return self

    def __exit__(self, *_: object) -> None:
        survey_parts.starts_of, survey_parts.take = self.before


def state(survey: Survey) -> List[object]:
    """All that a pass has found, and what it would go on by."""
    return [kept.fields(survey), survey.states, survey.latest, survey.sequences, survey.last, survey.report, survey.sessions.last,
            survey.sessions.next, survey.segments.open, survey.segments.firsts,
            *(column.tobytes() for column in (survey.lows, survey.highs, survey.places, survey.of))]


def uart(channel: int, count: int, place: int, text: bytes = b'AB', flags: int = 0, second: bytes = b'') -> bytes:
    return made.packet(channel, 0x50, count, made.word(0, 4) + made.uart_entry(text), place & 0xFF, flags, second)


def report(channel: int, count: int, place: int) -> bytes:
    """A loss report of three messages of a channel."""
    return made.packet(0, 0x00, count, bytes(4) + b'LOSS' + made.word(channel, 4) + made.word(3, 8), place & 0xFF)


def others() -> Iterator[bytes]:
    """Recordings whose packets have to do with those before them: messages in segments, losses with their reports, the log of the
    recorder, states, secondary headers, packets written twice, and channels that begin late."""
    parts, reports = made.opened(), 0
    logs = (b'r10log file log=6 number=0 name="F" sync=yes', b'r10log total channel=5 kind=uart recorded=99 file=0 name="F"',
            b'plain')
    for place in range(60):
        count, which = 2000 + 1000 * place, place % 7
        if place > 3:
            parts.append(made.packet(6, 0x30, count, made.messages([(count, logs[(place - 4) % 3])]), place & 0xFF))
        parts.append(made.packet(7, 0x30, count, made.messages([(count, bytes(9))], part=(1, 2, 3, 0)[place % 4]), place & 0xFF))
        parts.append(made.packet(9, 0x29, count, made.discretes([(count, place & 0xF)]), place & 0xFF))
        second = made.secondary_header(made.time_of(0, 10 ** 10 + count))
        parts.append(uart(8, count, place, flags=0x20 * (which == 1), second=second))
        if which in (3, 6):
            reports += 1
            parts += [parts[-1]] * (which == 6) + [report(5 if which == 6 else 9, count, reports)]
        parts.append(uart(5, count, place, b'C', 0x10 * (which in (2, 3, 6))))
    yield b''.join(parts)
    yield b''.join(parts[:40] + parts[1:80])  # a second session, in the midst of a message
    late = [made.packet(6, 0x30, 2000, made.messages([(2000, b'no line')]))]
    yield b''.join(parts[:1] + late + parts[1:])
    yield b''.join(parts[:150] + [made.packet(0, 0x01, 10 ** 6, made.setup(b'G\\106:17;'), 200)] + parts[150:])
    old, again = 1 << 27, made.packet(0, 0x01, 0, made.setup(b'G\\106:17;'), 1)
    yield b''.join(made.opened()[:1] + [uart(5, old + 9, 0), uart(5, 1, 1), uart(5, old + 8, 2)])  # its counter goes back alone
    yield b''.join(made.opened()[:1] + [uart(5, old + 9, 0), again, uart(6, 1, 0), uart(5, old + 10, 1)])
    full = (1 << 48) - 10 ** 6
    yield b''.join(made.opened()[:1] + [uart(5, full, 0), uart(5, 7, 1), uart(5, 8, 2), uart(6, full + 9, 0), uart(5, 9, 3)])


def a_wrong_start() -> Found:
    """A part that begins at a packet within another one's body is not put together."""
    inner = uart(77, 2500, 0)
    parts = made.opened() + [uart(5, 2000, 0), made.packet(20, 0x40, 2100, made.word(0, 4) + inner), uart(5, 3000, 1)]
    data = b''.join(parts)
    with Parts([data.index(inner)]) as some:
        found = state(Survey(data, 0, len(data), jobs=2))
    return (found == state(Survey(data, 0, len(data))), some.taken, len(found[0]['rows'])), (True, 0, 4)  # type: ignore[index]


def one_pass() -> Found:
    """A pass by two processes whose parts begin at every packet, at some, and at wrong places: each finds what one process alone
    does, to its end or to the first fault; and of plain recordings nearly all parts are put together."""
    draw, found, taken = random.Random('parts'), [], []
    recordings = [b''.join(strict_flight(draw, 80)), b''.join(flight(draw, 60)), b''.join(foreign()[:120]), *others(),
                  ch10_times.two_flights(), ch10_times.clock_back(), ch10_times.half_timed(), b''.join(nested(draw))]
    recordings += [touched(draw, strict_flight(draw, 60))[0] for _ in range(6)]
    for number, data in enumerate(recordings):
        for goes_on in (True, False)[:1 + (number % 2)]:
            alone = Survey(data, 0, len(data), goes_on)
            wanted, places = state(alone), list(map(int, alone.places))[1:]
            for starts in (places, places[6::23], sorted([*places[::5], *(place + 4 for place in places[2::5])])):
                with Parts(starts) as parts:
                    found.append(state(Survey(data, 0, len(data), goes_on, jobs=2)) == wanted)
                taken.append(parts.taken >= len(starts) * 0.9)
    return (found.count(False), taken[:2], len(found) > 60), (0, [True, True], True)


def summaries() -> Found:
    """`summary`, its lines of JSON, `csv` and `range` by two and by sixty processes: byte for byte, with status and line, what one
    writes."""
    draw, found = random.Random('summaries'), []
    before = survey_parts.LEAST_PART, survey_parts.MOST_PART
    survey_parts.LEAST_PART = survey_parts.MOST_PART = 3000
    try:
        for data in (b''.join(strict_flight(draw, 150)), touched(draw, strict_flight(draw, 150))[0], ch10_times.two_flights()):
            for words in (['summary'], ['summary', '--json'], ['csv', '--keep-going'], ['range', '--from', '1000']):
                one = run([*words, '--jobs', '1'], data)
                found.append([run([*words, '--jobs', jobs], data) == one and len(one[1]) > 300 for jobs in ('2', '60')])
    finally:
        survey_parts.LEAST_PART, survey_parts.MOST_PART = before
    return found, [[True, True]] * 12


def reports() -> Found:
    """The page of `report` by two and by seven processes, of one recording and of several, of which one is damaged, one an image,
    and one cannot be read: byte for byte, with status and line, what one process writes."""
    draw, found = random.Random('reports'), []
    recordings = [b''.join(strict_flight(draw, 150)), touched(draw, strict_flight(draw, 150))[0], ch10_times.two_flights(),
                  play_cases.PAIR, next(others())]
    before = survey_parts.LEAST_PART, survey_parts.MOST_PART
    survey_parts.LEAST_PART = survey_parts.MOST_PART = 3000
    try:
        with tempfile.TemporaryDirectory() as folder:
            paths = [os.path.join(folder, '%d.ch10' % number) for number in range(len(recordings))]
            for path, data in zip(paths, recordings):
                with open(path, 'wb') as file:
                    file.write(data)
            for some in [[path] for path in paths] + [paths, [*paths[:2], os.path.join(folder, 'none.ch10')]]:
                words = ['report', '--unjudged', *some]
                one = run([*words, '--jobs', '1'], b'')
                is_said = ('1 of the inputs could not be read' in one[2]) == (some[-1] not in paths)
                found.append([run([*words, '--jobs', jobs], b'') == one and len(one[1]) > 3000 and is_said for jobs in ('2', '7')])
    finally:
        survey_parts.LEAST_PART, survey_parts.MOST_PART = before
    return found, [[True, True]] * 7


TRIALS: List[Callable[[], Found]] = [databases, a_part_at_fault, one_pass, a_wrong_start, summaries, reports]
