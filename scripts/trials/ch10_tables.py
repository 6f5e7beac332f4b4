"""Recordings for programs of analysis: `ch10.open`, `ch10 hdf5` and `ch10 mat`, compared with csv; and the package as pip installs
it. Where h5py, pandas or pip is missing, what wants it is NOT TRIED; with CI set h5py and pip have to be there."""
import csv
import importlib.util
import io
import json
import os
import pathlib
import random
import shutil
import subprocess
import sys
import tempfile
from typing import Any, Callable, List, Tuple

import numpy

import ch10
import ch10_times
import chapter11 as made
from ch10 import buses, columns, database, vector
from ch10.kinds import KINDS
from ch10.standard import Fault, Wrong
from ch10.survey import Survey
from ch10.tables import NO_TIME, Recording
from ch10_others import segments_of
from ch10_index import strict_flight
from ch10_recordings import SETUP_TEXT, flight
from ch10_types import Found, cells, run
from chapter11 import opened, packet

TOP = pathlib.Path(__file__).resolve().parents[2]
TRIED: Found = (True, True)


def has(module: str, is_needed: bool = True) -> bool:
    """Whether a module of Python is here; where it is not, and has to be, that is a failure."""
    found = importlib.util.find_spec(module) is not None
    if not found:
        print('NOT TRIED: %s (it is not installed)' % module)
        if is_needed and os.environ.get('CI'):
            raise ModuleNotFoundError(module)
    return found


def every_kind() -> bytes:
    """A recording with entries of every kind, some behind losses, some of them in more than one packet."""
    parts = flight(random.Random('tables'), 400)
    base = 900000000000
    other = [packet(60, 0x78, base, made.counted([made.can_frame(base + at, bytes(at % 9), at * 77, at % 2, at % 3 == 0, at)
                                                  for at in range(9)])),
             packet(61, 0x1A, base, made.counted([made.message_16pp194(base + at, list(range(at)), at << 13) for at in range(4)])),
             packet(62, 0x58, base, made.firewire(2, [made.transaction(base + at, bytes(at)) for at in range(4)])),
             packet(63, 0x59, base, made.counted([made.physical(base + at, bytes(at), at, at, at) for at in range(4)]))]
    other += [packet(65, 0x50, base, made.uart([(base + 500, b'late'), (base + 400, b'early')]), 0, 0x10)]  # after a loss
    for place in range(4):  # more than one part
        now = base + 10 ** 6 * place
        other += [packet(64, 0x50, now, made.uart([(now + at, bytes(60000)) for at in range(8)]), place), packet(
            66, 0x19, now, made.bus_1553([made.message_1553(now + at, [0x2862, place, at]) for at in range(5)]), place)]
    return b''.join(parts + other + segments_of(b'in two parts', (6, 6), 0, base + 50))


def with_file(data: bytes, look: Callable[[str], Any]) -> Any:
    """What is found of a file with these bytes."""
    with tempfile.TemporaryDirectory() as folder:
        path = pathlib.Path(folder, 'flight.ch10')
        path.write_bytes(data)
        return look(str(path))


def text_of(value: Any) -> str:
    """A value of a column as csv prints it."""
    if isinstance(value, numpy.ndarray):
        return ''.join('%0*x' % (2 * value.dtype.itemsize, one) for one in value.tolist())
    if isinstance(value, bytes):
        return value.hex()
    return '' if value == -1 else str(int(value) if isinstance(value, numpy.bool_) else value)


SAME = {'1553': ('rt', 'tr', 'sa', 'wc', 'mode', 'rt2', 'sa2', 'bus', 'errors'),
        'can': ('value', 'sub', 'id', 'extended', 'remote'),
        'arinc': ('label', 'sdi', 'data', 'ssm', 'parity', 'high', 'bus', 'errors'), 'uart': ('value', 'sub', 'errors'),
        'message': ('value', 'sub', 'errors'), 'time': ('value',), 'event': ('number', 'occurrence'),
        '1394': ('body', 'sync', 'event', 'value'), '1394phy': ('speed', 'errors', 'value'), '16pp194': ('errors',), 'discrete': ()}


def tables_of_kinds() -> Found:
    """Each kind's table has the entries of csv: count, time, channel, losses, quality and own columns; so have the entries one by
    one; and a channel alone is that one."""
    data = every_kind()

    def look(path: str) -> Tuple[Any, Any]:
        found, wanted = {}, {}
        with ch10.open(path) as held:
            recording = held.recordings[0]
            for kind in KINDS:
                names = SAME[kind.name]
                table = recording.table(kind.name)
                times = [str(one).replace('T', ' ')[:-2] for one in table['time']]
                lost = ['1+' if one == -1 else str(one) for one in table['lost']]
                own = zip(*(map(text_of, table[name]) for name in names)) if names else [()] * len(table)
                rows = [(str(count), str(channel), time, gone, said, *more) for count, channel, time, gone, said, more in zip(
                    table['count'], table['channel'], times, lost, table['quality'], own)]
                found[kind.name] = rows
                wanted[kind.name] = cells(['--kind', kind.name, '--quality'], data, 'count', 'channel', 'time', 'lost', 'quality',
                                          *names)
                one = [(str(entry.count), str(entry.channel), *(text_of(entry.value[name]) for name in names))
                       for entry in recording.entries(kind.name)]
                found[kind.name, 'entries'], wanted[kind.name, 'entries'] = one, [row[:2] + row[5:] for row in wanted[kind.name]]
            first = recording.table('1553')['channel'][0]
            alone = recording.table('1553', channels=[int(first)])
            found['alone'] = set(alone['channel'].tolist())
            wanted['alone'] = {int(first)}
            found['some'] = all(found[kind.name] for kind in KINDS)
            wanted['some'] = True
        return found, wanted

    return with_file(data, look)


def channels_of_a_recording() -> Found:
    """Channels have what the summary has of them, and times that are numpy's."""
    data = every_kind()
    rows = [json.loads(line) for line in run(['summary', '--json'], data)[1].splitlines()]

    def look(path: str) -> Any:
        with ch10.open(path) as held:
            return [(one.number, one.type, one.packets, one.entries, one.bytes, one.losses,
                     str(one.first).replace('T', ' ')[:-2], str(one.last).replace('T', ' ')[:-2])
                    for one in held.recordings[0].channels]

    return with_file(data, look), [
        (row['channel'], row['type'], row['packets'], row['entries'], row['bytes'], row['losses'], row['first_time'],
         row['last_time']) for row in rows if 'packets' in row]


def words_and_arrays() -> Found:
    """Words of 1553 are numbers, as lists or as columns; a structured array has a field for each column, and pandas the same."""
    some = [[0x2862, 0x1111, 0xFFFF, 0x2800], [0x2C61], []]
    data = b''.join(opened() + [packet(7, 0x19, 2000, made.bus_1553([made.message_1553(2000 + at, words)
                                                                     for at, words in enumerate(some)]))])

    def look(path: str) -> Any:
        with ch10.open(path) as held:
            table = held.recordings[0].table('1553')
            frame = table.frame() if has('pandas', False) else None
            return ([one.tolist() for one in table['words']], table.words(2).tolist(), table.array()['rt'].tolist(),
                    table.array().dtype.names == tuple(table.columns), table['time'].dtype.str, table['rt'].dtype.str,
                    True if frame is None else (frame['words'].tolist(), frame['rt'].tolist()) == (some, [5, 5, -1]))

    return with_file(data, look), (some, [[0x2862, 0x1111], [0x2C61, -1], [-1, -1]], [5, 5, -1], True, '<M8[ns]', '<i2', True)


def opened_wrongly() -> Found:
    """An input that is none, a kind that is none, and no file are errors of the package; a recording without times has none, and
    one after the year 2261 has those that numpy's nanoseconds do not have as whole numbers."""
    found: List[Any] = []
    for look in (ch10.open, lambda path: ch10.open(path).recordings[0].table('video'), lambda path: ch10.open(path + '.none')):
        try:
            with_file(b'neither' if look is ch10.open else b''.join(opened()), look)
            found.append(None)
        except (Fault, Wrong, OSError) as error:
            found.append(type(error).__name__)
    entry = packet(5, 0x50, 2000, made.uart([(2000, b'x')]))
    far = packet(1, 0x11, 2000, made.time_f1('2300-01-01 00:00:00.00'))
    for parts in ([entry], [far, entry]):
        with_file(b''.join(opened()[:1] + parts), lambda path: found.append(
            (lambda table: (str(table['time'][0]), int(table.ticks[0])))(ch10.open(path).recordings[0].table('uart'))))
    return found, ['Fault', 'Wrong', 'FileNotFoundError', ('NaT', NO_TIME), ('NaT', 104137920000000000 * 1)]


# ---- files of columns

def column(group: Any, name: str, is_mat: bool) -> List[Any]:
    """A column of a group as values: texts for their numbers, bytes and words for their places."""
    values = group[name][()].reshape(-1)
    if name + '_texts' in group:
        texts = group[name + '_texts'][()]
        rows = [''.join(map(chr, row)).rstrip() for row in texts.T] if is_mat else [one.decode() for one in texts]
        return [rows[one] for one in values]
    if name + '_first' in group:
        first, number = (group[name + '_' + end][()].reshape(-1).tolist() for end in ('first', 'number'))
        return [values[at:at + many].tolist() for at, many in zip(first, number)]
    return values.tolist()


def plain(values: Any) -> List[Any]:
    """A column of a table in the same way."""
    return [one.tolist() if isinstance(one, numpy.ndarray) else list(one) if isinstance(one, bytes) else one
            for one in (values.tolist() if values.dtype != object else values)]


def files_of_columns() -> Found:
    """HDF5 and MATLAB have each table's columns, in several parts as well; MATLAB's file begins as its form 7.3 does, its columns
    are vectors, and each has its class."""
    if not has('h5py'):
        return TRIED
    import h5py
    data, found, wanted = every_kind(), [], []

    def look(path: str) -> None:
        with ch10.open(path) as held:
            tables = {kind: held.recordings[0].table(kind.name) for kind in KINDS}
        for command in ('hdf5', 'mat'):
            out = path + '.' + command
            is_mat = command == 'mat'
            found.append(run([command, '--out', out], data))
            wanted.append((0, b'', ''))
            head = pathlib.Path(out).read_bytes()[:128]
            with h5py.File(out) as file:
                for kind, table in tables.items():
                    group = file[kind.word]
                    for name, values in table.columns.items():
                        said = table.ticks.tolist() if name == 'time' else plain(values)
                        if kind.name == 'time' and name == 'value':
                            said = [list(one.encode()) for one in said]
                        found.append((kind.name, name, column(group, name, is_mat)))
                        wanted.append((kind.name, name, [int(one) if isinstance(one, bool) else one for one in said]))
                    if is_mat:
                        found.append((group.attrs['MATLAB_class'], {one.attrs['MATLAB_class'].decode() for one in group.values()}
                                      - {'int16', 'int32', 'int64', 'uint8', 'uint16', 'uint32', 'uint64', 'single', 'char'},
                                      group['count'].shape[0], group['count'].attrs['MATLAB_class']))
                        wanted.append((b'struct', set(), 1, b'uint64'))
            if is_mat:
                found.append((head[:19], head[124:]))
                wanted.append((b'MATLAB 7.3 MAT-file', b'\x00\x02IM'))
            again = run([command, '--out', out], data)
            found.append((again[0], 'is there already' in again[2], os.path.exists(out + '.part')))
            wanted.append((2, True, False))

    with_file(data, look)
    return found, wanted


def files_of_columns_of_many() -> Found:
    """The memory that it takes does not grow with the recording: 24 times the entries take little more."""
    if not has('h5py'):
        return TRIED
    peaks = []
    for number in (2, 48):
        one = opened()
        for place in range(number):
            one.append(packet(7, 0x19, 2000 + 20000 * place, made.bus_1553([made.message_1553(
                2000 + 20000 * place + at, [0x2862, at]) for at in range(9000)]), place & 0xFF))

        def look(path: str) -> int:
            with open(path, 'rb') as given:
                done = subprocess.run([sys.executable, '-c', MEASURED % str(TOP), 'hdf5', '--out', path + '.h5'], stdin=given,
                                      capture_output=True, text=True, check=True)
            return int(done.stdout)

        peaks.append(with_file(b''.join(one), look))
    return (peaks[1] - peaks[0] < 60000, peaks), (True, peaks)


MEASURED = '''import resource, sys
sys.path[:0] = [%r]
from ch10.command import main
if main(sys.argv[1:]) == 0:
    print(resource.getrusage(resource.RUSAGE_SELF).ru_maxrss)
'''


# ---- as it is installed

def as_pip_installs() -> Found:
    """pip installs it into an environment of its own, without a network: the command, the package, and its version."""
    if not has('pip') or not has('venv') or not has('setuptools') or not has('wheel'):
        return TRIED

    def look(path: str) -> Any:
        room = pathlib.Path(path).parent
        for name in ('ch10', 'pyproject.toml', 'VERSION', 'README.md'):
            subprocess.run(['cp', '-r', str(TOP / name), str(room)], check=True)
        subprocess.run([sys.executable, '-m', 'venv', '--system-site-packages', str(room / 'env')], check=True)
        call = [str(room / 'env' / 'bin' / 'python'), '-m', 'pip', 'install', '-q', '--no-build-isolation', '--no-index', str(room)]
        done = subprocess.run(call, capture_output=True, text=True)
        if done.returncode:
            return done.stderr[-300:]
        with open(path, 'rb') as given:
            rows = subprocess.run([str(room / 'env' / 'bin' / 'ch10'), 'csv', '--kind', 'uart'], stdin=given, capture_output=True,
                                  cwd='/').stdout
        version = subprocess.run([str(room / 'env' / 'bin' / 'ch10'), '--version'], capture_output=True, text=True, cwd='/').stdout
        program = ('import sys, ch10\nwith ch10.open(sys.argv[1]) as held:\n'
                   '    print(len(held.recordings[0].table("uart")), ch10.__file__.startswith(sys.prefix))')
        said = subprocess.run([str(room / 'env' / 'bin' / 'python'), '-c', program, path], capture_output=True, text=True, cwd='/')
        return len(list(csv.reader(io.StringIO(rows.decode())))), version, said.stdout + said.stderr[-300:]

    data = b''.join(opened(SETUP_TEXT) + [packet(5, 0x50, 2000, made.uart([(2000, b'x'), (2001, b'y')]))])
    return with_file(data, look), (3, 'ch10 %s\n' % (TOP / 'VERSION').read_text().strip(), '2 True\n')


def as_debian_has_it() -> Found:
    """The Debian package has the package where the distribution's Python finds it, with its version, for all users."""
    if shutil.which('dpkg-deb') is None:
        print('NOT TRIED: a Debian package (no dpkg-deb here)')
        return TRIED

    def look(path: str) -> Any:
        room = pathlib.Path(path).parent
        call = [str(TOP / 'scripts' / 'python_deb.sh'), str(room)]
        package = subprocess.run(call, capture_output=True, text=True).stdout.strip()
        subprocess.run(['dpkg-deb', '-x', package, str(room / 'root')], check=True)
        modes = {line.split()[0][1:] for line in subprocess.run(['dpkg-deb', '-c', package], capture_output=True,
                                                               text=True).stdout.splitlines()}
        depends = subprocess.run(['dpkg-deb', '-f', package, 'Depends'], capture_output=True, text=True).stdout.strip()
        place = room / 'root' / 'usr' / 'lib' / 'python3' / 'dist-packages'
        said = subprocess.run([sys.executable, '-c', 'import sys, ch10\nfrom ch10.command import version\n'
                               'print(len(ch10.open(sys.argv[1]).recordings[0].table("uart")), version())', path],
                              capture_output=True, text=True, cwd='/', env=dict(os.environ, PYTHONPATH=str(place)))
        return os.path.basename(package), modes, depends, said.stdout + said.stderr[-300:]

    number = (TOP / 'VERSION').read_text().strip()
    data = b''.join(opened() + [packet(5, 0x50, 2000, made.uart([(2000, b'x'), (2001, b'y')]))])
    return with_file(data, look), ('python3-ch10_%s_all.deb' % number, {'rw-r--r--', 'rwxr-xr-x'},
                                   'python3 (>= 3.7), python3-numpy', '2 %s\n' % number)


def documented() -> Found:
    """Every public class and function of the interface has a docstring."""
    from ch10 import tables
    bare = [name for name, one in vars(tables).items() if callable(one) and getattr(one, '__module__', '') == 'ch10.tables'
            and not name.startswith('_') and not one.__doc__]
    bare += [name for name, one in vars(Recording).items() if callable(one) and not name.startswith('_') and not one.__doc__]
    return bare, []


def analysed() -> Found:
    """The analysis in examples/ over a recording with losses: as many messages of each channel, terminal and subaddress as csv has,
    and as many gaps."""
    if not has('pandas', False):
        return TRIED, TRIED
    data = b''.join(strict_flight(random.Random('analysis'), 300))
    rows = [row for row in csv.DictReader(io.StringIO(run(['csv', '--kind', '1553'], data)[1].decode()))]
    wanted: dict = {}
    for row in rows:
        key = row['channel'], row['rt'] or '-1', row['sa'] or '-1'
        wanted[key] = wanted.get(key, 0) + 1
    with tempfile.NamedTemporaryFile(suffix='.ch10') as held:
        held.write(data)
        held.flush()
        made = subprocess.run([sys.executable, '-B', str(TOP / 'examples' / 'analysis.py'), held.name], capture_output=True,
                              text=True, env=dict(os.environ, PYTHONPATH=str(TOP)))
    parts = made.stdout.split('\n\n')
    said: dict = {}
    for line in parts[2].splitlines()[1:] if len(parts) > 2 else []:
        cells = line.split()
        said[tuple(cells[:3])] = int(cells[3])
    most = sorted(wanted.values(), reverse=True)[:len(said)]
    gaps = sum(row['lost'] != '0' for row in rows)
    return (made.stderr, len(said) > 2, all(wanted.get(key) == many for key, many in said.items()),
            sorted(said.values(), reverse=True), '\n%d messages from ' % len(rows) in made.stdout,
            '\n%d gaps in the messages' % gaps in made.stdout), ('', True, True, most, True, True)


VALUES: dict = {  # of a column of each form; of each list some are drawn, and one of them alone
    'TEXT': ['', None, '0', '-1', "it's", 'x y', 'NULL', '\u00e9', 'a\nb', '1e3'], 'INTEGER': [None, 0, -1, 7, 1 << 60, 1 << 53],
    'REAL': [None, 0.0, -1.0, 0.1, 3.0, float('inf'), 1e300], 'BOOLEAN': [None, True, False, 1, 0]}


def rows_of_columns() -> Found:
    """Columns of any values in `ch10 sqlite`: the same values, of the same types, as of rows that are bound one by one."""
    draw, found, wanted = random.Random('rows'), [], []
    with tempfile.TemporaryDirectory() as folder:
        for number in range(12):
            base = database.Database(os.path.join(folder, '%d.db' % number))
            for kind, name in database.TABLES.items():
                many = draw.choice([1, 2, 30])
                columns = [[draw.choice(VALUES[form][:1 + draw.randrange(len(VALUES[form]))]) for _ in range(many)]
                           if draw.randrange(3) else [draw.choice(VALUES[form])] * many for _, form in database.COLUMNS[kind]]
                for add in (lambda: base.add_columns(kind, columns), lambda: base.add(name, zip(*columns))):
                    add()
                    names = [column for column, _ in database.COLUMNS[kind]]
                    text = ', '.join('%s("%s")' % (form, column) for column in names for form in ('quote', 'typeof'))
                    (wanted if len(wanted) < len(found) else found).append(
                        base.base.execute('SELECT %s FROM "%s" ORDER BY rowid' % (text, name)).fetchall())
                    base.base.execute('DELETE FROM "%s"' % name)
            base.give_up()
    return (len(found), found), (12 * len(database.TABLES), wanted)


def the_same_sooner() -> Found:
    """What is made for many values at once is what is made of each by itself: numbers that there are, hex digits, texts that print,
    changes of discretes, and civil times where a clock goes on, jumps, or has a second 60."""
    draw, found, wanted = random.Random('sooner'), [], []
    for top in (1, 3, 2000, 1 << 17, 1 << 40):
        keys = numpy.array([draw.randrange(top) for _ in range(500)])
        some, places = columns.distinct(keys)
        found.append((some.tolist(), some[places].tolist()))
        wanted.append((sorted(set(keys.tolist())), keys.tolist()))
    some_texts = [b'', b'plain', b'a\\b', b'two\nlines', b'\x00', b'bell\x07', b'"', bytes(600), b'x' * 600]
    ends = numpy.cumsum([len(text) for text in some_texts])
    octets = numpy.frombuffer(b''.join([*some_texts, columns.ROOM]), numpy.uint8)
    sizes = numpy.array([len(text) for text in some_texts])
    block = columns.Block(0x50, columns.Batch(octets, [0], [0], [0], [0]), ends - sizes, sizes, sizes)
    found.append(columns.Printed(block, 0, sizes).values())
    wanted.append([buses.text_of(text) for text in some_texts])
    words = numpy.array([draw.choice([0, 0x10000, 0xFFFF, draw.randrange(1 << 16)]) for _ in range(400)])
    texts = ['' if word == 0x10000 else '%04x' % word for word in words.tolist()]
    found.append([text or '' for text in columns.HexWords(words).columns()[0]])
    wanted.append(texts)
    table = vector.Table(lambda key: b'')
    vector.fill_words(table, b'"none"', b'<0000>', 1)
    found.append([bytes(table.rows[word][:table.lengths[word]]) for word in words.tolist()])
    wanted.append([('<%s>' % text if text else '"none"').encode() for text in texts])
    pairs = [(draw.getrandbits(32), draw.getrandbits(32) & draw.getrandbits(32)) for _ in range(200)] + [(5, 5), (0, 1 << 31)]
    found.append([buses.changed_bits(before, states, number) for before, states in pairs for number in (5, 32)])
    wanted.append([' '.join('%s%d' % ('+' if states >> bit & 1 else '-', bit) for bit in range(number)
                            if (before ^ states) >> bit & 1) for before, states in pairs for number in (5, 32)])
    for make in (ch10_times.two_flights, ch10_times.clock_back, ch10_times.half_timed, every_kind,
                 lambda: ch10_times.ticking(list(ch10_times.LEAP))):
        data = make()
        survey = Survey(data, 0, len(data))
        assert survey.clock
        ends = survey.clock.starts + [low for low, _ in survey.ends()] + [high for _, high in survey.ends()]
        for low in ends:
            for step in (1, 10 ** 6, 10 ** 11):
                instants = numpy.array([max(low + step * (at - 3), 0) for at in range(8)])
                found.append(list(database.times_of(survey.clock, instants)))
                wanted.append([survey.clock.text(instant) for instant in instants.tolist()])
    return found, wanted


TRIALS: List[Callable[[], Found]] = [rows_of_columns, the_same_sooner, tables_of_kinds, channels_of_a_recording, words_and_arrays,
                                     opened_wrongly, files_of_columns, files_of_columns_of_many, as_pip_installs, as_debian_has_it,
                                     documented, analysed]
