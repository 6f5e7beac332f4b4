"""What the filters do with inputs that are wrong, and what holds of their source. scripts/trials/ch10_trials.py check runs it."""
import ast
import datetime
import os
import pathlib
import random
import shutil
import sqlite3
import subprocess
import sys
import tempfile
from contextlib import suppress
from typing import Callable, Iterator, List, Tuple

import play_cases
from ch10 import command, script
from ch10_damage import one_damaged
from ch10_meanings import MOMENT, run
from ch10_recordings import SECOND, Maker, civil_body, flight, foreign
from check_cases import FIRST, letters, number

TOP = pathlib.Path(__file__).resolve().parents[2]
FILTER = str(TOP / 'scripts' / 'ch10.py')


# ---- recordings

def damaged_front() -> Tuple[object, object]:
    """A recording whose first bytes are wrong is one all the same: with --keep-going all but its first packet is read. What is none
    is refused."""
    parts = flight(random.Random('front'), 30)
    rest, found = b''.join(parts[1:]), []
    for at in (0, 1, 2, 4, 8, 22):
        data = bytearray(b''.join(parts))
        data[at] ^= 0x10
        status, said, line = run(['csv', '--keep-going'], bytes(data))
        found.append((status, [row.split(',')[2] for row in said.splitlines()]
                      == [row.split(',')[2] for row in run(['csv'], rest)[1].splitlines()], line.count('\n'),
                      run(['csv'], bytes(data))[::2]))
    none = [run(['summary'], data)[::2] for data in (b'%PDF-1.4' + bytes(2000), b'\x25\xeb' * 30)]
    return (found, none), ([(1, True, 0, (1, '%s at offset 0' % ('no sync pattern' if at < 2 else 'a wrong header checksum')))
                            for at in (0, 1, 2, 4, 8, 22)], [
                                (1, 'neither a recording (no sync pattern at offset 0) nor an image of a medium (no directory '
                                    'block at offset 512)'),
                                (1, 'a wrong header checksum at offset 0')])


def within_another() -> Tuple[object, object]:
    """A packet without a data checksum that lost some of its bytes does not swallow the one after it; and one that has a copy of a
    packet in it is read."""
    make = Maker()
    make.put(0, 0x01, 0, number(0x0C, 4) + b'G\\106:17;', 3)
    for place in range(6):
        make.put(21, 0x40, place, number(0x1000, 4) + b'\x47' + bytes(187))
        make.put(5, 0x50, place, number(1 << 31, 4) + letters(place, b'ABC'), 2)
    parts, found = make.parts, []
    for cut in (1, 2, 24, 100, 200):
        data = b''.join(parts[:3] + [parts[3][:-cut]] + parts[4:])
        found.append([row.split(',')[2] for row in run(['csv', '--keep-going'], data)[1].splitlines()[1:]])
    make.put(22, 0x68, 9, number(1, 4) + parts[2] + parts[1][:28])  # the cut copy ends where the packet after this one does
    make.put(5, 0x50, 9, number(1 << 31, 4) + letters(9, b'ABC'), 2, filler=len(parts[1]) - 28 - len(parts[2]))
    make.put(5, 0x50, 10, number(1 << 31, 4) + letters(10, b'ABC'), 2)
    return (found, run(['csv'], b''.join(make.parts))[0]), ([['0', '1', '2', '3', '4', '5']] * 5, 0)


# Damaged recordings that were read wrong once, by their numbers: copies of packets taken for packets, and packets taken for copies.
ONCE_WRONG = (10, 174, 571, 598, 742, 804, 1187, 1286, 1287, 1949, 2093, 2256, 2955, 3157, 3491, 4368, 4788)


def once_wrong() -> Tuple[object, object]:
    return [one_damaged(1, which)[1] for which in ONCE_WRONG], [[]] * len(ONCE_WRONG)


def counter_anew() -> Tuple[object, object]:
    """A counter of 48 bits that begins anew is no jump of the clock, no second is without a time, and what comes after it comes
    last."""
    make, start = Maker(), (1 << 48) - 10 * SECOND
    for second in range(30):
        make.put(1, 0x11, (start + second * SECOND) % (1 << 48), civil_body(MOMENT + datetime.timedelta(seconds=second)))
    status, said, _ = run(['summary'], b''.join(make.parts))
    line = next(line for line in said.splitlines() if line.startswith('time on channel 1'))
    times = [row.split(',')[3][11:19] for row in run(['csv'], b''.join(make.parts))[1].splitlines()[1:]]
    return (status, line, times[0], times[-1]), (
        0, 'time on channel 1: 30 packets, 0 jumps, 0 steps back, 0 seconds without one; drift +0.0 parts per million, known to '
           '344.8; the counter began anew 1 time',
        '12:34:56', '12:35:25')


def wrong_scripts() -> Tuple[object, object]:
    """A script whose values are of another type, or have what a setup text cannot have, is refused in a line."""
    good = 'volume = "VOL"\ntime = 1\n[[channel]]\nid = 5\nkind = "arinc"\n[[step]]\ndo = "offer"\nchannel = 5\nbus = 3\n'
    found = []
    for old, new in (('5\nkind = "arinc"', '5\nkind = ["arinc"]'), ('5\nkind = "arinc"', 'true\nkind = "arinc"'),
                     ('time = 1', 'time = true'), ('"VOL"', '"VOL;G\\\\X:1"'),
                     ('"VOL"', '3'), ('"VOL"', '"VOL\\nX"'), ('[[channel]]', '[channel]'), ('time = 1', 'time = ' + '9' * 5000),
                     ('time = 1', 'time = ' + '[' * 5000)):
        status, said, line = run(['tmats'], good.replace(old, new).encode())
        found.append((status, said, line.count('\n'), len(line) > 0))
    odd = [run(['tmats'], good.replace('bus = 3', new).encode())[0] for new in ('bus = []', 'bus = "b"', 'bus = 1.5')]
    by_hand = script.by_lines('a = _\nb = 1_000\n[[x]]\nc = "d"\n')
    return (found, odd, by_hand), ([(1, '', 0, True)] * 9, [0] * 3, ({'a': '_', 'b': 1000}, {'x': [{'c': 'd'}]}))


# a setup, a time, a report of 2^64 - 2 lost messages, and the message after them
MANY_LOST = bytes.fromhex(
    '25eb00001c0000000400000008000001e8030000000035f00c00000025eb0100240000000c00000008000011e8030000000046000103000078563412'
    '2902242025eb00002c0000001400000008010000e8030000000055f0000000004c4f535305000000feffffffffffffff25eb05002c00000012000000'
    '08001050e90300000000693f00000080e9030000000000000100000041000000'
)


def more_lost_than_a_column_takes() -> Tuple[object, object]:
    """A loss of more than 2^63 - 1 messages stands whole in csv, and as the greatest number in a database."""
    rows = [row.split(',')[4] for row in run(['csv', '--kind', 'uart'], MANY_LOST)[1].splitlines()]
    with tempfile.TemporaryDirectory() as folder:
        path = str(pathlib.Path(folder, 'flight.db'))
        status = run(['sqlite', '--out', path], MANY_LOST)[0]
        base = sqlite3.connect(path)
        found = [base.execute('SELECT lost FROM ' + it).fetchone()[0] for it in ('uart', 'losses', 'channels WHERE channel = 5')]
        base.close()
    return (status, rows, found), (0, ['lost', str(2 ** 64 - 2)], [2 ** 63 - 1] * 3)


# ---- files, pipes and processes

NO_SETUP = 'ch10: the first packet is no setup\n'


def inputs_of_the_shell() -> Tuple[object, object]:
    """What is empty or closed, a recording that grows, and readers that go away while several processes write."""
    make = Maker()
    make.put(1, 0x11, 0, civil_body(MOMENT))
    for place in range(40):
        make.put(5, 0x50, place, number(1 << 31, 4) + b''.join(letters(place, bytes(60000)) for _ in range(2)))
    found = []
    with tempfile.TemporaryDirectory() as folder:
        path = pathlib.Path(folder, 'flight.ch10')
        path.write_bytes(b''.join(make.parts))
        pathlib.Path(folder, 'empty').touch()
        for call in ('"%s" csv < empty', '"%s" summary < /dev/null', '"%s" csv <&-', '"%s" csv < flight.ch10 >&-',
                     '"%s" csv --jobs 3 < flight.ch10 | head -c 20',
                     '"%s" json --jobs 99999 < flight.ch10 | tail -n 1 | cut -c 1-20',
                     'cat flight.ch10 | "%s" csv --jobs 2 | tail -n 1 | cut -c 1-4',
                     '"%s" sqlite --out . < flight.ch10', '"%s" sqlite --out "" < flight.ch10',
                     '"%s" sqlite --out none/flight.db < flight.ch10',
                     '"%s" csv --jobs 3 < flight.ch10 > /dev/full',
                     'mkfifo pipe; head -c 30 flight.ch10 > pipe & sleep 0.1; "%s" csv < pipe',
                     'timeout 20 "%s" catalogue find --db pipe', '"%s" csv < .',
                     'ulimit -f 8; "%s" sqlite --out full.db < flight.ch10; echo "$?"; ls full.db*'):
            done = subprocess.run(['bash', '-c', 'set -o pipefail; ' + call % FILTER], cwd=folder, capture_output=True, timeout=60)
            found.append((done.returncode, done.stdout.decode(), done.stderr.decode()))
        packets = []
        for waits in (True, False):
            reader, writer = os.pipe()
            os.set_blocking(reader, waits)
            done = subprocess.Popen([FILTER, 'summary', '--json'], stdin=reader, stdout=subprocess.PIPE)
            os.close(reader)
            with suppress(BrokenPipeError):
                for part in make.parts:
                    os.write(writer, part)  # as a recording that grows while it is read
            os.close(writer)
            packets.append(done.communicate()[0].count(b'"packets": 40'))
    return (found, packets), ([
        (1, '', 'ch10: an empty input\n'), (1, '', 'ch10: an empty input\n'),
        (3, '', 'ch10: a read or a write failed: standard input is closed\n'),
        (3, '', 'ch10: a read or a write failed: standard output is closed\n'),
        (3, 'channel,name,count,t', ''), (0, '{"channel": 5, "name\n', NO_SETUP), (0, '5,,3\n', NO_SETUP),
        (2, '', "ch10: '.' is there already: give --out another name\n"),
        (2, '', 'ch10: sqlite takes --out FILE; see ch10 sqlite --help\n'),
        (3, '', 'ch10: a read or a write failed: unable to open database file\n'),
        (3, '', 'ch10: a read or a write failed: No space left on device\n'),
        (1, '', 'ch10: less than its packet at offset 0\n'),
        (3, '', "ch10: a read or a write failed: the database 'pipe': it is no regular file\n"),
        (3, '', 'ch10: a read or a write failed: standard input is a folder\n'),
        (2, '3\n', "ch10: a read or a write failed: disk I/O error\nls: cannot access 'full.db*': No such file or directory\n")],
                       [1, 1])


def a_folder_for_the_judges() -> Tuple[object, object]:
    """A folder as standard input is a line of the judges too, and no trace of Python's."""
    found = []
    for name in ('judge_image', 'judge_recording', 'read_chapter10'):
        judge = TOP / 'scripts' / 'tools' / (name + '.py')
        done = subprocess.run([str(judge)], stdin=os.open('/', os.O_RDONLY), capture_output=True)
        found.append((done.returncode, done.stdout, done.stderr == b'%s: a read or a write failed: standard input is a folder\n'
                      % name.encode()))
    return found, [(3, b'', True)] * 3


def inputs_by_name() -> Tuple[object, object]:
    """What is given by its name and cannot be read is a line, which names it; so is a folder without a recording."""
    found = []
    with tempfile.TemporaryDirectory() as folder:
        place = os.path.realpath(folder)
        pathlib.Path(place, 'flight.ch10').write_bytes(b''.join(flight(random.Random('named'), 3)))
        pathlib.Path(place, 'closed.ch10').touch(0o000)
        os.mkdir(os.path.join(place, 'empty'))
        os.mkfifo(os.path.join(place, 'pipe'))
        os.chmod(place, 0o755)
        for name in ('flight.ch10', 'none.ch10', 'flight.ch10/', 'pipe', 'closed.ch10'):
            # (root may read all, so another user is asked)
            if name == 'closed.ch10' and os.geteuid() == 0:
                os.seteuid(65534)
            status, _, line = run(['report', '--unjudged', os.path.join(place, name)], b'')
            if os.getuid() == 0:
                os.seteuid(0)
            found.append((status, line.replace(place, '')))
        found += [run(['report', '--unjudged', name], b'') for name in ('', os.path.join(place, 'empty'))]
    unread = 'a read or a write failed: 1 of the inputs could not be read, first '
    return found, [
        (0, ''), (3, unread + '/none.ch10: No such file or directory'), (3, unread + '/flight.ch10: Not a directory'),
        (3, unread + '/pipe: no regular file'), (3, unread + '/closed.ch10: Permission denied'),
        (2, '', "argument INPUT: '' names no file and no folder; see ch10 report --help"),
        (1, '', 'there is no recording in what was given; of a folder those files are taken that end in .ch10, .c10, .img, or '
                'begin as one')]


def outputs_without_room() -> Tuple[object, object]:
    """Each command that writes says in a line that there is no room for it. (sqlite, hdf5 and mat write to a file.)
    mend makes no file then: its report would be missing."""
    found, done = {}, set()
    with tempfile.TemporaryDirectory() as folder:
        path, base = os.path.join(folder, 'flight.ch10'), os.path.join(folder, 'range.db')
        data = b''.join(flight(random.Random('room'), 3))
        analog = b''.join(foreign())
        pathlib.Path(path).write_bytes(data)
        icd = os.path.join(folder, 'icd.csv')
        pathlib.Path(icd).write_text('name,kind,bits\nA,arinc,0\n')
        text = (TOP / 'examples' / 'first.toml').read_bytes()
        run(['catalogue', 'add', '--unjudged', '--jobs', '1', '--db', base, path], b'')
        for words in (['summary'], ['csv'], ['json'], ['svg'], ['setup'], ['index'], ['range'], ['tmats'], ['file', 'FLT1'],
                      ['catalogue', 'find', '--db', base], ['catalogue', 'add', '--unjudged', '--jobs', '1', '--db', base, path],
                      ['load', '--unjudged', '--jobs', '1', '--db', base, path], ['report', '--unjudged', path],
                      ['mend', path, '--out', path + '.mended'], ['rescue', path, path + '.found'], ['--help'],
                      ['--version'], ['export', '--as', 'samples'], ['values', '--icd', icd], ['plot', 'A', '--icd', icd]):
            given = {'tmats': text, 'export': analog, 'file': play_cases.alone(FIRST)}.get(words[0], data)
            done.add(words[0])
            with open('/dev/full', 'wb', buffering=0) as to:
                found[' '.join(words[:2 if words[0] == 'catalogue' else 1])] = command.answer(words, lambda: given, lambda: to)
        done |= {'mended'} if os.path.exists(path + '.mended') else set()
    return (found, set(command.COMMANDS) ^ done), (
        dict.fromkeys(found, (3, 'a read or a write failed: No space left on device')),
        {'--help', '--version', 'sqlite', 'hdf5', 'mat'})


def interrupted_early() -> Tuple[object, object]:
    """An interrupt while the modules are read leaves no trace of Python's: the shell's status is 130."""
    with tempfile.TemporaryDirectory() as folder:
        pathlib.Path(folder, 'argparse.py').write_text('import os, time\nos.kill(os.getpid(), 2)\ntime.sleep(9)\n')
        call = 'import os, signal, sys; signal.signal(2, signal.default_int_handler); os.execv(sys.argv[1], sys.argv[1:])'
        done = subprocess.run([sys.executable, '-c', call, FILTER, 'summary'], stdin=subprocess.DEVNULL, capture_output=True,
                              env=dict(os.environ, PYTHONPATH=folder))
    return (done.returncode, done.stderr), (-2, b'')


def memory() -> Tuple[object, object]:
    """Over a mapped file of 160 MiB no command holds more than a part of it. From Python 3.8 on."""
    if sys.version_info < (3, 8):
        return True, True
    make, size, most = Maker(), 500000, 0
    with tempfile.TemporaryDirectory() as folder:
        path = pathlib.Path(folder, 'long.ch10')
        with path.open('wb') as to:
            make.put(1, 0x11, 0, civil_body(MOMENT))
            to.write(make.parts[-1])
            for place in range(320):
                make.put(21, 0x40, place, number(0x1000, 4), filler=size)
                to.write(make.parts.pop()[:28])
                to.seek(size, os.SEEK_CUR)  # which leaves a hole
            to.truncate(to.tell())
        ask = ('import resource, subprocess, sys; subprocess.run(sys.argv[2:], stdin=open(sys.argv[1]), '
               'stdout=subprocess.DEVNULL); print(resource.getrusage(resource.RUSAGE_CHILDREN).ru_maxrss)')
        for words in (['summary'], ['svg'], ['csv'], ['range', '--from', '319']):
            done = subprocess.run([sys.executable, '-c', ask, str(path), sys.executable, FILTER] + words, capture_output=True)
            most = max(most, int(done.stdout.split()[-1]))
    return most < 100 << 10, True


def a_disk() -> Tuple[object, object]:
    """A disk as the input is mapped, as a file is: a medium may be a part of a much larger one."""
    ask = ('import resource, subprocess, sys; subprocess.run(sys.argv[2:], stdin=open(sys.argv[1], "rb"), '
           'stdout=subprocess.DEVNULL); print(resource.getrusage(resource.RUSAGE_CHILDREN).ru_maxrss)')
    with tempfile.NamedTemporaryFile() as held:
        held.write(b''.join(flight(random.Random('disk'), 30)))
        held.truncate(300 << 20)
        made = subprocess.run(['losetup', '--find', '--show', held.name], capture_output=True, text=True) if shutil.which(
            'losetup') and os.getuid() == 0 else None
        if made is None or made.returncode:
            print('NOT TRIED: a disk as the input (no loop device here)')
            return True, True
        device = made.stdout.strip()
        try:
            done = subprocess.run([sys.executable, '-c', ask, device, sys.executable, FILTER, 'setup'], capture_output=True)
        finally:
            subprocess.run(['losetup', '--detach', device])
    return int(done.stdout) < 100 << 10, True


# ---- the source

def version() -> Tuple[object, object]:
    """The number is that of VERSION, also where the package stands elsewhere."""
    wanted = 'ch10 ' + (TOP / 'VERSION').read_text().strip() + '\n'
    return run(['--version'], b''), (0, wanted, '')


def without_types(path: pathlib.Path) -> Iterator[str]:
    """The functions of a source whose signature leaves out a type."""
    for node in ast.walk(ast.parse(path.read_text(encoding='utf-8'))):
        if isinstance(node, (ast.FunctionDef, ast.AsyncFunctionDef)):
            every = node.args.args + node.args.kwonlyargs + [one for one in (node.args.vararg, node.args.kwarg) if one]
            bare = [one.arg for place, one in enumerate(every) if one.annotation is None
                    and not (place == 0 and one.arg in ('self', 'cls'))]
            if bare or node.returns is None:
                yield '%s:%d %s' % (path.name, node.lineno, node.name)


def signatures() -> Tuple[object, object]:
    """Each signature of the package says its types."""
    return [line for path in sorted((TOP / 'ch10').glob('*.py')) for line in without_types(path)], []


def syntax() -> Tuple[object, object]:
    """The package is of Python 3.7's syntax, and its start says so where Python is older."""
    found = []
    if sys.version_info >= (3, 8):
        for path in sorted((TOP / 'ch10').glob('*.py')) + [pathlib.Path(FILTER)]:
            try:
                ast.parse(path.read_text(encoding='utf-8'), feature_version=(3, 7))
            except SyntaxError as wrong:
                found.append('%s: %s' % (path.name, wrong))
    start = pathlib.Path(FILTER).read_text(encoding='utf-8')
    said = [line for line in start.splitlines() if 'version_info < (3, 7)' in line]
    return (found, len(said), start.index('version_info < (3, 7)') < start.index('from ch10')), ([], 1, True)


TRIALS: List[Callable] = [damaged_front, within_another, once_wrong, counter_anew, wrong_scripts, more_lost_than_a_column_takes,
                          inputs_of_the_shell, a_folder_for_the_judges, inputs_by_name, outputs_without_room, interrupted_early,
                          memory, a_disk, version, signatures, syntax]
