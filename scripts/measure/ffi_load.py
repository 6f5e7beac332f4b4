#!/usr/bin/env python3
"""Measures recording through the library of ffi/r10.h beside plain writes of the same blocks with the same syncs.

    scripts/measure/ffi_load.py FOLDER                  a table: five runs of each line, in turn; of each measure the middle one
    scripts/measure/ffi_load.py FOLDER --times 3 --megabytes 200 --lengths 1000 --commits 1000
    scripts/measure/ffi_load.py FOLDER --ports          two tables of ports, in memory: twelve runs of each line of the first one

ffi/load.c does both in one run, over a file of FOLDER that is allocated whole: it records so many megabytes of messages of one
length, with a commit after each so many, and does each run of blocks and each sync on the file. Then it writes the same runs to
another new file, and syncs it as often. FOLDER stands on the disk that is measured, with room for twice the medium. The library
is the proved one where it is there (`scripts/ffi.sh kept`), or the one that R10_FFI_LIBRARY names.

With --ports it runs ffi/port_load.c: how fast four threads put messages into the recorder, and what another thread's offers wait
for while the disk syncs slowly. FOLDER then only has the program.
"""
import argparse
import os
import pathlib
import re
import subprocess
import sys
import tempfile

TOP = pathlib.Path(__file__).resolve().parents[2]
RECORDED = re.compile(r'recorded \d+ MB of messages in [\d.]+ s: ([\d.]+) MB/s; (\d+) blocks in (\d+) runs, (\d+) syncs; '
                      r'at most (\d+) MiB of own memory, (\d+) further rings')
PLAIN = re.compile(r'plain writes of the same runs, with the same syncs: [\d.]+ s: ([\d.]+) MB/s')


def give_up(why):
    """Ends with one line."""
    print('ffi_load: ' + why, file=sys.stderr)
    sys.exit(1)


def middle(values):
    """The middle one."""
    return sorted(values)[len(values) // 2]


def compiled(room, name):
    """The program of ffi/NAME.c over the kept library."""
    library = os.environ.get('R10_FFI_LIBRARY')
    if library is None:
        kept = subprocess.run([TOP / 'scripts' / 'ffi.sh', 'kept'], stdout=subprocess.PIPE, text=True, check=False)
        if kept.returncode != 0:
            give_up('there is no library')
        library = kept.stdout.strip()
    kit = pathlib.Path(os.path.realpath(subprocess.check_output(['which', 'rt'], text=True).strip())).parent.parent
    program = room / name
    words = ['cc', '-std=c11', '-O2', '-pthread', f'-I{TOP}/ffi', '-o', program, TOP / 'ffi' / f'{name}.c', library]
    if subprocess.run([*words, kit / 'c' / 'libos_c.a', kit / 'c' / 'liblibc_c.a'], check=False).returncode != 0:
        give_up(f'ffi/{name}.c does not compile')
    print(f'over {library}')
    return program


def run(program, medium, blocks, megabytes, length, each):
    """One run: the numbers of both lines."""
    if medium.exists():
        medium.unlink()
    words = [program, medium, blocks, megabytes, length, each]
    did = subprocess.run([str(it) for it in words], stdout=subprocess.PIPE, text=True, check=False)
    recorded, plain = RECORDED.search(did.stdout), PLAIN.search(did.stdout)
    medium.unlink(missing_ok=True)
    if did.returncode != 0 or recorded is None or plain is None:
        give_up(f'load ended with status {did.returncode}: {did.stdout}')
    return [float(it) for it in (*recorded.groups(), *plain.groups())]


def figures(program, *words):
    """One run of port_load: its values by their names."""
    did = subprocess.run([str(it) for it in (program, *words)], stdout=subprocess.PIPE, text=True, check=False)
    if did.returncode != 0:
        give_up(f'port_load ended with status {did.returncode}: {did.stdout}')
    return {name: int(value) for name, value, _ in (line.split(' ') for line in did.stdout.splitlines())}


def brief(nanos):
    """A time, in the unit that suits it."""
    return f'{nanos / 1e6:.3g} ms' if nanos >= 100000 else f'{nanos / 1e3:.3g} µs'


def ports(program, times):
    """Both tables of ports."""
    lengths, delays = (0, 8), (0, 10)
    fed = {length: [figures(program, 'feeds', 250000, length) for _ in range(times)] for length in lengths}
    waited = {delay: [figures(program, 'slow', delay) for _ in range(3)] for delay in delays}
    print('load after: ' + ' '.join(f'{it:.1f}' for it in os.getloadavg()))
    print('\n| Four threads offer 250,000 messages each | Accepted, million/s: least, middle, greatest | Refused of 100 | Runs |')
    print('|---|---|---|---|')
    for length, runs in fed.items():
        rates = sorted(it['feeds'] / 1e6 for it in runs)
        lost = sorted(it['feeds-refused-of-1000'] / 10 for it in runs)
        print(f'| messages of {length} bytes | {rates[0]:.2f}, {middle(rates):.2f}, {rates[-1]:.2f} | '
              f'{lost[0]:.0f} to {lost[-1]:.0f} | {times} |')
    print('\n| Call | ' + ' | '.join(f'Syncs of {delay} ms: mean, longest' for delay in delays) + ' |\n|---|---|---|')
    for name, what in (('commit', 'carrying, a pump and a commit, which syncs twice'), ('offer', 'an offer at a port')):
        cells = [', '.join(brief(middle([it[f'{name}-{part}'] for it in waited[delay]])) for part in ('mean', 'longest'))
                 for delay in delays]
        print(f'| {what} | ' + ' | '.join(cells) + ' |')


def main():
    words = argparse.ArgumentParser(description=__doc__, formatter_class=argparse.RawDescriptionHelpFormatter)
    words.add_argument('folder', type=pathlib.Path)
    words.add_argument('--times', type=int)
    words.add_argument('--megabytes', type=int, default=400)
    words.add_argument('--lengths', type=int, nargs='+', default=[100, 1000, 10000])
    words.add_argument('--commits', type=int, nargs='+', default=[1000])
    words.add_argument('--ports', action='store_true')
    asked = words.parse_args()
    asked.times = asked.times or (12 if asked.ports else 5)
    if not asked.folder.is_dir():
        give_up(f'there is no folder {asked.folder}')
    lines = [(length, each) for length in asked.lengths for each in asked.commits]
    found = {line: [] for line in lines}
    # (a file is full by the most that its messages may need: 104 bytes and more each)
    blocks = {length: (asked.megabytes * 1000000 // length * (length + 160) // 512 + 65536) for length in asked.lengths}
    with tempfile.TemporaryDirectory(dir=asked.folder) as name:
        room = pathlib.Path(name)
        program = compiled(room, 'port_load' if asked.ports else 'load')
        print('load before: ' + ' '.join(f'{it:.1f}' for it in os.getloadavg()))
        if asked.ports:
            return ports(program, asked.times)
        for _ in range(asked.times):
            for length, each in lines:
                found[length, each].append(run(program, room / 'medium', blocks[length], asked.megabytes, length, each))
        print('load after: ' + ' '.join(f'{it:.1f}' for it in os.getloadavg()))
    print(f'\n{asked.megabytes} MB of messages; of {asked.times} runs the middle one\n')
    print('| Messages | Commit after each | Recorded, MB/s | Plain writes, MB/s | Ratio | Blocks | Runs | Syncs | Own MiB |')
    print('|---|---|---|---|---|---|---|---|---|')
    for length, each in lines:
        runs = found[length, each]
        rate, written, count, syncs, memory = (middle([it[n] for it in runs]) for n in range(5))
        plain, ratio = middle([it[6] for it in runs]), middle([it[0] / it[6] for it in runs])
        print(f'| {length:,} bytes | {each:,} | {rate:.1f} | {plain:.1f} | {ratio:.2f} | {written:,.0f} | {count:,.0f} | '
              f'{syncs:,.0f} | {memory:.0f} |')


if __name__ == '__main__':
    main()
