#!/usr/bin/env python3
"""Runs a program that records on a file, writes down what it writes there and when it syncs, and looks whether a loss of power
could hurt.

    scripts/trials/disk_log.py DIRECTORY MEDIUM PROGRAM WORDS..

DIRECTORY is how many blocks the settings reserve for the directory, and MEDIUM the file that PROGRAM records on. It asks that

- whatever is written to the directory comes after a sync of all that was written to files, so that it never lists what the disk
does not have;
- what is written to files after the directory changed comes after a sync too;
- the last thing is a sync, so that what the program acknowledged is on the disk;
- there is no map through which the system would write blocks before their turn.

It prints how many writes, bytes and syncs there were. Status 1 where something of it does not hold, and the program's own where it
fails.
"""
from __future__ import annotations

import os
import pathlib
import subprocess
import sys
import tempfile

HERE = pathlib.Path(__file__).resolve().parent
BLOCK = 512


def faults_of(lines: list[str], directory: int) -> list[str]:
    """What does not hold of a list of operations."""
    files, listed, found = 0, 0, []
    for number, line in enumerate(lines, 1):
        words = line.split()
        if words[0] == 'sync':
            files = listed = 0
        elif words[0] == 'shared':
            found.append(f'{number}: the medium is mapped so that the system writes it by itself')
        else:
            first, last = int(words[1]) // BLOCK, (int(words[1]) + int(words[2]) - 1) // BLOCK
            if first <= directory:
                if files:
                    found.append(f'{number}: the directory is written before a sync of what was written to files')
                listed += 1
            if last > directory:
                if listed and first > directory:
                    found.append(f'{number}: a file is written before a sync of the directory')
                files += 1
    if files or listed:
        found.append(f'{len(lines)}: there is no sync after the last write')
    return found


def main() -> int:
    """Does what the words ask for."""
    words = sys.argv[1:]
    if len(words) < 3 or not words[0].isdecimal():
        print(__doc__, file=sys.stderr)
        return 2
    with tempfile.TemporaryDirectory() as room:
        library, log = pathlib.Path(room, 'disk_log.so'), pathlib.Path(room, 'log')
        subprocess.run(['cc', '-std=c11', '-O2', '-shared', '-fPIC', '-o', library, HERE / 'disk_log.c', '-ldl'], check=True)
        log.touch()
        ran = subprocess.run(words[2:], env={**os.environ, 'LD_PRELOAD': str(library), 'DISK_LOG': str(log),
                                             'DISK_LOG_OF': words[1]}, stdout=subprocess.DEVNULL, check=False)
        if ran.returncode:
            print(f'disk_log: the program ended with status {ran.returncode}', file=sys.stderr)
            return ran.returncode if ran.returncode > 0 else 1
        lines = log.read_text(encoding='ascii').splitlines()
    writes = [line.split() for line in lines if line.startswith('write')]
    faults = faults_of(lines, int(words[0]))
    for fault in faults[:10]:
        print('disk_log: ' + fault)
    if not writes:
        print('disk_log: nothing was written to ' + words[1])
        return 1
    print(f'disk_log: {len(writes)} writes of {sum(int(it[2]) for it in writes)} bytes, {lines.count("sync")} syncs')
    return 1 if faults else 0


if __name__ == '__main__':
    sys.exit(main())
