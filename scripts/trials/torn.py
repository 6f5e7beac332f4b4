#!/usr/bin/env python3
"""Takes the power from a disk that writes 4,096 bytes at once, and counts what that costs: a sector that was being written is lost
whole.

    scripts/trials/torn.py [RUNS [CUTS [SEED]]]

The recorder asks that a block of 512 bytes is written whole or not at all, with its neighbours untouched. A disk with larger
sectors does not keep that. In each of RUNS runs (40) ffi/example.c writes down the operations of its disk. After CUTS (12) of them,
by chance, the power fails: each block that was written since the last sync holds what it had then, or one of the writes since; and
the sector of one such block is lost, all eight blocks of it read as zeros.

It prints what the recorder then finds, for a directory of 2 blocks, which shares its sector with the first file, and one of 7,
which has its sector for itself. Beside them stands the same without a lost sector, of which nothing may be missing: status 1 if
there is.
"""
from __future__ import annotations

import os
import pathlib
import random
import shutil
import subprocess
import sys
import tempfile

sys.dont_write_bytecode = True
TOP = pathlib.Path(__file__).resolve().parents[2]
sys.path[1:1] = map(str, [TOP, *(TOP / 'scripts').iterdir()])  # modules of the other folders

import soak  # noqa: E402
from judge_image import Refused  # noqa: E402

SECTOR = 8  # blocks
ZEROS = bytes(512 * SECTOR)
OUTCOMES = ('all there', 'the last commit is missing', 'earlier messages are missing', 'a file is at fault', 'no directory')


def compiled(folder: pathlib.Path, directory: int) -> pathlib.Path:
    """The example, with so many blocks reserved for the directory."""
    library = subprocess.run([TOP / 'scripts' / 'ffi.sh', 'kept'], stdout=subprocess.PIPE, check=True, text=True).stdout.strip()
    kit = pathlib.Path(os.path.realpath(shutil.which('rt') or 'rt')).parent.parent
    text = (TOP / 'ffi' / 'example.c').read_text(encoding='utf-8')
    wanted = f'"directory = {directory}\\n"'
    source, program = folder / f'example_{directory}.c', folder / f'example_{directory}'
    changed = text.replace('"directory = 2\\n"', wanted)
    if changed.count(wanted) != 1:
        sys.exit('torn: ffi/example.c has no directory of 2 blocks')
    source.write_text(changed, encoding='utf-8')
    subprocess.run(['cc', '-std=c11', '-O2', '-I', TOP / 'ffi', '-o', program, source, library, kit / 'c' / 'liblibc_c.a'],
                   check=True)
    return program


def unsynced(operations: list) -> list[int]:
    """The blocks that were written since the last sync."""
    found: dict[int, None] = {}
    for it in operations:
        if it is None:
            found.clear()
        else:
            found[it[0]] = None
    return list(found)


def outcome(image: bytes, sure: list[tuple[int, int]], done: int) -> str:
    """What a recorder finds of the messages that were acknowledged by then."""
    acknowledged = [messages for at, messages in sure if at <= done]
    wanted = max(acknowledged)
    before = max([messages for messages in acknowledged if messages < wanted], default=0)
    try:
        found = soak.found_in(image).get(1, [])
    except Refused as refused:
        return 'no directory' if 'Directory' in str(refused) else 'a file is at fault'
    if not soak.missing_in(found, 0, wanted):
        return 'all there'
    return 'earlier messages are missing' if soak.missing_in(found, 0, before) else 'the last commit is missing'


def trial(program: pathlib.Path, directory: int, folder: pathlib.Path, chance: random.Random, runs: int,
          cuts: int) -> tuple[dict, dict]:
    """How often each outcome came, with a sector lost and without."""
    lost = dict.fromkeys(OUTCOMES, 0)
    kept = dict.fromkeys(OUTCOMES, 0)
    soak.DIRECTORY = directory
    path, log = folder / 'medium', folder / 'operations'
    for _ in range(runs):
        path.unlink(missing_ok=True)
        subprocess.run([program, path, '0', '20', '10'], stdout=subprocess.DEVNULL, check=True)
        image = path.read_bytes()
        each = chance.choice((1, 3, 20, 100))
        ran = subprocess.run([program, path, '1', str(chance.choice((30, 300))), str(each), log], stdout=subprocess.PIPE,
                             check=True, text=True)
        operations, sure = soak.operations_in(log.read_bytes()), soak.said_sure(ran.stdout)
        for _ in range(cuts):
            done = chance.randrange(1, len(operations) + 1)
            left = soak.cut(image, operations[:done], chance)
            kept[outcome(left, sure, done)] += 1
            blocks = unsynced(operations[:done])
            if blocks:
                at = 512 * SECTOR * (chance.choice(blocks) // SECTOR)
                left = left[:at] + ZEROS + left[at + len(ZEROS):]
                lost[outcome(left, sure, done)] += 1
    return lost, kept


def main() -> int:
    """Does what the words ask for."""
    words = sys.argv[1:]
    if len(words) > 3 or not all(word.isdecimal() for word in words):
        print(__doc__, file=sys.stderr)
        return 2
    runs, cuts, seed = (int(word) for word in words + ['40', '12', '1'][len(words):])
    wrong = 0
    with tempfile.TemporaryDirectory() as room:
        folder = pathlib.Path(room)
        for directory in (2, 7):
            lost, kept = trial(compiled(folder, directory), directory, folder, random.Random(seed), runs, cuts)
            for name, found in (('a sector lost', lost), ('none lost', kept)):
                print(f'directory of {directory} blocks, {name}: ' + ', '.join(f'{found[it]} {it}' for it in OUTCOMES if found[it]))
            wrong += sum(kept.values()) - kept['all there']
    return 1 if wrong else 0


if __name__ == '__main__':
    try:
        sys.exit(main())
    except KeyboardInterrupt:
        sys.exit(130)
