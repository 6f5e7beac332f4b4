#!/usr/bin/env python3
"""Kills a recording program at random moments, takes the power from its disk at random operations, and counts what it said is sure
and is not there.

    scripts/trials/soak.py PROGRAM SECONDS SEED FOLDER [BLOCKS]

PROGRAM is ffi/example.c (scripts/trials/soak.sh compiles it and calls this). Each run records on the same file, FOLDER/medium, and
has a number of its own, which stands in its messages: `RUN NUMBER`. Of each run that was not erased, the messages that it said are
sure have to be on the medium, each once and in order, and behind them none but later ones of the same run.

Every twentieth run is one on a file of its own, FOLDER/cut, that is not killed and writes down its operations. Of it a loss of
power is made at some of them: each block that was written since the last sync then holds, by chance, what was there at the sync or
one of the writes since. The same has to hold of what is left, by what was said up to that operation; and PROGRAM itself has to open
it, close what was cut off, and record.
"""
import mmap
import os
import pathlib
import random
import subprocess
import sys
import time

TOP = pathlib.Path(__file__).resolve().parents[2]
sys.path[1:1] = map(str, [TOP, *(TOP / 'scripts').iterdir()])  # modules of the other folders

from judge_image import Refused, listed, mount, play  # noqa: E402

LINE = 5
DIRECTORY = 2


class Said:
    """What a run printed."""

    def __init__(self, text):
        self.sure = self.played = self.erased = self.erases = self.sealed = self.files = 0
        self.erasing = None
        self.wrong = []
        for line in text.split('\n')[:-1]:
            words = line.split(' ')
            if words[0] == 'sure':
                self.sure, self.played = int(words[1]), int(words[3])
            elif words[0] == 'erasing':
                self.erasing = int(words[1])
            elif words[0] == 'erased':
                self.erased, self.erasing = int(words[1]), None
                self.erases += 1
            elif words[0] == 'sealed':
                self.sealed += 1
            elif words[0] == 'started':
                self.files += 1
            elif words[0] != 'stopped':
                self.wrong.append(line)


def found_in(image):
    """The numbers of the messages of each run, in their order on the medium."""
    found = {}
    mount(image, DIRECTORY)
    for number in range(len(listed(image))):
        for line in play(image, number, LINE):
            words = line.split(' ')
            run, message = bytes.fromhex(words[7]).decode().split(' ')
            found.setdefault(int(run), []).append(int(message))
    return found


def missing_in(found, low, high):
    """How many of the messages from low on and below high are not there, or stand among others than themselves."""
    numbers = [it for it in found if it >= low]
    wanted = list(range(low, high))
    if numbers[:len(wanted)] == wanted and numbers == list(range(low, low + len(numbers))):
        return 0
    return max(1, len(wanted) - len(set(numbers) & set(wanted)))


def operations_in(text):
    """The operations that a run wrote down: a block's number and bytes, or None for a sync."""
    found, at = [], 0
    while at < len(text):
        end = text.index(b'\n', at)
        words = text[at:end].split(b' ')
        at = end + 1
        if words[0] == b'sync':
            found.append(None)
        else:
            found.append((int(words[1]), text[at:at + 512]))
            at += 512
    return found


def cut(image, operations, chance):
    """What a loss of power behind these operations may leave."""
    left, unsure = bytearray(image), {}
    for it in operations:
        if it is None:
            unsure.clear()
            continue
        block, contents = it
        unsure.setdefault(block, [bytes(left[512 * block:512 * block + 512])]).append(contents)
        left[512 * block:512 * block + 512] = contents
    way = chance.choice((0, 1, 2))  # each block by chance, or the oldest of all, or the newest
    for block, contents in unsure.items():
        left[512 * block:512 * block + 512] = chance.choice(contents) if way == 0 else contents[0] if way == 1 else contents[-1]
    return bytes(left)


def said_sure(text):
    """What was sure, in the order in which it was said: how many operations were done then, and how many messages were sure."""
    found = [(0, 0)]
    for line in text.split('\n')[:-1]:
        words = line.split(' ')
        if words[0] == 'sure':
            found.append((int(words[5]), int(words[1])))
    return found


def cuts(program, folder, chance, number):
    """Losses of power in one run: how many, how many operations it had, how many messages were sure at them, and how many of these
    are missing."""
    path, log = f'{folder}/cut', f'{folder}/operations'
    if os.path.exists(path):
        os.remove(path)
    before = chance.choice((1, 300))
    subprocess.run([program, path, '0', str(before), '100'], stdout=subprocess.DEVNULL, check=True)
    if chance.random() < 0.5:
        # a file that was cut off stands before it
        child = subprocess.Popen([program, path, '0', '0', '7'], stdout=subprocess.DEVNULL)
        try:
            child.wait(0.05)
        except subprocess.TimeoutExpired:
            child.kill()
            child.wait()
    with open(path, 'rb') as it:
        image = it.read()
    earlier = found_in(image).get(0, [])
    each = chance.choice((1, 3, 20, 100))
    ran = subprocess.run([program, path, '1', str(chance.choice((30, 300, 1000))), str(each), log],
                         stdout=subprocess.PIPE, check=True)
    with open(log, 'rb') as it:
        operations = operations_in(it.read())
    sure, sum_sure, missing, count = said_sure(ran.stdout.decode()), 0, 0, 12
    for it in range(count):
        done = chance.randrange(len(operations) + 1)
        left = cut(image, operations[:done], chance)
        wanted = max(messages for at, messages in sure if at <= done)
        sum_sure += wanted
        try:
            found = found_in(left)
        except Refused as refused:
            print(f'cut {number} behind {done} operations: {refused}')
            missing += 1
            continue
        lost = missing_in(found.get(1, []), 0, wanted) + (found.get(0, []) != earlier)
        if it == 0:
            with open(path, 'wb') as to:
                to.write(left)
            again = subprocess.run([program, path, '2', '10', '5'], stdout=subprocess.PIPE)
            with open(path, 'rb') as to:
                found = found_in(to.read())
            lost += (again.returncode != 0 or found.get(2, []) != list(range(10))
                     or missing_in(found.get(1, []), 0, wanted) or found.get(0, []) != earlier)
        if lost:
            print(f'cut {number} behind {done} operations: of {wanted} messages {lost} are missing')
            missing += lost
    return count, len(operations), sum_sure, missing


def main(words):
    if len(words) not in (4, 5):
        sys.exit(__doc__)
    program, seconds, seed, folder = words[0], float(words[1]), words[2], words[3]
    blocks = words[4] if len(words) == 5 else '2048'
    chance, medium = random.Random(seed), f'{folder}/medium'
    wanted, run, kills, acknowledged, missing, files, sealed, erases, read_back = {}, 0, 0, 0, 0, 0, 0, 0, 0
    lost_power = [0, 0, 0, 0]
    if not os.path.exists(medium):
        # the file is made whole first: a large one takes longer than a run has
        subprocess.run([program, medium, '0', '1', '1', '-', blocks], stdout=subprocess.DEVNULL, check=True)
        wanted[0], run = (0, 1), 1
    until = time.monotonic() + seconds
    while time.monotonic() < until:
        if run % 20 == 19:
            lost_power = [one + more for one, more in zip(lost_power, cuts(program, folder, chance, run))]
        each = chance.choice((1, 2, 5, 20, 100))
        with open(f'{folder}/said', 'w') as said:
            child = subprocess.Popen([program, medium, str(run), '0', str(each), '-', blocks], stdout=said)
            try:
                child.wait(chance.uniform(0.01, 0.6))
            except subprocess.TimeoutExpired:
                child.kill()
                kills += 1
                child.wait()
        with open(f'{folder}/said') as text:
            said = Said(text.read())
        for line in said.wrong:
            print(f'run {run}: {line}')
        if child.returncode != -9 or said.wrong:
            print(f'run {run}: status {child.returncode}')
            missing += 1
        acknowledged += said.sure
        files, sealed, erases, read_back = files + said.files, sealed + said.sealed, erases + said.erases, read_back + said.played
        try:
            with open(medium, 'rb') as it, mmap.mmap(it.fileno(), 0, access=mmap.ACCESS_READ) as image:
                found = found_in(image)
        except Refused as refused:
            print(f'run {run}: {refused}')
            return 1
        if said.erases:
            wanted = {}
        low = said.erased
        if said.erasing is not None and not any(found.get(which) for which in wanted):
            # it was killed amid an erase, which was done, or right after it
            wanted, low = {}, said.sure
        wanted[run] = (low, said.sure)
        for which, (low, high) in wanted.items():
            lost = missing_in(found.get(which, []), low, high)
            if lost:
                print(f'run {run}: of run {which} {lost} of the messages {low} to {high - 1} are missing')
                missing += lost
        run += 1
    print(f'{kills} kills of {run} runs in {seconds:.0f} seconds: {acknowledged} messages acknowledged by commits, {read_back} '
          f'read back before the '
          f'kills, {files} files begun, {sealed} sealed after a kill, {erases} erases; {missing} missing')
    print(f'{lost_power[0]} losses of power in runs of {lost_power[1]} operations: {lost_power[2]} messages acknowledged by then; '
          f'{lost_power[3]} missing')
    return 1 if missing or lost_power[3] else 0


if __name__ == '__main__':
    sys.exit(main(sys.argv[1:]))
