#!/usr/bin/env python3
"""Runs sessions (`r10 run`) again and again, and looks whether each ends and whether its accounts add up.

    scripts/trials/hammer.py [--runs N] [--seed S] [--program P] [--taskset] [--yield] [--only PLACE]
    scripts/trials/hammer.py --threads [--seed S] [--program P]
    scripts/trials/hammer.py --idle [--program P]
    scripts/trials/hammer.py --images [--runs N] [--seed S] [--program P]
    scripts/trials/hammer.py --gate [--program P]

The first form makes 40 session scripts from the seed, and runs them in turn until there were N runs: one channel, no feed and 32
readers; the example; and others of 1 to 32 channels of all kinds, up to 8 feeds, up to 32 readers, up to 8 orders of every kind,
lanes of 1 message on, and media from a few blocks on. --taskset gives each run one processor, --yield has each call that sleeps or
wakes yield by chance, --only runs one script alone.

The second form refuses threads: of a session of 8 feeds and 8 readers, and of the scripts 0 to 11, each thread alone, each and all
behind it, and all; and then it limits memory (ulimit -v) and, where it may run as another user, the number of threads (ulimit -u).
Where all are refused, the workers run one after another, and the readers begin when the writer has ended: they read all the same.

The third form has a feed pause for 20 ms behind each of 150 messages, and asks that the session, whose writer then has nothing to
do, takes less than a hundredth of a processor.

The fourth form looks at the media that N sessions leave (`r10 run --image`). Half of them are the scripts of the first form. The
others have room for all that is offered, in lanes and on the medium, and no order that closes the file; so every schedule files the
same. Of each image it asks that it has the script's blocks, and a file that the steps began where no order erases; and that
judge_image.py, written from the rules alone, has the lines of `files`, `play` and `check` over it, with no file that is not strict.
The entries of a channel have to be messages that its feed offered, in order, and with the losses before them no more than these. Of
the others they are all of them, as many as `r10 run` says are filed, and the times and the events are those of the steps and the
orders.

The fifth form is what the gate runs: 2,000 runs of the first, 400 of them again with yields and 400 on one processor, the second,
the third, and 40 media.

Of each run it asks that it ends within ten seconds, or a minute more where the machine is so busy that a thread of it waits for a
processor. A run all of whose threads are asleep then hangs. It asks for status 0 where the audit says yes; that of each feed all
messages were accepted or refused, and that the accepted ones are the erased, the filed and the rest; that a reader of one channel
read as many entries as were filed on it, where the file that it reads is the only one; and that the audit says yes, or no where an
order erases or dismounts. Under a limit a run may end with status 3 and a line on standard error, or not be loaded at all (127),
and a reader may have ended early. Status 1 where a run is not so.

P is the proved program, crates/r10_cli/out/r10_cli, where none is named. Where it is not there, or no C compiler for
scripts/trials/hammer.c, or no Python 3.11 for the media, a line says what was NOT TRIED.
"""
from __future__ import annotations

import argparse
import os
import pathlib
import random
import re
import resource
import shutil
import subprocess
import sys
import tempfile
import time
from collections.abc import Callable, Iterator
from typing import NamedTuple

sys.dont_write_bytecode = True  # a run leaves nothing in the folder of the scripts

TOP = pathlib.Path(__file__).resolve().parents[2]
sys.path[1:1] = map(str, [TOP, *(TOP / 'scripts').iterdir()])  # modules of the other folders

import judge_image  # noqa: E402
from made_kinds import BY_NAME, NAMES  # noqa: E402

try:
    import tomllib
except ImportError:  # (before Python 3.11)
    tomllib = None

PROVED = TOP / 'crates' / 'r10_cli' / 'out' / 'r10_cli'
SECONDS = 10  # in which a run has to end
LATE_SECONDS = 60  # and in which it has to, where a thread of it waits for a processor
SCRIPTS = 40
MOST_COUNT = 2**48 - 1
CIVIL = '2024-02-29 12:34:56.78'
SETUP = '41424344'
TIME, EVENT = 60001, 60002  # their channels, but in the example


class Script(NamedTuple):
    """A session script, and what is wanted of it: how many messages each feed offers, which readers read as much as is filed on
    which channel, whether the audit may say no, and how many entries each channel has at the end, if every schedule comes to the
    same."""

    name: str
    text: str
    steps: int
    feeds: dict[int, int]
    exact: dict[int, int]
    readers: int
    may_say_no: bool
    entries: dict[int, int] | None = None


def table(name: str, /, **keys: object) -> str:
    """A table of the script: texts in quotes, numbers and lists as they are."""
    lines = [f'[[{name}]]']
    for key, value in keys.items():
        lines.append(f'{key} = "{value}"' if isinstance(value, str) else f'{key} = {value}')
    return '\n'.join(lines) + '\n'


def message_of(chance: random.Random, kind: str) -> str:
    """The keys of a message."""
    some = bytes(chance.randrange(256) for _ in range(chance.choice((0, 1, 2, 8, 40, 200)))).hex()
    return BY_NAME[kind].item(chance, some)


def items_of(chance: random.Random, kind: str, number: int) -> str:
    count = 2000
    items = []
    for _ in range(number):
        count += chance.choice((0, 1, 7, 1000))
        items.append(f'{{ count = {count}, {message_of(chance, kind)} }}')
    return '[' + ', '.join(items) + ']'


def order_of(chance: random.Random, number: int) -> tuple[str, str]:
    """An order, and its name."""
    do = chance.choice(('event', 'event', 'commit', 'tick', 'stop', 'start', 'seal', 'erase', 'mount', 'dismount'))
    if do == 'event':
        return do, table('order', do=do, number=chance.randrange(4096), count=3000 + number)
    if do == 'tick':
        return do, table('order', do=do, count=3000 + number, civil=CIVIL)
    if do == 'start':
        return do, table('order', do=do, name=f'N{number}', setup=SETUP)
    return do, table('order', do=do)


def top_of(blocks: int) -> str:
    return f'blocks = {blocks}\ndirectory = 2\nvolume = "VOL"\nnodes = 100\ntime = {TIME}\nevent = {EVENT}\n'


def channel(number: int, kind: str, capacity: int, /, **more: int) -> str:
    return table('channel', id=number, kind=kind, capacity=capacity,
                 **{'check': 0, 'bytes': 524288, 'number': 65535, **BY_NAME[kind].settings, **more})


def beginning() -> list[str]:
    return [table('step', do='mount'), table('step', do='tick', count=1000, civil=CIVIL),
            table('step', do='start', name='FLT1', setup=SETUP)]


def idle_script(readers: int) -> Script:
    """One channel, no feed, and so many readers."""
    text = top_of(64) + channel(5, 'uart', 16) + ''.join(beginning()) + readers * table('reader', file=0, channels=[],
                                                                                        **{'from': 0, 'to': MOST_COUNT})
    return Script(f'no feed, {readers} readers', text, 3, {}, {}, readers, False, {TIME: 1})


def example_script() -> Script:
    text = (TOP / 'examples' / 'session.toml').read_text(encoding='utf-8')
    return Script('examples/session.toml', text, 3, {5: 4, 6: 3}, {0: 5}, 2, False, {5: 4, 6: 3, 1: 1, 2: 1})


def crowd_script(feeds: int, readers: int, messages: int = 20) -> Script:
    """So many feeds of so many messages, with lanes for all of them, and readers of their channels."""
    chance = random.Random(feeds * 100 + readers)
    text = top_of(256)
    for number in range(1, feeds + 1):
        text += channel(number, 'uart', 1000)
    text += ''.join(beginning())
    for number in range(1, feeds + 1):
        text += f'[[feed]]\nchannel = {number}\nitems = {items_of(chance, "uart", messages)}\n'
    text += table('order', do='event', number=3, count=2000)
    exact = {}
    for number in range(readers):
        exact[number] = number % feeds + 1
        text += table('reader', file=0, channels=[exact[number]], **{'from': 0, 'to': MOST_COUNT})
    return Script(f'{feeds} feeds, {readers} readers', text, 3, dict.fromkeys(range(1, feeds + 1), messages), exact, readers, False)


def any_script(seed: int, place: int) -> Script:
    """Any script of this place from a seed."""
    chance = random.Random(seed * 1000 + place)
    channels = [(number + 1, chance.choice(NAMES)) for number in range(chance.choice((1, 2, 3, 8, 32)))]
    text = top_of(chance.choice((12, 20, 64, 300, 1000)))
    for number, kind in channels:
        text += channel(number, kind, chance.choice((1, 2, 3, 16, 1000)), number=chance.choice((1, 4, 65535)))
    steps = beginning()[: chance.choice((3, 3, 3, 3, 2))]
    text += ''.join(steps)
    feeds = {}
    for number, kind in chance.sample(channels, min(len(channels), chance.randrange(9))):
        feeds[number] = chance.choice((0, 1, 5, 50, 400))
        text += f'[[feed]]\nchannel = {number}\nitems = {items_of(chance, kind, feeds[number])}\n'
    orders = [order_of(chance, number) for number in range(chance.choice((0, 0, 1, 3, 8)))]
    text += ''.join(order for _, order in orders)
    exact = {}
    readers = chance.choice((0, 1, 2, 8, 32))
    same_file = len(steps) == 3 and not {'stop', 'erase', 'dismount'} & {name for name, _ in orders}
    for number in range(readers):
        chosen = chance.sample(sorted(feeds) or [1], 1) if chance.randrange(3) else []
        if chosen and feeds and same_file:
            exact[number] = chosen[0]
        text += table('reader', file=0, channels=chosen, **{'from': 0, 'to': MOST_COUNT})
    may_say_no = bool({'erase', 'dismount'} & {name for name, _ in orders})
    return Script(f'script {place} of seed {seed}', text, len(steps), feeds, exact, readers, may_say_no)


def roomy_script(seed: int, place: int) -> Script:
    """Any script of this place from a seed whose lanes and medium have room for all, and whose orders close no file."""
    chance = random.Random(f'{seed} {place}')
    channels = [(number + 1, chance.choice(NAMES)) for number in range(chance.choice((1, 2, 3, 8, 32)))]
    text = top_of(6000)
    for number, kind in channels:
        text += channel(number, kind, 1000, number=chance.choice((1, 4, 65535)))
    text += ''.join(beginning())
    feeds = {}
    for number, kind in chance.sample(channels, min(len(channels), chance.randrange(1, 9))):
        feeds[number] = chance.choice((0, 1, 5, 50, 400))
        text += f'[[feed]]\nchannel = {number}\nitems = {items_of(chance, kind, feeds[number])}\n'
    orders = [chance.choice(('event', 'tick', 'commit')) for _ in range(chance.choice((0, 1, 3, 8)))]
    for number, do in enumerate(orders):
        keys = {'event': {'number': number, 'count': 3000 + number}, 'tick': {'count': 3000 + number, 'civil': CIVIL}, 'commit': {}}
        text += table('order', do=do, **keys[do])
    entries = {**feeds, TIME: 1 + orders.count('tick'), EVENT: orders.count('event')}
    return Script(f'roomy script {place} of seed {seed}', text, 3, feeds, {}, 0, False, entries)


def scripts_of(seed: int) -> list[Script]:
    return [idle_script(32), example_script()] + [any_script(seed, place) for place in range(2, SCRIPTS)]


FEED = re.compile(r'feed (\d+) accepted (\d+) refused (\d+) erased (\d+) filed (\d+) rest (\d+)$')
READER = re.compile(r'reader (\d+) entries (\d+)$')


def fault_in(script: Script, output: str, status: int, is_short: bool) -> str:
    """What is wrong in what a session printed, if something is. Where memory is short, a reader may have ended early."""
    lines = output.splitlines()
    behind = lines[script.steps:]
    filed: dict[int, int] = {}
    for (number, offered), line in zip(script.feeds.items(), behind):
        found = FEED.match(line)
        if not found:
            return f'no line of the feed {number}'
        said, accepted, refused, erased, filed[number], rest = (int(word) for word in found.groups())
        if said != number or accepted + refused != offered or accepted != erased + filed[number] + rest:
            return f'the account of the feed {number} does not add up'
        if script.entries is not None and filed[number] != script.entries[number] and not is_short:
            return f'of the feed {number} {filed[number]} messages are filed, not {script.entries[number]}'
    readers = behind[len(script.feeds):-1]
    if len(readers) != script.readers or not behind:
        return 'not a line for each reader and the audit'
    for number, line in enumerate(readers):
        found = READER.match(line)
        if found and int(found[1]) != number:
            return f'the line of the reader {number} has another number'
        if not found and not re.match(r'refused \d+ \w+', line):
            return f'no line of the reader {number}'
        if found and not is_short and number in script.exact and int(found[2]) != filed[script.exact[number]]:
            return f'the reader {number} read {found[2]} of {filed[script.exact[number]]} filed'
    wanted = {'audit yes': 0, 'audit no': 1}.get(behind[-1])
    if wanted is None or wanted != status or (wanted == 1 and not script.may_say_no):
        return f'{behind[-1]}, status {status}'
    return ''


class Runner:
    """Runs a program over scripts, and counts."""

    def __init__(self, program: pathlib.Path, keep: pathlib.Path, seconds: int) -> None:
        self.program = program
        self.seconds = seconds
        self.keep = keep
        self.runs = 0
        self.wrong = 0
        self.longest = 0.0
        self.late = 0
        self.asleep = ''
        self.errors = ''

    def end_of(self, made: subprocess.Popen[str], text: str) -> tuple[str, str]:
        """What a run printed. Where it is late and a thread of it waits for a processor, as beside provers, it has a minute."""
        try:
            return made.communicate(text, timeout=self.seconds)
        except subprocess.TimeoutExpired as late:
            looks = []
            while len(looks) < LATE_SECONDS:
                looks.append(threads_of(made.pid))
                self.asleep = f'{len(looks[-1])} threads, states {"".join(sorted(set(looks[-1])))}'
                if len(looks) > 4 and all(set(states) <= {'S'} for states in looks[-5:]):
                    break
                try:
                    output = made.communicate(timeout=1)
                    self.late += 1
                    return output
                except subprocess.TimeoutExpired:
                    continue
            made.kill()
            made.communicate()
            raise late

    def run(self, script: Script, more: dict[str, str] | None = None, limit: Callable[[], None] | None = None,
            or_no_memory: bool = False, where: str = '') -> bool:
        """Runs a script once. Whether all is as it is to be; what is not is printed, and the script kept."""
        started = time.monotonic()
        self.runs += 1
        self.errors = ''
        try:
            made = subprocess.Popen([str(self.program), 'run'], stdin=subprocess.PIPE, stdout=subprocess.PIPE,
                                    stderr=subprocess.PIPE, text=True, env={**os.environ, **(more or {})}, preexec_fn=limit)
            output, self.errors = self.end_of(made, script.text)
        except subprocess.TimeoutExpired as late:
            wrong = f'did not end in {late.timeout:.0f} seconds: {self.asleep}'
        except OSError as fault:  # (a limit may keep it from being loaded)
            wrong = '' if or_no_memory else f'was not loaded: {fault}'
        else:
            if or_no_memory and (made.returncode == 3 and re.search(r'^r10: ', self.errors, re.M) or made.returncode == 127):
                wrong = ''
            else:
                wrong = fault_in(script, output, made.returncode, or_no_memory)
        self.longest = max(self.longest, time.monotonic() - started)
        if wrong:
            self.keep_script(script, f'{where}: {wrong}')
        return not wrong

    def keep_script(self, script: Script, wrong: str) -> None:
        """Prints what is wrong, and keeps the script."""
        self.wrong += 1
        kept = self.keep / f'hammer-{os.getpid()}-{self.runs}.toml'
        kept.write_text(script.text, encoding='utf-8')
        print(f'hammer: run {self.runs}, {script.name}{wrong} ({kept})', flush=True)


def threads_of(process: int) -> list[str]:
    """The state of each thread of a process: S asleep, R running or waiting for a processor."""
    states = []
    for task in pathlib.Path(f'/proc/{process}/task').iterdir():
        try:
            states.append((task / 'stat').read_text(encoding='utf-8').rpartition(') ')[2][0])
        except OSError:  # (it has ended)
            continue
    return states


def disturber(folder: pathlib.Path) -> pathlib.Path | None:
    """The library that disturbs threads, if there is a compiler for it."""
    if not shutil.which('cc'):
        return None
    made = folder / 'hammer.so'
    subprocess.run(['cc', '-O2', '-Wall', '-Wextra', '-Werror', '-shared', '-fPIC', '-o', str(made),
                    str(TOP / 'scripts' / 'trials' / 'hammer.c'), '-ldl'], check=True)
    return made


def on_one_processor() -> None:
    os.sched_setaffinity(0, {sorted(os.sched_getaffinity(0))[-1]})


def hammer(runner: Runner, given: argparse.Namespace, library: pathlib.Path | None) -> None:
    """The first form."""
    scripts = scripts_of(given.seed)
    if given.only is not None:
        scripts = [scripts[given.only]]
    limit = on_one_processor if given.taskset else None
    yielded = 0
    for number in range(given.runs):
        more = {'LD_PRELOAD': str(library), 'HAMMER_YIELD': str(given.seed + number)} if given.yields else {}
        runner.run(scripts[number % len(scripts)], more, limit)
        if (number + 1) % 5000 == 0 and number + 1 < given.runs:
            print(f'hammer: {number + 1} runs so far, {runner.wrong} not as they are to be', flush=True)
        yielded += 'hammer: a call yields' in runner.errors
    if given.yields and not yielded:
        print('hammer: NOT TRIED with yields: the program does not take the library')


def refusals(threads: int) -> Iterator[str]:
    """Which threads are refused: each alone, each and all behind it."""
    for first in range(1, threads + 1):
        yield f'{first}-{first}'
        yield f'{first}-{2**62}'


def refuse_threads(runner: Runner, given: argparse.Namespace, library: pathlib.Path | None) -> None:
    """The second form."""
    scripts = [crowd_script(8, 8)] + scripts_of(given.seed)[:12]
    if library:
        met, before = 0, runner.runs
        for script in scripts:
            # three joins, and one less than there are feeds, and readers
            for which in refusals(3 + max(0, len(script.feeds) - 1) + max(0, script.readers - 1)):
                runner.run(script, {'LD_PRELOAD': str(library), 'HAMMER_REFUSE': which}, where=f', threads {which} refused')
                met += 'hammer: a thread is refused' in runner.errors
        print(f'hammer: threads refused in {met} of {runner.runs - before} runs')
        if not met:
            print('hammer: NOT TRIED: the program does not take the library that refuses threads')
    before = runner.runs
    for size in range(4_000, 64_001, 2_000):
        runner.run(scripts[0], limit=lambda: resource.setrlimit(resource.RLIMIT_AS, (size * 1024, size * 1024)), or_no_memory=True,
                   where=f', ulimit -v {size}')
    if os.geteuid() == 0:

        def few(number: int) -> None:
            resource.setrlimit(resource.RLIMIT_NPROC, (number, number))
            os.setgid(65534)
            os.setuid(65534)

        for number in range(1, 21):
            runner.run(scripts[0], limit=lambda: few(number), or_no_memory=True, where=f', ulimit -u {number}')
    else:
        print('hammer: NOT TRIED: ulimit -u, which wants another user')
    print(f'hammer: {runner.runs - before} runs under limits of memory and of threads')


def idle(runner: Runner, library: pathlib.Path) -> None:
    """The third form."""
    script = crowd_script(1, 1, 150)
    used = []
    for pause in ('0', '20000'):
        before, began = resource.getrusage(resource.RUSAGE_CHILDREN), time.monotonic()
        runner.run(script, {'LD_PRELOAD': str(library), 'HAMMER_PAUSE': pause})
        after = resource.getrusage(resource.RUSAGE_CHILDREN)
        used.append((after.ru_utime + after.ru_stime - before.ru_utime - before.ru_stime, time.monotonic() - began))
    if 'hammer: a yield pauses' not in runner.errors:
        print('hammer: NOT TRIED: the program does not take the library that pauses')
        return
    share = (used[1][0] - used[0][0]) / used[1][1]
    print(f'hammer: {used[1][0] * 1000:.0f} ms of a processor in {used[1][1]:.2f} s with pauses, {used[0][0] * 1000:.0f} ms '
          f'without: {share * 100:.2f} of 100')
    if share >= 0.01:
        runner.wrong += 1
        print('hammer: an idle session takes a processor')


def offered_by(text: str) -> dict[int, list[str]]:
    """Of each feed of a script what it offers, as `play` prints entries, behind their gap."""
    script = tomllib.loads(text)
    kinds = {it['id']: it['kind'] for it in script['channel']}
    made = {}
    for feed in script.get('feed', []):
        kind = kinds[feed['channel']]
        made[feed['channel']] = lines = []
        for it in feed['items']:
            lines.append(f'{it["count"]} {kind} {BY_NAME[kind].played(it)}')
    return made


class Images:
    """Looks at images with the program's commands and with the judge."""

    def __init__(self, program: pathlib.Path) -> None:
        self.program = str(program)
        self.files = self.entries = 0

    def is_printed(self, words: list[str], given: bytes, lines: list[str]) -> bool:
        """Whether the program prints these lines, with status 0."""
        done = subprocess.run([self.program, *words], input=given, capture_output=True, check=False)
        return (done.returncode, done.stdout.decode().splitlines()) == (0, lines)

    def fault_in(self, script: Script, image: bytes) -> str:
        """What is wrong in the image that a session of the script left, if something is."""
        if len(image) != 512 * tomllib.loads(script.text)['blocks']:
            return f'an image of {len(image)} bytes'
        listed, refused = judge_image.answer(judge_image.files, image)
        if refused:
            return f'the judge does not list the files: {listed[0]}'
        if not self.is_printed(['files'], image, listed):
            return 'files has other lines than the judge'
        if not listed and script.steps == 3 and 'do = "erase"' not in script.text:
            return 'no file'
        found: dict[int, list[str]] = {}
        lost: dict[int, int] = {}
        for number, (entry, verdict) in enumerate(zip(judge_image.listed(image), judge_image.check(image))):
            lines, refused = judge_image.answer(judge_image.play, image, number)
            if refused or not self.is_printed(['play', '--file', str(number)], image, lines):
                return f'file {number}: play has other lines than the judge, whose first is {lines[:1]}'
            words = verdict.partition(' ')[2]
            if words != 'strict' or not self.is_printed(['check'], entry.data(image), [words]):
                return f'file {number}: {words} by the judge, and check does not agree or it is not strict'
            self.files += 1
            self.entries += len(lines)
            for line in lines:
                _, channel_word, count, gap, message = line.split(' ', 4)
                found.setdefault(int(channel_word), []).append(f'{count} {message}')
                lost[int(channel_word)] = lost.get(int(channel_word), 0) + int(gap.rstrip('+'))
        for number, offered in offered_by(script.text).items():
            left = iter(offered)
            if not all(text in left for text in found.get(number, [])):
                return f'the entries of channel {number} are not messages of its feed in order'
            if len(found.get(number, [])) + lost.get(number, 0) > len(offered):
                return f'more entries and losses on channel {number} than its feed offered'
        numbers = {channel_number: len(texts) for channel_number, texts in found.items()}
        if script.entries is not None and numbers != {k: v for k, v in script.entries.items() if v}:
            return f'so many entries of each channel, {numbers}, and not {script.entries}'
        return ''


def look_at_images(runner: Runner, given: argparse.Namespace, number: int) -> None:
    """The fourth form."""
    if tomllib is None:
        print('hammer: NOT TRIED: the images, for which Python 3.11 is wanted')
        return
    some = scripts_of(given.seed)
    pairs = [(some[place % len(some)], roomy_script(given.seed, place)) for place in range((number + 1) // 2)]
    scripts = [script for pair in pairs for script in pair][:number]
    images = Images(runner.program)
    for script in scripts:
        if not runner.run(script):
            continue
        words = [str(runner.program), 'run', '--image']
        done = subprocess.run(words, input=script.text.encode(), capture_output=True, check=False, timeout=LATE_SECONDS)
        wrong = images.fault_in(script, done.stdout)
        if done.returncode not in ((0, 1) if script.may_say_no else (0,)) or done.stderr:
            wrong = f'status {done.returncode}, {done.stderr.decode()}'
        if wrong:
            runner.keep_script(script, f', its image: {wrong}')
    print(f'hammer: {len(scripts)} images, with {images.files} files and {images.entries} entries')


def main() -> int:
    words = argparse.ArgumentParser(description=__doc__, formatter_class=argparse.RawDescriptionHelpFormatter)
    words.add_argument('--runs', type=int, default=2000)
    words.add_argument('--seed', type=int, default=1)
    words.add_argument('--program', type=pathlib.Path, default=PROVED)
    words.add_argument('--taskset', action='store_true')
    words.add_argument('--yield', dest='yields', action='store_true')
    words.add_argument('--only', type=int, choices=range(SCRIPTS), metavar='PLACE')
    words.add_argument('--threads', action='store_true')
    words.add_argument('--idle', action='store_true')
    words.add_argument('--images', action='store_true')
    words.add_argument('--gate', action='store_true')
    given = words.parse_args()
    if not os.access(given.program, os.X_OK):
        print(f'hammer: NOT TRIED: there is no {given.program}')
        return 0
    with tempfile.TemporaryDirectory() as folder:
        library = disturber(pathlib.Path(folder)) if given.yields or given.threads or given.idle or given.gate else None
        if library is None and (given.yields or given.threads or given.idle or given.gate):
            print('hammer: NOT TRIED: there is no C compiler for scripts/trials/hammer.c')
            given.yields = False
        runner = Runner(given.program.resolve(), pathlib.Path(tempfile.gettempdir()), SECONDS)
        started = time.monotonic()
        if given.gate:
            for runs, yields, taskset in ((2000, False, False), (400, library is not None, False), (400, False, True)):
                given.runs, given.yields, given.taskset = runs, yields, taskset
                hammer(runner, given, library)
        if given.threads or given.gate:
            refuse_threads(runner, given, library)
        if (given.idle or given.gate) and library:
            idle(runner, library)
        if given.images or given.gate:
            look_at_images(runner, given, 40 if given.gate else given.runs)
        if not (given.gate or given.threads or given.idle or given.images):
            hammer(runner, given, library)
        print(f'hammer: {runner.runs} runs in {time.monotonic() - started:.0f} s, the longest {runner.longest:.2f} s, '
              f'{runner.late} after more than {SECONDS} s, {runner.wrong} not as they are to be')
    return 1 if runner.wrong else 0


if __name__ == '__main__':
    sys.exit(main())
