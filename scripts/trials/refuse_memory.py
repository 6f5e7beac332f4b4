#!/usr/bin/env python3
"""Refuses each allocation of the program in turn, one in each run, and looks at what it prints.

    scripts/trials/refuse_memory.py [--program P]

- `sim`, over the first recording (examples/first.toml), and over the same with each of its steps doubled. A step that is refused
  memory prints `refused 30 OutOfMemory`, and the others print what they do where that step was never given. So a refusal changes
  nothing, and a step that is given again has its answer. Where memory is refused between two steps, the run goes on after the steps
  that it counts as done, and prints all lines. A script of 41 steps that ask for no memory themselves meets that at least four
  times: so often grows the list of their replies.
- `check`, over the first recording, its first 124, 212 and 0 bytes, one with a changed header, and one of every kind of channel;
  `files` and `play` over media with these; `format`. Each prints what it is to print.
- `run`, over a session of two feeds and two readers, and over examples/session.toml. It ends, and its accounts add up; a worker may
  have ended early.

Each may end with status 3 in place of that: then standard error says `r10: out of memory`, and standard output has none but the
first of the wanted lines, each whole. Status 1 where a run is not so.

P is the proved program, crates/r10_cli/out/r10_cli, where none is named. Where it is not there, or no C compiler for
refuse_memory.c, a line says what was NOT TRIED.
"""
from __future__ import annotations

import argparse
import itertools
import os
import pathlib
import shutil
import subprocess
import sys
import tempfile
import time
from collections.abc import Callable, Iterator
from concurrent.futures import ThreadPoolExecutor
from typing import NamedTuple

TOP = pathlib.Path(__file__).resolve().parents[2]
HERE = TOP / 'scripts' / 'trials'

sys.dont_write_bytecode = True
sys.path[1:1] = map(str, [TOP, *(TOP / 'scripts').iterdir()])  # modules of the other folders

import hammer  # noqa: E402
import play_cases  # noqa: E402
from check_cases import FIRST, flipped  # noqa: E402

PROVED = TOP / 'crates' / 'r10_cli' / 'out' / 'r10_cli'
MET = b'refuse_memory: refused\n'
NO_MEMORY = b'r10: out of memory\n'
BATCH = 32
QUIET = 64  # runs of a session in a row that meet no refusal, as one run asks for memory more often than another
SECONDS = 60


class Outcome(NamedTuple):
    """What came of a run: whether it met a refusal, its status, what it printed, and its standard error without the library's
    line."""

    met: bool
    status: int
    output: bytes
    errors: bytes


class Program:
    """The program, with the library that refuses memory."""

    def __init__(self, program: pathlib.Path, library: pathlib.Path) -> None:
        self.program = program
        self.library = library
        self.wrong = 0
        self.refused = 0

    def run(self, words: list[str], given: bytes, refused: int) -> Outcome:
        """One run, with this allocation refused, or none for 0."""
        more = {'LD_PRELOAD': str(self.library), 'REFUSE_MEMORY': str(refused)}
        done = subprocess.run([str(self.program), *words], input=given, capture_output=True, check=False, timeout=SECONDS,
                              env={**os.environ, **more})
        return Outcome(MET in done.stderr, done.returncode, done.stdout, done.stderr.replace(MET, b''))

    def each(self, words: list[str], given: bytes, quiet: int = 1) -> Iterator[tuple[int, Outcome]]:
        """Each run that met a refusal, until so many in a row met none; and at the end one of 0, which was refused nothing."""
        missed = 0
        with ThreadPoolExecutor() as pool:
            for first in itertools.count(1, BATCH):
                numbers = range(first, first + BATCH)
                for number, outcome in zip(numbers, pool.map(lambda n: self.run(words, given, n), numbers)):
                    missed = 0 if outcome.met else missed + 1
                    if outcome.met:
                        self.refused += 1
                        yield number, outcome
                if missed >= quiet:
                    break
        yield 0, self.run(words, given, 0)

    def say(self, what: str, number: int, wrong: str, outcome: Outcome) -> None:
        """A run that is not as it is to be."""
        self.wrong += 1
        print('refuse_memory: %s, allocation %d refused: %s; status %d, %r, %r'
              % (what, number, wrong, outcome.status, outcome.output[-300:], outcome.errors[-300:]), flush=True)


def is_cut(outcome: Outcome, wanted: bytes) -> bool:
    """Whether a run ended for want of memory, with none but the first of these lines, each whole."""
    whole = outcome.output == b'' or outcome.output.endswith(b'\n')
    return outcome.status == 3 and outcome.errors == NO_MEMORY and wanted.startswith(outcome.output) and whole


# ---- scripts

STEP = '[[step]]\n'


class Scripts:
    """Scripts of steps that print a line each, and what they print where no memory is refused."""

    def __init__(self, program: Program, head: str) -> None:
        self.program = program
        self.head = head
        self.known: dict[tuple[str, ...], list[bytes]] = {}

    def text(self, steps: tuple[str, ...]) -> bytes:
        return (self.head + ''.join(STEP + step for step in steps)).encode()

    def lines(self, steps: tuple[str, ...]) -> list[bytes]:
        """What they print, without the numbers of the steps."""
        if steps not in self.known:
            outcome = self.program.run(['sim'], self.text(steps), 0)
            lines = outcome.output.splitlines()
            if outcome.status or outcome.errors or len(lines) != len(steps):
                self.program.say('a script of %d steps' % len(steps), 0, 'not a line for each step', outcome)
            self.known[steps] = [line.partition(b' ')[2] for line in lines]
        return self.known[steps]

    def fault_in(self, steps: tuple[str, ...], outcome: Outcome) -> tuple[str, int | None]:
        """What is wrong in what a run printed, if something is, and which step was refused memory, if one was."""
        lines = outcome.output.splitlines()
        refused = [place for place, line in enumerate(lines) if line.endswith(b' refused 30 OutOfMemory')]
        if outcome.status == 0 and len(refused) == 1 and not outcome.errors:
            place = refused[0]
            others = self.lines(steps[:place] + steps[place + 1:])
            wanted = others[:place] + [b'refused 30 OutOfMemory'] + others[place:]
        else:
            place, wanted = None, self.lines(steps)
        text = b''.join(b'%d %s\n' % (number, line) for number, line in enumerate(wanted, 1))
        if outcome.status == 0 and not outcome.errors:
            return '' if outcome.output == text else 'another line than where it was never given', place
        return '' if is_cut(outcome, text) else 'neither whole nor cut', None


def sim(program: Program) -> None:
    """The first recording, and the same with each step doubled; and a script that asks for memory between its steps alone."""
    head, *parts = (TOP / 'examples' / 'first.toml').read_text(encoding='utf-8').split(STEP)
    steps = tuple(parts)
    scripts = Scripts(program, head)
    wanted = (TOP / 'examples' / 'first.expected').read_bytes()
    if program.run(['sim'], scripts.text(steps), 0).output != wanted:
        program.say('sim', 0, 'not the first recording', program.run(['sim'], scripts.text(steps), 0))
    refused: dict[int, int] = {}
    whole = cut = 0
    for place in range(-1, len(steps)):
        given = steps if place < 0 else steps[:place + 1] + steps[place:]
        for number, outcome in program.each(['sim'], scripts.text(given)):
            wrong, met = scripts.fault_in(given, outcome)
            if wrong:
                program.say('sim, step %d doubled' % (place + 1), number, wrong, outcome)
            if met is not None and met == place:
                refused[place + 1] = refused.get(place + 1, 0) + 1
            whole += outcome.met and outcome.status == 0 and met is None
            cut += outcome.met and outcome.status == 3
    print('refuse_memory: sim: steps that were refused memory and then given again, %s; %d runs ended with status 3, %d printed all'
          % (', '.join('%d: %d times' % it for it in sorted(refused.items())), cut, whole))
    between(program, scripts)


def between(program: Program, scripts: Scripts) -> None:
    """Steps that a recorder refuses at once: where their number is 41, the list of replies grows from 1 to 41."""
    steps = ('do = "commit"\n',) * 41
    went_on = 0
    for number, outcome in program.each(['sim'], scripts.text(steps)):
        wrong, _ = scripts.fault_in(steps, outcome)
        if wrong:
            program.say('sim, 41 steps', number, wrong, outcome)
        went_on += outcome.met and outcome.status == 0
    print('refuse_memory: sim: %d runs went on after the steps that they counted as done' % went_on)
    if went_on < 4:
        program.say('sim, 41 steps', 0, 'it went on only %d times' % went_on, program.run(['sim'], scripts.text(steps), 0))


# ---- the other commands

def commands() -> Iterator[tuple[list[str], bytes, int, bytes]]:
    """Words, input, status and what is to be printed."""
    for data, status, line in ((FIRST, 0, b'strict'), (FIRST[:124], 0, b'strict'), (FIRST[:212], 0, b'lenient 0'),
                               (flipped(FIRST, 22, 1), 1, b'faulty 0 HeaderSum'), (b'', 1, b'faulty 0 Truncated'),
                               (play_cases.KINDS, 0, b'strict')):
        yield ['check'], data, status, line + b'\n'
    kinds = play_cases.alone(play_cases.KINDS)
    yield ['files'], play_cases.FIVE, 0, b''.join(b'file %d FLT1 %d 1 1\n' % it for it in
                                                  ((0, 272), (1, 272), (2, 272), (3, 272), (4, 1)))
    yield ['files'], play_cases.directory_block(2, 1, []), 1, b'refused 26 BadDirectory 1\n'
    yield ['play'], kinds, 0, ''.join(line + '\n' for line in play_cases.KIND_LINES).encode()
    yield ['play'], play_cases.alone(flipped(FIRST, 22, 1)), 1, b'not strict\n'


def others(program: Program) -> None:
    """The commands that read a file or an image, and `format`."""
    for words, given, status, wanted in commands():
        for number, outcome in program.each(words, given):
            is_whole = (outcome.status, outcome.output, outcome.errors) == (status, wanted, b'')
            if not is_whole and not (outcome.met and is_cut(outcome, wanted)):
                program.say(words[0], number, 'neither whole nor cut', outcome)
    words = ['format', '--blocks', '16', '--directory', '2', '--volume', 'VOL']
    image = program.run(words, b'', 0)
    for number, outcome in program.each(words, b''):
        is_short = outcome.status == 3 and outcome.errors == NO_MEMORY and image.output.startswith(outcome.output)
        if outcome != image._replace(met=outcome.met) and not (outcome.met and is_short):
            program.say('format', number, 'neither whole nor cut', outcome)


def sessions(program: Program) -> None:
    """Two sessions between threads."""
    for script in (hammer.crowd_script(2, 2), hammer.example_script()):
        for number, outcome in program.each(['run'], script.text.encode(), QUIET):
            if outcome.met and outcome.status == 3 and outcome.errors == NO_MEMORY:
                continue
            wrong = hammer.fault_in(script, outcome.output.decode(), outcome.status, outcome.met)
            if wrong or outcome.errors:
                program.say('run, ' + script.name, number, wrong, outcome)


# ---- words

def library_in(folder: pathlib.Path) -> pathlib.Path | None:
    """The library that refuses memory, if there is a compiler for it."""
    if not shutil.which('cc'):
        return None
    made = folder / 'refuse_memory.so'
    subprocess.run(['cc', '-O2', '-Wall', '-Wextra', '-Werror', '-shared', '-fPIC', '-o', str(made),
                    str(HERE / 'refuse_memory.c')], check=True)
    return made


def main() -> int:
    """Does what the words ask for."""
    words = argparse.ArgumentParser(description=__doc__, formatter_class=argparse.RawDescriptionHelpFormatter)
    words.add_argument('--program', type=pathlib.Path, default=PROVED)
    given = words.parse_args()
    if not os.access(given.program, os.X_OK):
        print('refuse_memory: NOT TRIED: there is no %s' % given.program)
        return 0
    started = time.monotonic()
    with tempfile.TemporaryDirectory() as folder:
        library = library_in(pathlib.Path(folder))
        if library is None:
            print('refuse_memory: NOT TRIED: there is no C compiler for refuse_memory.c')
            return 0
        program = Program(given.program.resolve(), library)
        if not program.run(['check'], b'', 1).met:
            print('refuse_memory: the program does not take the library that refuses memory')
            return 1
        parts: list[Callable[[Program], None]] = [sim, others, sessions]
        for part in parts:
            part(program)
    print('refuse_memory: %d refusals in %.0f s, %d not as they are to be'
          % (program.refused, time.monotonic() - started, program.wrong))
    return 1 if program.wrong else 0


if __name__ == '__main__':
    sys.exit(main())
