#!/usr/bin/env python3
"""Which public calls that may be refused memory are called by what tries them, and whether that sees a refusal. By hand: it takes
some ten minutes, and builds without proofs.

    scripts/trials/refused_calls.py              a line for each such call of docs/surface.txt
    scripts/trials/refused_calls.py --unseen     those alone whose refusal nothing sees
    scripts/trials/refused_calls.py --builds DIR    the same with the builds of DIR; they are made where they are not there

A call may be refused memory if it answers a `Result` whose fault can say so, or a number of the C library. The program, the trials
and the library are built so that each of these calls can have all memory refused while it runs. Then the rows, the trials and the
programs in C are run: once to see which calls they make, and once more for each call. A call is

- `seen by WHAT`, where WHAT comes out otherwise if that call is refused its memory;
- `unseen, called by WHAT`, where it asks for memory and nothing that was run comes out otherwise without it;
- `asks for none, called by WHAT`, where it asks for no memory in any of the runs;
- `tested`, where only a test of r10_tests names it;
- `not called`.

Of a call that is met in many rows the first 60 are run. Names stand for themselves: a trait's call is met where any type's is.
"""
from __future__ import annotations

import argparse
import os
import pathlib
import re
import shutil
import subprocess
import sys
import tempfile
from collections.abc import Iterable, Iterator
from concurrent.futures import ThreadPoolExecutor
from typing import NamedTuple

TOP = pathlib.Path(__file__).resolve().parents[2]
HERE = TOP / 'scripts' / 'trials'

sys.dont_write_bytecode = True
sys.path[1:1] = map(str, [TOP, *(TOP / 'scripts').iterdir()])  # modules of the other folders

import quick_build  # noqa: E402
import run_rows  # noqa: E402
import toolchain  # noqa: E402

ROWS = 60  # of those that make a call, so many are run with its memory refused
PROGRAMS = ('calls', 'accounts', 'refused', 'media', 'ports', 'commits')  # those without a malloc of their own
# Faults that cannot say that memory was refused.
OTHER = {'MediumFault', 'FirstFault', 'PacketFault', 'FileFault', 'DirFault', 'FormatError', 'Limit', 'SettingsFault', 'PumpStop',
         'Event', 'Instalment'}


class Call(NamedTuple):
    """A public call: its crate, its type or trait, if it has one, and its name."""

    crate: str
    owner: str
    name: str

    def __str__(self) -> str:
        return '%s %s' % (self.crate, '::'.join(it for it in (self.owner, self.name) if it))


def calls() -> Iterator[Call]:
    """The public calls that may be refused memory."""
    crate = ''
    for line in (TOP / 'docs' / 'surface.txt').read_text(encoding='utf-8').splitlines():
        head = re.match(r'\[(\w+)\]$', line)
        crate = head[1] if head else crate
        found = re.match(r'fn (?:(\w+)::)?(\w+)', line)
        answer = line.rpartition('->')[2].strip()
        fault = re.search(r', ([^,]+|\(.*\))>$', answer)
        is_number = crate in ('r10_ffi', 'r10_calls') and 'u32' in answer
        if found and (is_number or answer.startswith('Result<') and fault and fault[1] not in OTHER):
            yield Call(crate, found[1] or '', found[2])


class Marked:
    """Builds in which each of the calls enters and leaves with its number."""

    def __init__(self, numbers: list[Call], room: pathlib.Path) -> None:
        self.numbers = numbers
        self.room = room
        self.by_name: dict[str, list[int]] = {}
        for number, it in enumerate(numbers):
            self.by_name.setdefault(it.name, []).append(number)
        # (quicker to make; nothing is measured)
        toolchain.FLAGS = ['-O1' if it == '-O3' else it for it in toolchain.FLAGS]
        self.marks = room / 'marks.o'
        subprocess.run(['cc', '-O2', '-fPIC', '-c', '-o', str(self.marks), str(HERE / 'refused_calls.c')], check=True)

    def number_of(self, symbol: str) -> int | None:
        """The number of the call that a function of the module is, if it is one."""
        parts = re.sub(r'::<.*', '', symbol).split('::')
        if len(parts) == 1:  # (a function of the C library under its own name)
            parts = ['r10_ffi', *parts]
        for number in self.by_name.get(parts[-1], ()):
            it = self.numbers[number]
            owner = parts[-2].partition('+')[0] if len(parts) > 1 else ''
            if it.owner and owner == it.owner and parts[0] == it.crate:
                return number
            if it.owner and owner.endswith(it.owner) and owner != it.owner and parts[0].startswith('r10_'):
                return number
            if not it.owner and parts[0] == it.crate and not owner[:1].isupper():
                return number
        return None

    def marked(self, lines: Iterable[str]) -> Iterator[str]:
        """The lines of a module with the marks."""
        number: int | None = None
        is_first = False
        for line in lines:
            if line.startswith('define '):
                found = re.search(r'@(?:"([^"]+)"|([\w.]+))\(', line)
                number = self.number_of(found[1] or found[2]) if found else None
                is_first = number is not None
            elif is_first and number is not None and line.startswith('  '):
                yield '  call void @r10_enter(i64 %d)\n' % number
                is_first = False
            if number is not None and line.startswith('  ret '):
                yield '  call void @r10_leave(i64 %d)\n' % number
            if line.startswith('}'):
                number = None
            yield line
        yield 'declare void @r10_enter(i64)\ndeclare void @r10_leave(i64)\n'

    def object(self, crate: pathlib.Path, name: str, *more: str, library: bool = False, calls_of: str = '') -> pathlib.Path:
        """The object file of a crate's module, which is made if it is not there."""
        place = self.room / name
        text, made, log = place / 'module.ll', place / 'module.o', place / 'log'
        if made.is_file():
            return made
        shutil.rmtree(place, ignore_errors=True)
        place.mkdir()
        quick_build.module_of(crate, place, log, text)
        with text.open(encoding='utf-8', errors='surrogateescape') as lines:
            given: Iterable[str] = lines
            if library:
                given = quick_build.exported(lines, re.findall(r'pub extern "C" fn (\w+)', calls_of))
            quick_build.object_of(text, place / 'lean.ll', made, log, place, self.marked(given), *more)
        return made

    def program(self, crate: str) -> pathlib.Path:
        """The program of a crate."""
        made, program = self.object(TOP / 'crates' / crate, crate), self.room / (crate + '.program')
        subprocess.run([str(it) for it in toolchain.linker([made, self.marks], program)], check=True)
        return program

    def programs_in_c(self) -> dict[str, pathlib.Path]:
        """The programs in C over the library."""
        folder = quick_build.kit()
        top = self.room / 'copy'
        shutil.rmtree(top, ignore_errors=True)
        top.mkdir()
        name = quick_build.LIBRARY
        quick_build.copy_below(name, top)
        listed = (top / 'crates.txt').read_text(encoding='utf-8')
        (top / 'crates.txt').write_text(listed.replace(name + ' staticlib:', name + ':'), encoding='utf-8')
        src = top / 'crates' / name / 'src'
        said = ''.join((src / (it + '.rt')).read_text(encoding='utf-8') for it in quick_build.CALLS)
        (src / 'main.rt').write_text((src / 'lib.rt').read_text(encoding='utf-8') + quick_build.reach_all(said), encoding='utf-8')
        (src / 'lib.rt').unlink()
        made = self.object(top / 'crates' / name, 'library', '-fPIC', library=True, calls_of=said)
        found = {}
        for name in PROGRAMS:
            found[name] = self.room / (name + '.program')
            subprocess.run([str(it) for it in ('cc', '-std=c11', '-O2', '-pthread', '-I%s' % (TOP / 'ffi'), '-o', found[name],
                                               TOP / 'ffi' / (name + '.c'), made, self.marks, folder / 'c' / 'libos_c.a',
                                               folder / 'c' / 'liblibc_c.a')], check=True)
        return found


class Run(NamedTuple):
    """Something that is run: its name, its command and its standard input."""

    name: str
    words: list[str]
    given: bytes


class Tried:
    """What is run, with the calls that each makes and what comes of it."""

    def __init__(self, count: int, room: pathlib.Path) -> None:
        self.count = count
        self.room = room
        self.made: dict[str, set[int]] = {}
        self.asking: dict[str, set[int]] = {}
        self.came: dict[str, object] = {}
        self.runs: dict[str, Run] = {}

    @staticmethod
    def outcome(run: Run, **more: str) -> object:
        """What comes of a run: its status and what it prints."""
        try:
            done = subprocess.run(run.words, input=run.given, capture_output=True, check=False, timeout=120,
                                  env={**os.environ, **more})
        except subprocess.TimeoutExpired:
            return None
        return done.returncode, done.stdout, done.stderr

    def look(self, place: int, run: Run) -> None:
        """Runs it, and notes which calls it makes."""
        marks = self.room / ('called-%d' % place)
        marks.write_bytes(bytes(self.count))
        self.came[run.name] = self.outcome(run, CALLED_CALLS=str(marks))
        self.made[run.name] = {number for number, byte in enumerate(marks.read_bytes()) if byte}
        self.asking[run.name] = {number for number, byte in enumerate(marks.read_bytes()) if byte == 2}
        self.runs[run.name] = run
        marks.unlink()

    def kind_of(self, number: int) -> tuple[str, str]:
        """What is found of a call, and which run sees that its memory is refused, or makes it."""
        asking = [name for name, asked in self.asking.items() if number in asked]
        for name in asking[:ROWS] + [it for it in asking[ROWS:] if not it.startswith('row ')]:
            if self.outcome(self.runs[name], REFUSED_CALL=str(number)) != self.came[name]:
                return 'seen', ' by ' + name
        for kind, callers in (('unseen', asking), ('asks for none', [name for name, made in self.made.items() if number in made])):
            if callers:
                return kind, ', called by ' + callers[0]
        return 'not called', ''


def runs_of(marked: Marked) -> Iterator[Run]:
    """What is run."""
    program = str(marked.program('r10_cli'))
    for case in run_rows.cases('cases'):
        if not run_rows.is_judgement(case):
            yield Run('row ' + case.name, [program, *case.words], case.given())
    yield Run('trials', [str(marked.program('r10_trials'))], (TOP / 'crates' / 'r10_trials' / 'stdin').read_bytes())
    for name, made in marked.programs_in_c().items():
        yield Run('ffi/%s.c' % name, [str(made)], b'')


def main() -> int:
    """Does what the words ask for."""
    words = argparse.ArgumentParser(description=__doc__, formatter_class=argparse.RawDescriptionHelpFormatter)
    words.add_argument('--unseen', action='store_true')
    words.add_argument('--builds', type=pathlib.Path, metavar='DIR')
    given = words.parse_args()
    numbers = list(calls())
    tests = ''.join(it.read_text(encoding='utf-8') for it in sorted((TOP / 'crates' / 'r10_tests' / 'src').glob('*.rt')))
    counts: dict[str, int] = {}
    with tempfile.TemporaryDirectory(prefix='refused-calls-') as folder:
        room = given.builds.resolve() if given.builds else pathlib.Path(folder)
        tried = Tried(len(numbers), room)
        with ThreadPoolExecutor(2) as pool:
            list(pool.map(lambda it: tried.look(*it), enumerate(runs_of(Marked(numbers, room)))))
            for it, (kind, more) in zip(numbers, pool.map(tried.kind_of, range(len(numbers)))):
                if kind == 'not called' and re.search(r'\b%s\b' % it.name, tests):
                    kind = 'tested'
                counts[kind] = counts.get(kind, 0) + 1
                if kind != 'seen' or not given.unseen:
                    print('%s: %s%s' % (it, kind, more), flush=True)
    print('(%d calls that may be refused memory: %s)' % (len(numbers), ', '.join('%d %s' % (counts[k], k) for k in sorted(counts))))
    return 0


if __name__ == '__main__':
    sys.exit(main())
