#!/usr/bin/env python3
"""Proves crates of this repository side by side. scripts/build.sh calls this, and scripts/ffi.sh for the library.

    scripts/build/build.py [LANES] [--crate NAME]    proves the crates that NAME stands on, and NAME (r10_cli and r10_surveyor, the
                                                     programs, where none is named)

Of r10_bench, which is a library, it makes a program: crates/r10_bench/out/r10_bench.

The tool locks each crate below the one that it proves, so one checkout proves one crate at a time. Here each lane has a copy of the
sources, and a library that one lane has proved is handed to the others by links. The crate with the longest chain above it goes
first, by the seconds in build_costs.txt, and all others yield to it. Lanes lie in the folder of git (or in that which R10_LANES
names), since the gate refuses sources that no crate has anywhere else.

LANES is how many crates side by side: as many as there are processors, and as the free memory has room for, where it is not said.
What is proved is handed over at once, so that a call that was stopped goes on where it was. Of two calls at once the second waits.
Libraries are made as a gate makes them: proved in one go, with their statements and without their proofs.
"""
from __future__ import annotations

import argparse
import contextlib
import fcntl
import math
import os
import pathlib
import resource
import shutil
import signal
import subprocess
import sys
import threading
import time
import types
from typing import NoReturn

sys.dont_write_bytecode = True

from quick_build import MEASURED, PROGRAM, PROVED_OF, SURVEYOR, TOP, Kept, below, give_up  # noqa: E402
from quick_build import make_main, note, remove, say  # noqa: E402
from toolchain import Fault, answer_once, kit, tool  # noqa: E402

# What one proof is reckoned to take: most take 1 to 3 GB, and few are so large at the same time.
MEMORY = 2_500_000_000

# Seconds of a processor that the proof of each crate took when it was measured. They decide what begins first, and nothing else.
COSTS = pathlib.Path(__file__).resolve().with_name('build_costs.txt')

# How many bytes of a crate's files are reckoned to a second, if the crate was never measured.
BYTES_A_SECOND = 2_000

# How far a proof yields to the one at the head of the longest chain (as `nice` has it).
LESS = 15

# How much sooner a proof with two to four jobs ends than one with a single job.
SOONER = 1.5


def named() -> dict[str, list[str]]:
    """Of each crate the crates of this repository that it names."""
    found = {}
    for line in (TOP / 'crates.txt').read_text(encoding='utf-8').splitlines():
        head, _, deps = line.partition('#')[0].partition(':')
        if head.strip():
            found[head.split()[0]] = deps.split()
    return {name: [it for it in deps if it in found] for name, deps in found.items()}


def free_memory() -> int:
    """How many bytes of memory are free, or can be made so."""
    for line in pathlib.Path('/proc/meminfo').read_text(encoding='ascii').splitlines():
        if line.startswith('MemAvailable:'):
            return int(line.split()[1]) * 1024
    return MEMORY


def lanes_that_fit() -> int:
    """How many crates side by side this machine has processors and free memory for."""
    return max(1, min(len(os.sched_getaffinity(0)), free_memory() // MEMORY))


def place_of_lanes() -> pathlib.Path:
    """The folder for copies of the sources."""
    said = os.environ.get('R10_LANES')
    if said:
        return pathlib.Path(said).resolve()
    with contextlib.suppress(OSError):
        git = subprocess.run(['git', '-C', str(TOP), 'rev-parse', '--absolute-git-dir'], capture_output=True)
        folder = os.fsdecode(git.stdout.rstrip(b'\n'))
        if git.returncode == 0 and folder:
            return pathlib.Path(folder) / 'r10-lanes'
    return TOP / 'out' / 'lanes'


def link(one: str, other: str) -> None:
    """Gives a file a second name; a stamp is copied, since it may be written anew."""
    if os.path.basename(one) != 'stamp':
        with contextlib.suppress(OSError):
            os.link(one, other)
            return
    shutil.copyfile(one, other)


def hand(source: pathlib.Path, to: pathlib.Path) -> None:
    """Puts a proved library in the place of another, or of none, at once and whole."""
    given = to.with_name('given')
    shutil.rmtree(given, ignore_errors=True)
    given.parent.mkdir(parents=True, exist_ok=True)
    shutil.copytree(source, given, copy_function=link)
    shutil.rmtree(to, ignore_errors=True)
    given.rename(to)


def measured() -> dict[str, float]:
    """The seconds that were measured, by crate."""
    found = {}
    with contextlib.suppress(OSError):
        for line in COSTS.read_text(encoding='utf-8').splitlines():
            words = line.partition('#')[0].split()
            if len(words) == 2 and words[1].isdecimal():
                found[words[0]] = float(words[1])
    return found


def yield_to_others(session: int, less: int) -> None:
    """Has the processes of a session yield so far to others, where that is allowed: who lowered them may not raise them again."""
    try:
        # (where the system schedules sessions as groups, `nice` counts within one alone)
        with open('/proc/%d/autogroup' % session, 'w', encoding='ascii') as it:
            it.write('%d' % less)
    except OSError:
        with contextlib.suppress(OSError):
            os.setpriority(os.PRIO_PGRP, session, less)


def spent() -> float:
    """The seconds of a processor that ended children took."""
    used = resource.getrusage(resource.RUSAGE_CHILDREN)
    return used.ru_utime + used.ru_stime


class Crates:
    """What the tool knows of the crates of a copy."""

    def __init__(self, rtlib: types.ModuleType, top: pathlib.Path, names: list[str]) -> None:
        known: dict = {}
        self.of = {}
        for name in names:
            folder = str(top / 'crates' / name)
            if folder not in known:
                known[folder] = rtlib.Crate(folder, str(top), known)
            self.of[name] = known[folder]


class Build:
    """The proofs of some crates and of those below them."""

    def __init__(self, names: list[str], lanes: int) -> None:
        self.names, self.lanes = names, lanes
        # how many jobs at once, in all crates
        self.jobs = max(lanes, min(2 * lanes - 1, free_memory() // MEMORY))
        self.rtlib = tool(kit())
        self.place = place_of_lanes()
        wanted = set().union(*(below(name) for name in names))
        self.named = {it: deps for it, deps in named().items() if it in wanted}
        self.under: dict[str, set[str]] = {}
        for it in self.named:
            self.below(it)
        known = measured()
        self.cost = {it: known.get(it) or self.size(it) / BYTES_A_SECOND for it in self.named}
        self.longest: dict[str, float] = {}
        for it in self.named:
            self.above(it)
        self.running: dict[int, tuple[str, int, subprocess.Popen, float]] = {}
        self.yields: dict[int, int] = {}
        self.spent = spent()
        self.since = time.time()
        answer_once(self.rtlib.Crate, 'stamp')
        self.crates = Crates(self.rtlib, TOP, list(self.named))

    def below(self, name: str) -> set[str]:
        """The crates that this one stands on."""
        if name not in self.under:
            self.under[name] = set()
            for it in self.named[name]:
                self.under[name] |= {it} | self.below(it)
        return self.under[name]

    def size(self, name: str) -> int:
        """How large a crate that was never measured is, and so what it may take."""
        folder = TOP / 'crates' / name
        return 20_000 + sum(it.stat().st_size for part in ('src', 'specs', 'proofs') for it in (folder / part).rglob('*')
                            if it.is_file())

    def above(self, name: str) -> float:
        """The longest chain that begins with this crate, in seconds of a processor."""
        if name not in self.longest:
            over = [self.above(it) for it in self.named if name in self.named[it]]
            self.longest[name] = self.cost[name] + max(over, default=0)
        return self.longest[name]

    def jobs_of_first(self, name: str, done: set[str]) -> int:
        """How many jobs the head of the longest chain gets: all processors but those that the crates beside that chain want as long
        as it takes."""
        beside = sum(self.cost[it] for it in self.named if it not in done) - self.longest[name]
        return self.lanes - math.ceil(SOONER * max(beside, 0) / self.longest[name])

    def lane(self, number: int) -> pathlib.Path:
        """The folder of a lane."""
        return self.place / ('lane%d' % number)

    def store(self, name: str) -> pathlib.Path:
        """Where a proved library waits for the lanes."""
        return self.place / 'store' / name

    def copy_sources(self, lane: pathlib.Path) -> None:
        """Gives a lane the sources as they stand; what it kept of proofs stays."""
        (lane / 'crates').mkdir(parents=True, exist_ok=True)
        for file in ('HANDLES', 'crates.txt'):
            if (TOP / file).is_file():
                shutil.copy2(TOP / file, lane / file)
        wanted = {line.split(':')[0].split(' ')[0] for line in (TOP / 'crates.txt').read_text(encoding='utf-8').splitlines()}
        for name in sorted(it for it in wanted if (TOP / 'crates' / it).is_dir()):
            for part in ('src', 'specs', 'proofs', 'stdin', 'stdout', 'args', 'status'):
                one, other = TOP / 'crates' / name / part, lane / 'crates' / name / part
                if other.is_dir():
                    shutil.rmtree(other)
                else:
                    remove(other)
                if one.is_dir():
                    shutil.copytree(one, other)
                elif one.is_file() and name in self.names:
                    other.parent.mkdir(parents=True, exist_ok=True)
                    shutil.copy2(one, other)
        for name in MEASURED.keys() & set(self.names):
            make_main(lane, name)

    def is_program(self, name: str) -> bool:
        """Whether a program is made of a crate."""
        return self.crates.of[name].is_program or name in MEASURED

    def is_stamped(self, library: pathlib.Path, name: str) -> bool:
        """Whether this library is of the sources as they stand."""
        with contextlib.suppress(OSError):
            return ((library / (name + '.rlib')).is_dir()
                    and (library / 'stamp').read_text(encoding='utf-8') == self.crates.of[name].stamp())
        return False

    def is_same(self, one: pathlib.Path, other: pathlib.Path, name: str) -> bool:
        """Whether two libraries are the same one: what stands above was proved over that and no other."""
        return self.rtlib.sum_of(str(one / (name + '.rlib') / 'format')) == self.rtlib.sum_of(
            str(other / (name + '.rlib') / 'format'))

    def take_over(self) -> set[str]:
        """The libraries that are proved already, here or by an earlier call that was stopped."""
        done: set[str] = set()
        for name in sorted(self.named, key=lambda it: len(self.below(it))):
            if self.crates.of[name].is_program or self.crates.of[name].is_static or not set(self.named[name]) <= done:
                continue
            own, kept = TOP / 'crates' / name / 'out' / 'rlib', self.store(name)
            if self.is_stamped(kept, name):
                done.add(name)
            elif self.is_stamped(own, name) and all(self.is_same(self.store(it), TOP / 'crates' / it / 'out' / 'rlib', it)
                                                    for it in self.below(name)):
                hand(own, kept)
                done.add(name)
        return done

    def start(self, name: str, number: int, jobs: int) -> None:
        """Begins the proof of a crate in a lane."""
        lane = self.lane(number)
        for it in self.below(name):
            library = lane / 'crates' / it / 'out' / 'rlib'
            if not self.is_stamped(library, it) or not self.is_same(library, self.store(it), it):
                hand(self.store(it), library)
        folder = lane / 'crates' / name
        (folder / 'out').mkdir(exist_ok=True)
        is_program = self.is_program(name)
        words = ['setpriv', '--pdeathsig', 'TERM'] if shutil.which('setpriv') else []
        words += [sys.executable, str(TOP / 'scripts' / 'build' / 'rt_once.py')]
        words += ['run'] if is_program else ['lib', '--statements']
        # (a program that measures has a number of messages to be run with; the survey of a damaged recording ends with status 1)
        given_words = ['--', '1'] if name in MEASURED else ['--', '--help'] if name == SURVEYOR else []
        words += ['--jobs', str(jobs), *given_words]
        given = folder / 'stdin'
        with open(given if is_program and given.is_file() else os.devnull, 'rb') as stdin, open(self.log(name), 'wb') as log:
            # (in a session of its own, so that all that it started can be ended)
            made = subprocess.Popen(words, cwd=folder, stdin=stdin, stdout=log, stderr=log, start_new_session=True)
        self.running[number] = (name, jobs, made, time.time())
        self.yields[number] = 0

    def prefer(self) -> None:
        """Has each proof yield to the one that has the longest chain above it: all wait for that one at last."""
        first = max(self.running, key=lambda it: self.longest[self.running[it][0]], default=None)
        for number, (_, _, made, _) in self.running.items():
            less = 0 if number == first else LESS
            if self.yields[number] != less:
                yield_to_others(made.pid, less)
                self.yields[number] = less

    def log(self, name: str) -> pathlib.Path:
        """Where what the tool says of a crate is kept."""
        out = TOP / 'crates' / name / 'out'
        out.mkdir(exist_ok=True)
        return out / 'build.log'

    def end_all(self) -> None:
        """Ends the proofs that run."""
        for _, _, made, _ in self.running.values():
            with contextlib.suppress(ProcessLookupError):
                os.killpg(made.pid, signal.SIGTERM)
        for _, _, made, _ in self.running.values():
            try:
                made.wait(5)
            except subprocess.TimeoutExpired:
                with contextlib.suppress(ProcessLookupError):
                    os.killpg(made.pid, signal.SIGKILL)

    def give(self, name: str) -> None:
        """Gives this checkout a library, where it has another; the tool's own lock keeps its other commands out."""
        own = TOP / 'crates' / name / 'out' / 'rlib'
        if self.is_stamped(own, name) and self.is_same(own, self.store(name), name):
            return
        held = os.open(TOP / 'crates' / name, os.O_RDONLY)
        try:
            fcntl.flock(held, fcntl.LOCK_EX)
            hand(self.store(name), own)
        finally:
            os.close(held)

    def ended(self, number: int, done: set[str]) -> None:
        """Takes in what came of a proof."""
        name, _, made, since = self.running.pop(number)
        folder = self.lane(number) / 'crates' / name
        if made.returncode:
            self.end_all()
            give_up('%s is not proved: see %s' % (name, os.path.relpath(self.log(name), TOP)), 1)
        if self.is_program(name):
            shutil.copy(folder / 'out' / name, TOP / 'crates' / name / 'out' / name)
        elif self.crates.of[name].is_static:
            shutil.copy(folder / 'out' / ('lib%s.a' % name), TOP / 'crates' / name / 'out')
        else:
            hand(folder / 'out' / 'rlib', self.store(name))
        # What the proof kept for a further one is large, and some file systems take minutes to remove it all.
        threading.Thread(target=shutil.rmtree, args=(folder / 'out' / 'incremental', True), daemon=True).start()
        done.add(name)
        before, self.spent = self.spent, spent()
        said = (time.time() - self.since, name, time.time() - since, self.spent - before, len(done), len(self.named),
                len(self.running))
        say('%5d s  %s took %d s, %d of a processor (%d of %d proved, %d more at work)' % said)

    def run(self) -> None:
        """Proves all."""
        done = self.take_over()
        lanes = min(self.lanes, len(self.named) - len(done))
        say('(%s: crates in all %d, proved already %d; side by side %d)' % (self.names[0], len(self.named), len(done), lanes))
        for number in range(lanes):
            self.copy_sources(self.lane(number))
        while len(done) < len(self.named):
            begun = {it for it, _, _, _ in self.running.values()}
            ready = [it for it in self.named if it not in done | begun and set(self.named[it]) <= done]
            if not ready and not self.running:
                give_up('crates.txt has a circle')
            free = [it for it in range(lanes) if it not in self.running]
            chosen = sorted(ready, key=lambda it: -self.longest[it])[:len(free)]
            # A proof keeps the jobs that it begins with. More than one take up to two or three times as much of a processor in all:
            # they are for the longest chain, which all wait for at last, and for processors that would else be idle.
            idle = lanes - len(self.running) - len(chosen)
            longest = max(self.longest[it] for it in self.named if it not in done)
            for name in chosen:
                wanted = max(idle, self.jobs_of_first(name, done) - 1) if self.longest[name] == longest else 0
                more = max(0, min(wanted, self.jobs - len(self.running) - len(chosen)))
                # (a lane that kept work on this crate when it was stopped)
                number = next((it for it in free if (self.lane(it) / 'crates' / name / 'out' / 'incremental').is_dir()), free[0])
                free.remove(number)
                self.start(name, number, 1 + more)
            self.prefer()
            time.sleep(0.2)
            for number in [it for it, (_, _, made, _) in self.running.items() if made.poll() is not None]:
                self.ended(number, done)
        for name in done:
            if self.store(name).is_dir():
                self.give(name)


def end(number: int, _: object) -> NoReturn:
    """A signal ends this call as any other end does."""
    sys.exit(128 + number)


def main() -> None:
    """Does what the words ask for."""
    parser = argparse.ArgumentParser(description=__doc__, formatter_class=argparse.RawDescriptionHelpFormatter)
    parser.add_argument('lanes', nargs='?', default='', metavar='LANES')
    parser.add_argument('--crate', metavar='NAME')
    words = parser.parse_args()
    if words.lanes and (not words.lanes.isdecimal() or int(words.lanes) == 0):
        give_up('how many crates side by side is a number from 1: scripts/build.sh [LANES]', 2)
    for number in (signal.SIGTERM, signal.SIGHUP, signal.SIGINT):
        signal.signal(number, end)
    since = time.time()
    listed = named()
    names = [words.crate] if words.crate else [it for it in PROVED_OF if it == PROGRAM or it in listed]
    for name in names:
        if name not in listed:
            give_up('crates.txt has no crate ' + name, 2)
    try:
        build = Build(names, int(words.lanes) if words.lanes else lanes_that_fit())
        build.place.mkdir(parents=True, exist_ok=True)
        with open(build.place / 'lock', 'a', encoding='utf-8') as lock:
            try:
                fcntl.flock(lock, fcntl.LOCK_EX | fcntl.LOCK_NB)
            except BlockingIOError:
                note('(another call proves: this one waits for it)')
                fcntl.flock(lock, fcntl.LOCK_EX)
            kept = [Kept(PROVED_OF[it], it) for it in names if it in PROVED_OF]
            before = [it.named() for it in kept]
            try:
                build.run()
            finally:
                build.end_all()
            if [it.named() for it in kept] != before:
                give_up('a source changed while it was proved: call again', 1)
            for it in kept:
                it.keep(TOP / 'crates' / it.crate / 'out' / it.crate, since)
            for lane in build.place.glob('lane*'):
                shutil.rmtree(lane, ignore_errors=True)
            shutil.rmtree(build.place / 'store', ignore_errors=True)
    except Fault as fault:
        give_up(str(fault))
    except OSError as error:
        give_up('%s: %s' % (error.filename or 'a folder for the proofs', error.strerror))
    say('(done after %d s%s)' % (time.time() - since, ': ./r10 starts it at once' if PROGRAM in names else ''))


if __name__ == '__main__':
    main()
