#!/usr/bin/env python3
"""Runs a gate over the checkout in this folder, and prints what each crate took of it, in minutes of a processor, as docs/GATE.md
has it.

    scripts/measure/gate_costs.py [--least MINUTES] [WORD..]    the words are those of `rt ci`: --anew, or names of crates; none for
                                                                the whole of it
    scripts/measure/gate_costs.py --whole [--least MINUTES]     runs `.ci/run`: scripts and programs in C and Rust too
    scripts/measure/gate_costs.py --paths [FILE]                runs nothing: counts the paths of crates.txt, or of a file like it,
                                                                along which the tool sums up what a crate is made from

Each prover's processor time is read from the system twice a second while it runs. What is proved already is not proved again, and
costs nothing here: for the whole, --anew, on a machine that does nothing else. A crate below MINUTES (1 where none is told) stands
in one line with the others. Status 1 where the gate fails; what it printed is kept then.

A minute is not the same from hour to hour where others use the host. So how quick the machine is stands below, before and after: it
is measured by bench/, as scripts/measure/bench.py does it, if cargo makes that program.

A crate's paths are one, for itself, and those of each crate that it lists. A library is a crate with a `src/lib.rt` that is no
static library.
"""
import argparse
import os
import pathlib
import subprocess
import re
import sys
import tempfile
import time

from bench import PLAIN, state_of

TOP = pathlib.Path(__file__).resolve().parents[2]
TICKS = os.sysconf('SC_CLK_TCK')


def parents_and_times():
    """Of each process its parent, and the seconds of a processor that it took."""
    found = {}
    for pid in filter(str.isdigit, os.listdir('/proc')):
        try:
            text = pathlib.Path('/proc', pid, 'stat').read_text(encoding='utf-8', errors='replace')
        except OSError:
            continue
        fields = text[text.rindex(')') + 2:].split()
        found[int(pid), fields[19]] = int(fields[1]), (int(fields[11]) + int(fields[12])) / TICKS
    return found


def prover_of(pid):
    """The crate that a prover is at, and which part of the gate that is; none where the process is no prover."""
    try:
        words = pathlib.Path('/proc', str(pid), 'cmdline').read_bytes().decode(errors='replace').split('\0')
        folder = os.readlink('/proc/%d/cwd' % pid)
    except OSError:
        return None
    if os.path.basename(words[0]) != 'rattle' or '--crate-name' not in words:
        return None
    part = 'edits' if 'rt-edit' in folder else 'tests' if '--test' in words else 'proof'
    return words[words.index('--crate-name') + 1], part


def most_memory(pid):
    """The most memory, in MB, that a process has held so far; none where it has ended."""
    try:
        found = re.search(r'VmHWM:\s+(\d+)', pathlib.Path('/proc', str(pid), 'status').read_text(encoding='utf-8'))
    except OSError:
        return 0
    return int(found[1]) // 1024 if found else 0


def is_below(pid, top, parents):
    """Whether a process was started by another, or by one that was."""
    while pid in parents and pid != top:
        pid = parents[pid]
    return pid == top


def watched(command, said):
    """Runs the gate, and answers its status, what each prover took by crate and part, and what the whole took."""
    before = os.times()
    gate, kinds, times = subprocess.Popen(command, cwd=TOP, stdin=subprocess.DEVNULL, stdout=said, stderr=subprocess.STDOUT), {}, {}
    memory = {}
    while gate.poll() is None:
        found = parents_and_times()
        parents = {pid: parent for (pid, _), (parent, _) in found.items()}
        for key, (_, seconds) in found.items():
            if not kinds.get(key):
                kinds[key] = prover_of(key[0]) if is_below(key[0], gate.pid, parents) else None
            if kinds[key]:
                times[key] = seconds
                memory[kinds[key]] = max(memory.get(kinds[key], 0), most_memory(key[0]))
        time.sleep(0.5)
    table = {}
    for key, seconds in times.items():
        crate, part = kinds[key]
        table.setdefault(crate, {'proof': 0.0, 'tests': 0.0, 'edits': 0.0})[part] += seconds / 60
    for (crate, part), most in memory.items():
        table[crate]['memory'] = max(table[crate].get('memory', 0), most)
    used = os.times()
    whole = used.children_user + used.children_system - before.children_user - before.children_system
    return gate.returncode, table, whole / 60


def listed(file: pathlib.Path) -> dict[str, tuple[bool, list[str]]]:
    """Of each crate of a crates.txt whether it is a static library, and the crates of that file that it lists."""
    lines = (re.match(r'(\w+)([^:]*):(.*)', it.partition('#')[0]) for it in file.read_text(encoding='utf-8').splitlines())
    found = {it[1]: ('staticlib' in it[2].split(), it[3].split()) for it in lines if it}
    return {crate: (static, [it for it in below if it in found]) for crate, (static, below) in found.items()}


def paths_of(crates: dict[str, tuple[bool, list[str]]]) -> dict[str, int]:
    """Of each crate how many paths lead from it to a crate below it, itself among them."""
    counts: dict[str, int] = {}

    def count(crate: str) -> int:
        if crate not in counts:
            counts[crate] = 1 + sum(count(it) for it in crates[crate][1])
        return counts[crate]

    for crate in crates:
        count(crate)
    return counts


def print_paths(file: pathlib.Path) -> None:
    """Prints the paths of libraries and of all crates, and those crates that have most."""
    crates = listed(file)
    counts = paths_of(crates)
    programs = {it for it in crates if (file.parent / 'crates' / it / 'src' / 'main.rt').is_file()}
    libraries = sum(number for crate, number in counts.items() if crate not in programs and not crates[crate][0])
    print(f'{len(crates)} crates, {sum(len(below) for _, below in crates.values())} edges; paths: {libraries:,} of libraries, '
          f'{sum(counts.values()):,} of all crates')
    for crate, number in sorted(counts.items(), key=lambda it: -it[1])[:12]:
        print(f'{number:8,}  {crate}')


def state() -> str:
    """How quick the machine is now, where the program that measures it is there or can be made."""
    try:
        subprocess.run(['cargo', 'build', '--release', '--offline', '--quiet'], cwd=TOP / 'bench', check=True, capture_output=True)
    except (OSError, subprocess.CalledProcessError):
        if not PLAIN.is_file():
            return 'not measured'
    return state_of(PLAIN)


def main():
    words = argparse.ArgumentParser(description=__doc__, formatter_class=argparse.RawDescriptionHelpFormatter)
    words.add_argument('--least', type=float, default=1.0)
    words.add_argument('--whole', action='store_true')
    words.add_argument('--paths', nargs='?', type=pathlib.Path, const=TOP / 'crates.txt', metavar='FILE')
    words, others = words.parse_known_args()
    if words.paths:
        print_paths(words.paths)
        return
    first, began = state(), time.time()
    with tempfile.TemporaryFile('w+', errors='replace') as said:
        status, table, whole = watched(['.ci/run'] if words.whole else ['rt', 'ci', *others], said)
        said.seek(0)
        text = said.read()
    last, minutes = text.rstrip().split('\n')[-1], (time.time() - began) / 60
    sums = {it: sum(row[it] for row in table.values()) for it in ('proof', 'tests', 'edits')}
    print('| Crate | Proof | Tests | Edits | MB |\n|---|---|---|---|---|')
    least = [0.0, 0.0, 0.0]
    for crate, row in sorted(table.items(), key=lambda it: -sum(it[1].values())):
        parts = row['proof'], row['tests'], row['edits']
        if sum(parts) < words.least:
            least = [a + b for a, b in zip(least, parts)]
        else:
            print('| `%s` | %s | %d |' % (crate, ' | '.join('%.1f' % it if it else '' for it in parts), row.get('memory', 0)))
    print('| all others | %.1f | %.1f | %.1f | |' % tuple(least))
    print('| all | %.1f | %.1f | %.1f | |' % (sums['proof'], sums['tests'], sums['edits']))
    print('\n%.0f minutes of a processor in all, with what compiles, links and runs; %.0f minutes of time. %s'
          % (whole, minutes, last))
    print('The machine, a second: %s before, %s after.' % (first, state()))
    if status:
        file, path = tempfile.mkstemp(prefix='gate-', suffix='.log')
        with open(file, 'w', encoding='utf-8') as log:
            log.write(text)
        print('It failed. All that it printed is in ' + path)
        sys.exit(1)


if __name__ == '__main__':
    main()
