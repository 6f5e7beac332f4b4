#!/usr/bin/env python3
"""Prints how many provers the gate may run side by side: one a processor, as many as memory holds, and at least one.

    RT_JOBS=$(scripts/build/provers.py) rt ci

Without that number `rt ci` reckons from the length of each crate what its prover will hold: 9.9 GB for r10_control, which held 2.7
(docs/GATE.md). Then the crates of the longest chain wait for memory that nobody uses. No prover of this repository has held more
than 4.6 GB; five are taken here. Limits of a control group count, as do the processors that this process may run on.

    --beside BYTES     as many as memory holds beside other work that takes so many bytes: none, or fewer, where there is no room
    --root FOLDER      reads proc/meminfo and sys/fs/cgroup below FOLDER, for the tests
"""
import argparse
import os
import pathlib
import re

# What a prover may hold, in bytes.
MOST = 5_000_000_000

# A file with the limit of a group, in bytes, and what the group holds of it.
MEMORY = (
    ('sys/fs/cgroup/memory.max', 'sys/fs/cgroup/memory.stat', r'(?m)^anon (\d+)'),
    ('sys/fs/cgroup/memory/memory.limit_in_bytes', 'sys/fs/cgroup/memory/memory.stat', r'(?m)^total_rss (\d+)'),
)
# A file that begins with the time of processors that a group has in a period, and where the period is.
QUOTAS = (
    ('sys/fs/cgroup/cpu.max', 'sys/fs/cgroup/cpu.max', r'^\d+ (\d+)'),
    ('sys/fs/cgroup/cpu/cpu.cfs_quota_us', 'sys/fs/cgroup/cpu/cpu.cfs_period_us', r'^(\d+)'),
)


def number_in(file: pathlib.Path, pattern: str) -> int | None:
    """The number that the pattern finds in a file, or none: a group without a limit says `max` or -1."""
    try:
        found = re.search(pattern, file.read_text(encoding='utf-8', errors='replace'))
    except OSError:
        return None
    return int(found[1]) if found else None


def processors(root: pathlib.Path) -> int:
    """How many processors there are to use."""
    found = len(os.sched_getaffinity(0))
    for quota_file, period_file, pattern in QUOTAS:
        quota, period = number_in(root / quota_file, r'^(\d+)'), number_in(root / period_file, pattern)
        if quota and period:
            found = min(found, max(quota // period, 1))
    return found


def free_memory(root: pathlib.Path) -> int:
    """How many bytes of memory are free; 0 where the system does not say."""
    found = [1024 * (number_in(root / 'proc/meminfo', r'(?m)^MemAvailable:\s+(\d+)') or 0)]
    for limit_file, held_file, pattern in MEMORY:
        limit, held = number_in(root / limit_file, r'^(\d+)'), number_in(root / held_file, pattern)
        if limit is not None and held is not None:
            found.append(limit - held)
    return min(found)


def main() -> None:
    """Prints the number."""
    words = argparse.ArgumentParser(description=__doc__, formatter_class=argparse.RawDescriptionHelpFormatter)
    words.add_argument('--root', type=pathlib.Path, default=pathlib.Path('/'))
    words.add_argument('--beside', type=int, default=0, metavar='BYTES')
    given = words.parse_args()
    found = min(processors(given.root), (free_memory(given.root) - given.beside) // MOST)
    print(found if given.beside else max(1, found))


if __name__ == '__main__':
    main()
