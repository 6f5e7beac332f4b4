#!/usr/bin/env python3
"""The long trials of r10d, whose figures stand in docs/FAILURES.md: some twenty minutes.

    long.py PROGRAMS [NAME..]      all, or those of these names

    kills          200 kills under load
    cuts           1,000 media that a loss of power may leave, from the operations of 12 runs
    failures       EIO and ENOSPC at each operation of a short run, and a second failure after each number of operations
    end            the service ends within two seconds of a SIGTERM
    flood          1,000,000 datagrams as fast as they can be sent
    full           a full medium, five times
    row            200 kills under load at the seams of media in a row, ten rows
    sums           what entries, gaps and log lines have adds up to what was sent: 600,000 datagrams to a service that stands
                   still, stops on a disk whose syncs take 1.5 s, an overload, 30 failures of the disk, a full medium
    mangled        1,000 media whose last file was cut off and then damaged, or whose directory is at fault
    torn           what a lost sector of 4,096 bytes leaves: nothing of it is promised
"""
import pathlib
import subprocess
import sys
import time
from typing import Callable

import trials_of_disks as disks
import trials_of_losses as losses
import trials_of_media as media
import trials_of_service as service
from trying import Room, Wrong, fault, report, tidy_up_at_signals

TRIALS: dict[str, Callable[[Room], str]] = {
    'kills': lambda room: disks.kills(room, 200, 2, 2.0),
    'cuts': lambda room: disks.power_cuts(room, 12, 21, 3),
    'failures': lambda room: disks.disk_failures(room, 1),
    'end': lambda room: service.the_end_and_the_manager(room, 2.0),
    'flood': lambda room: service.a_flood(room, 1_000_000),
    'torn': lambda room: '; '.join(disks.torn_sectors(room, 4, 25, directory) for directory in (63, 8)),
    'mangled': lambda room: disks.mangled_media(room, 1000),
    'sums': lambda room: '; '.join(
        (room.clear(), run())[1]
        for run in (
            lambda: losses.losses_that_no_message_follows(room, 300_000),
            lambda: losses.a_stop_with_a_backlog(room, 200_000, 1_500_000, 1 << 18),
            lambda: losses.an_overload_and_sums(room, 500_000, blocks=1 << 19),
            lambda: losses.a_stop_that_is_over(room, 25_000, blocks=1 << 18),
            lambda: losses.a_disk_that_fails_and_sums(room, 30),
            lambda: losses.a_full_medium_and_sums(room),
        )
    ),
    'row': lambda room: '; '.join((room.clear(), media.kills_in_a_row(room, 20, seed))[1] for seed in range(2, 12)),
    'full': lambda room: '; '.join((room.clear(), disks.full_medium(room))[1] for _ in range(5)),
}


def main() -> None:
    tidy_up_at_signals()
    for name in sys.argv[2:] or TRIALS:
        room, start = Room(sys.argv[1]), time.monotonic()
        try:
            said = TRIALS[name](room)
        except (Wrong, subprocess.TimeoutExpired, OSError) as why:
            room.end_all()
            kept = pathlib.Path(f'{room.folder}.kept')
            room.folder.rename(kept)
            fault(f'{name}: {why}\n(its folder is kept: {kept})')
        finally:
            room.close()
        report(f'recorder: {name}', start, said)


if __name__ == '__main__':
    main()
