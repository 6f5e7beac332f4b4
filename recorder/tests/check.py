#!/usr/bin/env python3
"""Records through the running service, and compares what is on the disk: what the gate runs.

    check.py PROGRAMS [NAME..]     the trials, or those of these names, with r10d and the examples in a folder
"""
import collections
import concurrent.futures
import pathlib
import subprocess
import sys
import threading
import time
from typing import Callable, Optional

import trials_of_alarms
import trials_of_control
import trials_of_disks
import trials_of_inputs
import trials_of_losses
import trials_of_media
import trials_of_page
import trials_of_service
import trials_of_time
from trying import R10, NotTried, Room, fault, must, report, tidy_up_at_signals


# the trials stand in these modules, each under its name
TRIALS = {
    name.replace('_', '-'): function
    for module in (
        trials_of_inputs, trials_of_disks, trials_of_service, trials_of_time, trials_of_losses, trials_of_alarms, trials_of_control,
        trials_of_page, trials_of_media,
    )
    for name, function in vars(module).items()
    if getattr(function, 'is_trial', False)
}


LONG_ONES = ('a-day-of-the-page', 'an-hour-of-a-clock', 'disk-failures', 'a-flood', 'power-cuts', 'kills', 'an-overload-and-sums',
             'losses-that-no-message-follows')
# Most of the time a trial waits: so some run at the same time.
SIDE_BY_SIDE = 3


def judged(names: list[str], run_once: Callable[[str], Optional[str]], say: Callable[[str], None]) -> list[str]:
    """Runs trials side by side, and says why some failed. One that fails there is tried alone, after all others have ended, and has
    to pass twice then. (A trial that passes once in three, by luck, would pass here once in nine.)"""
    with concurrent.futures.ThreadPoolExecutor(SIDE_BY_SIDE) as pool:
        found = {name: why for name, why in zip(names, pool.map(run_once, names)) if why}
    if len(names) == 1:
        return list(found.values())
    failed = []
    for name, why in found.items():
        say(f'recorder: {name}: failed beside others ({why}); tried alone, twice')
        if again := run_once(name) or run_once(name):
            failed.append(again)
    return failed


def judge_the_judge() -> None:
    """Plants trials that fail each time, beside others alone, and now and then, and sees what becomes of them."""
    tries: dict[str, int] = collections.Counter()
    running, most, said = 0, dict[str, int](), list[str]()
    lock = threading.Lock()

    def run_once(name: str) -> Optional[str]:
        nonlocal running
        with lock:
            running += 1
            tries[name] += 1
            number, most[name] = tries[name], running
        time.sleep(0.01)
        with lock:
            running -= 1
        is_wrong = {'good': False, 'wrong': True, 'beside': number == 1, 'first': number < 3, 'last': number != 2}[name]
        return f'{name} {number}' if is_wrong else None

    names = ['wrong', 'good', 'beside', 'first', 'last', 'good']
    failed = judged(names, run_once, said.append)
    must(failed == ['wrong 2', 'first 2', 'last 3'], f'trials are judged wrongly: {failed}')
    must(dict(tries) == {'wrong': 2, 'good': 2, 'beside': 3, 'first': 2, 'last': 3}, f'trials are tried {dict(tries)} times')
    must([it.split(':')[1] for it in said] == [' wrong', ' beside', ' first', ' last'], f'trials are tried again: {said}')
    must(all(most[it] == 1 for it in ('wrong', 'beside', 'first', 'last')), f'trials are tried again beside others: {most}')
    must(judged(['wrong'], run_once, said.append) == ['wrong 3'] and len(said) == 4, 'one trial alone is tried again')


def main() -> None:
    programs, names = sys.argv[1], sys.argv[2:] or list(TRIALS)
    if unknown := [it for it in names if it not in TRIALS]:
        fault(f'there is no trial {unknown[0]}; the trials are {", ".join(TRIALS)}')
    must(subprocess.run([R10, 'files'], input=b'', capture_output=True).returncode != 127, 'there is no r10')
    judge_the_judge()
    begin, needs_disk = time.monotonic(), (
        'a-clock-that-steps', 'power-cuts', 'disk-failures', 'a-block-that-cannot-be-read', 'a-disk-that-fails-twice',
        'a-stop-with-a-backlog', 'a-stop-that-is-over', 'a-disk-that-fails-and-sums', 'an-overload-and-sums',
    )
    tidy_up_at_signals()

    def run_once(name: str) -> Optional[str]:
        """One trial: why it failed."""
        room, start = Room(programs), time.monotonic()
        try:
            if name in needs_disk and not room.has_disk:
                print(f'recorder: NOT TRIED: {name}: there is no cc for recorder/tests/disk.c', flush=True)
            else:
                report(f'recorder: {name}', start, TRIALS[name](room))
            return None
        except NotTried as why:
            print(f'recorder: NOT TRIED: {name}: {why}', flush=True)
            return None
        except Exception as why:
            room.end_all()
            kept = pathlib.Path(f'{room.folder}.kept')
            room.folder.rename(kept)
            return f'{name}: {type(why).__name__}: {why}\n(its folder is kept: {kept})'
        finally:
            room.close()

    # those that take long begin first
    ordered = sorted(names, key=lambda it: it not in LONG_ONES)
    if failed := judged(ordered, run_once, lambda it: print(it, flush=True)):
        fault('\n'.join(failed))
    print(f'recorder: {len(names)} trials in {time.monotonic() - begin:.0f} s')


if __name__ == '__main__':
    main()
