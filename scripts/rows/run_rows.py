#!/usr/bin/env python3
"""Runs the rows, which are the cases in rows/cases, through a program, each in a process of its own. What it prints is compared
with rows/answers.

    scripts/rows/run_rows.py PROGRAM                        all rows, in some seconds; a line for each that differs, and then status
                                                            1
    scripts/rows/run_rows.py PROGRAM NAME..                 these rows, with what the program prints
    scripts/rows/run_rows.py PROGRAM --not-proved           the same of a program that is not proved
    scripts/rows/run_rows.py PROGRAM --first-fault OTHER    rows of the words `judge closed` and `judge unclosed` too

An answer with the word `not-proved` is that of a build without proofs: a program whose file's name begins with `quick-`, as
scripts/build/quick_build.py names what it keeps, or that of a call with --not-proved. Any other program has to answer as the
proved one does.

docs/ROWS.md says what a row is. Those of `judge` are no calls of the program. OTHER is ffi/first_fault.c, compiled over the library
(scripts/ffi.sh check does that): it reads an image with the file, whose entry is closed or not. Without it they are left out, and a
line says how many.
"""
from __future__ import annotations

import argparse
import pathlib
import re
import subprocess
import sys
from collections.abc import Iterator
from concurrent.futures import ThreadPoolExecutor

TOP = pathlib.Path(__file__).resolve().parents[2]
sys.path[1:1] = map(str, [TOP, *(TOP / 'scripts').iterdir()])  # modules of the other folders

from play_cases import alone  # noqa: E402

FOLDER = TOP / 'rows'
NOT_PROVED = 'not-proved'


class Case:
    """A case: its name, words, the second line and what follows."""

    def __init__(self, text: bytes) -> None:
        head, _, rest = text.partition(b'\n')
        second, _, self.body = rest.partition(b'\n')
        self.name, *self.words = head.decode().split(' ')
        self.status, *self.how = second.decode().split(' ')

    def given(self) -> bytes:
        """The input."""
        if 'hex' not in self.how:
            return self.body
        return bytes.fromhex(b''.join(self.body.split()).replace(b'.', b'00' * 32).decode())

    def shown(self, output: bytes) -> bytes:
        """What an answer shows of what was written."""
        if 'bytes' not in self.how:
            return output
        at = self.how.index('bytes')
        first, last = int(self.how[at + 1]), int(self.how[at + 2])
        # (of a window that ends behind the output nothing is shown)
        return (output[first:last] if last <= len(output) else b'').hex().encode() + b'\n'


def cases(name: str) -> Iterator[Case]:
    """The cases of a file."""
    for text in re.split(rb'(?m)^== ', (FOLDER / name).read_bytes())[1:]:
        yield Case(text)


def answers_of(not_proved: bool) -> dict[tuple[str, ...], bytes]:
    """The answers that a build has to give, by the first lines of their cases."""
    found = {}
    for it in cases('answers'):
        is_other = NOT_PROVED in it.how
        if is_other and not not_proved:
            continue
        how = [word for word in it.how if word != NOT_PROVED]
        found[(it.name, *it.words)] = ' '.join([it.status, *how]).encode() + b'\n' + it.body
    return found


def answer_of(words: argparse.Namespace, case: Case) -> bytes:
    """What the program makes of a case, as its answer has it."""
    command, given = [words.program, *case.words], case.given()
    if is_judgement(case):
        # (a script has a block beyond the directory)
        command, given = [words.first_fault], alone(given, case.words == ['judge', 'closed']) + bytes(512)
    done = subprocess.run(command, input=given, capture_output=True, timeout=120)
    status = str(done.returncode) if str(done.returncode) == case.status else '%d, not %s' % (done.returncode, case.status)
    return b'%s\n%s%s' % (status.encode(), case.shown(done.stdout), done.stderr)


def is_judgement(case: Case) -> bool:
    """Whether a case is no call of the program: a file is judged under a directory entry."""
    return case.words in (['judge', 'closed'], ['judge', 'unclosed'])


def main() -> int:
    """Does what the words ask for."""
    parser = argparse.ArgumentParser(description=__doc__, formatter_class=argparse.RawDescriptionHelpFormatter)
    parser.add_argument('program')
    parser.add_argument('names', nargs='*', metavar='name')
    parser.add_argument('--first-fault', metavar='OTHER')
    parser.add_argument('--not-proved', action='store_true')
    words = parser.parse_intermixed_args()
    answers = answers_of(words.not_proved or pathlib.Path(words.program).resolve().name.startswith('quick-'))
    asked = [it for it in cases('cases') if not words.names or it.name in words.names]
    wanted = [it for it in asked if words.first_fault or not is_judgement(it)]
    try:
        with ThreadPoolExecutor() as pool:
            found = list(pool.map(lambda it: answer_of(words, it), wanted))
    except OSError as error:
        sys.exit('run_rows: cannot run %s: %s' % (error.filename, error.strerror))
    except subprocess.TimeoutExpired as error:
        sys.exit('run_rows: %s did not end in %d seconds' % (' '.join(map(str, error.cmd)), error.timeout))
    differ = 0
    for case, text in zip(wanted, found):
        if words.names:
            print('== ' + ' '.join([case.name, *case.words]))
            print(text.decode(errors='replace'), end='')
        if text != answers.get((case.name, *case.words)):
            differ += 1
            print('differs: ' + case.name)
    if len(wanted) < len(asked):
        print('NOT TRIED: %d cases of judge: --first-fault names the program for them' % (len(asked) - len(wanted)))
    print('(%d cases, %d differ)' % (len(wanted), differ))
    return 1 if differ or not wanted else 0


if __name__ == '__main__':
    sys.exit(main())
