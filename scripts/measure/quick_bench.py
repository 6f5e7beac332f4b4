#!/usr/bin/env python3
"""Builds a program of this repository by LLVM as a gate does, but without its proof, so that a change can be measured before it is
proved.

    scripts/measure/quick_bench.py [--crate NAME] PROGRAM    builds crates/NAME (r10_bench where none is named) into the file
                                                             PROGRAM, in a minute

scripts/build/quick_build.py says how. Such a build and the proved one may be compiled otherwise: of one form of the recorder it
took 374 instructions a message where the proved one took 410, at 49 ns and 73. There the proved one kept jumps through tables that
it had not. So it says which way is shorter, and no more: docs/PERFORMANCE.md has no figures of it but where it says so. Status 1
where nothing was built.
"""
from __future__ import annotations

import argparse
import pathlib
import sys
import tempfile

sys.dont_write_bytecode = True

TOP = pathlib.Path(__file__).resolve().parents[2]
sys.path[1:1] = map(str, [TOP, *(TOP / 'scripts').iterdir()])  # modules of the other folders

from quick_build import MEASURED, Fault, copy_below, make_main, make_program  # noqa: E402


def main() -> None:
    """Builds the crate that the words name."""
    words = argparse.ArgumentParser(description=__doc__, formatter_class=argparse.RawDescriptionHelpFormatter)
    words.add_argument('--crate', default='r10_bench')
    words.add_argument('program', type=pathlib.Path)
    words = words.parse_args()
    crate = TOP / 'crates' / words.crate
    if words.crate not in MEASURED and not (crate / 'src' / 'main.rt').is_file():
        sys.exit('quick_bench: %s is no program of this repository' % words.crate)
    with tempfile.TemporaryDirectory(prefix='quick-bench-') as room:
        log = pathlib.Path(room, 'log')
        try:
            if words.crate in MEASURED:
                top = pathlib.Path(room, 'copy')
                top.mkdir()
                copy_below(words.crate, top)
                make_main(top, words.crate)
                crate = top / 'crates' / words.crate
            make_program(crate, words.program.resolve(), pathlib.Path(room), log)
        except Fault as fault:
            said = log.read_text(encoding='utf-8', errors='replace') if log.is_file() else ''
            sys.exit('quick_bench: the tool built nothing: %s\n%s' % (fault, said[-2000:]))
    print('(built without proofs: %s)' % words.program)


if __name__ == '__main__':
    main()
