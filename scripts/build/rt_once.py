#!/usr/bin/env python3
"""The tool `rt`, with one thing done once that it does along every path: summing up what a crate is made from.

    scripts/build/rt_once.py WORDS..                   as rt WORDS..
    scripts/build/rt_once.py lib --statements WORDS..  as rt lib WORDS.., but a library is made as a gate makes it

The sum of a crate near the top takes the tool a minute or two, before it proves anything. Here each crate is summed up once in a
run, in which no source may change. What is proved, and how, is the tool's own. scripts/build/build.py calls this, and so may who
works by hand; no verdict of `rt ci` rests on it. A tool of another kind than the one that this knows is called as it is.

A library that a gate makes is proved from nothing, in one go, and nothing is kept of that work. It holds its statements and not its
proofs. Then a proof above it does not read the proofs of each function that it calls, and of all that those call.
"""
from __future__ import annotations

import os
import pathlib
import shutil
import sys

sys.dont_write_bytecode = True
sys.path.insert(0, str(pathlib.Path(__file__).resolve().parent))

import toolchain  # noqa: E402

STATEMENTS = toolchain.STATEMENTS


def main(words: list[str]) -> int:
    """Runs the tool."""
    found = shutil.which('rt')
    if not found:
        print('rt_once: there is no rt', file=sys.stderr)
        return 3
    states = words[:2] == ['lib', STATEMENTS]
    if states:
        words = [words[0], *words[2:]]
    tool = toolchain.loaded(os.path.realpath(found)) if words[:1] and words[0] in ('check', 'lib', 'run', 'test') else None
    if tool is None:
        os.execv(found, [found, *words])
    toolchain.answer_once(tool.rtlib.Crate, 'stamp')
    toolchain.answer_once(tool.rtlib.Crate, 'below')
    if states:
        toolchain.make_as_a_gate(tool)
    return tool.main(words)


if __name__ == '__main__':
    sys.exit(main(sys.argv[1:]))
