#!/usr/bin/env python3
"""share_libraries.py TOP SOURCE [--behind-ci]: gives the checkout TOP the libraries that stand built in the checkout SOURCE, also
those of a gate's run that goes on there.

A library is given where it was built of SOURCE's files as they stand, where all files of its crate and of those below are the same,
and those below are the very same libraries, half a minute after it was written. It gets a stamp, so that `rt check` and `rt lib`
take it as built. It proves nothing: no verdict of `rt ci` rests on it. Prints how many were given.

With --behind-ci, right after `rt ci` in SOURCE, all that it left is taken as it stands, however old or new its files are: what an
earlier run kept has the dates of that run.
"""
import os
import pathlib
import shutil
import sys
import time

sys.dont_write_bytecode = True
sys.path.insert(0, str(pathlib.Path(__file__).resolve().parent))

import toolchain  # noqa: E402


def link(one, other):
    try:
        os.link(one, other)
    except OSError:
        shutil.copyfile(one, other)


def main():
    behind_ci = sys.argv[3:] == ["--behind-ci"]
    if len(sys.argv) != 3 and not behind_ci:
        sys.exit(__doc__.strip())
    try:
        rtlib = toolchain.tool(toolchain.kit())
    except toolchain.Fault as fault:
        sys.exit(f"share_libraries: {fault}")
    toolchain.answer_once(rtlib.Crate, "stamp")

    def crates(top):
        os.chdir(top)
        return {it.name: it for it in rtlib.crates_below(top)}

    def is_same(one, other):
        return rtlib.sum_of(f"{one.rlib}/format") == rtlib.sum_of(f"{other.rlib}/format")

    def is_current(crate):
        # (what a gate's run made has no stamp)
        made_for = f"{os.path.dirname(crate.rlib)}/stamp"
        if os.path.isfile(made_for):
            with open(made_for, encoding="utf-8") as it:
                return it.read() == crate.stamp()
        return max(os.path.getmtime(it) for it in rtlib.files_of(crate.folder)) <= os.path.getmtime(f"{crate.rlib}/format")

    def is_settled(crate):
        # (what is written at this moment may lack files, and would stay so)
        files = (f"{below}/{name}" for below, folders, names in os.walk(crate.rlib) for name in (*folders, *names))
        return time.time() - max(map(os.path.getmtime, files), default=0) > 30

    # (both before the folder changes: else a TOP such as '.' would be SOURCE, whose libraries would be removed)
    top, source = os.path.realpath(sys.argv[1]), os.path.realpath(sys.argv[2])
    if top == source:
        sys.exit("share_libraries: TOP and SOURCE are one checkout")
    theirs, given = crates(source), 0
    for name, crate in crates(top).items():
        other = theirs.get(name)
        if other is None or crate.is_program or crate.is_built() or not os.path.isfile(f"{other.rlib}/format"):
            continue
        if crate.stamp() != other.stamp() or not behind_ci and not (is_current(other) and is_settled(other)):
            continue
        if any(not it.is_built() or not is_same(it, theirs[it.name]) for it in crate.below()):
            continue
        out = f"{crate.folder}/out"
        os.makedirs(out, exist_ok=True)
        shutil.rmtree(f"{out}/rlib", ignore_errors=True)
        shutil.rmtree(f"{out}/given", ignore_errors=True)
        shutil.copytree(os.path.dirname(other.rlib), f"{out}/given", copy_function=link)
        # (a stamp that is linked from SOURCE is not written through)
        with open(f"{out}/stamp", "w", encoding="utf-8") as it:
            it.write(crate.stamp())
        os.replace(f"{out}/stamp", f"{out}/given/stamp")
        os.rename(f"{out}/given", f"{out}/rlib")
        given += 1
    print(f"{given} libraries given")


main()
