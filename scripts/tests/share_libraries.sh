#!/usr/bin/env bash
# Tests of scripts/build/share_libraries.py over two checkouts of one crate, with a stand-in for the tool. Status 1 where one fails.
set -u
# shellcheck disable=SC2317 source=scripts/tests/kit.sh
. "$(dirname "$(readlink -f "${BASH_SOURCE[0]}")")/kit.sh"
mkdir -p "$room/kit/bin"
export PATH="$room/kit/bin:$PATH"
printf '#!/bin/sh\n' >"$room/kit/bin/rt"
chmod +x "$room/kit/bin/rt"
cat >"$room/kit/bin/rtlib.py" <<'RTLIB'
import os
def text_of(file):
    try:
        with open(file) as it:
            return it.read()
    except OSError:
        return None
sum_of = text_of
def files_of(folder):
    yield f"{folder}/src/lib.rt"
class Crate:
    is_program = False
    def __init__(self, folder):
        self.folder, self.name, self.rlib = folder, "r10_low", f"{folder}/out/rlib/r10_low.rlib"
    def stamp(self):
        return text_of(f"{self.folder}/src/lib.rt")
    def is_built(self):
        return os.path.isdir(self.rlib) and text_of(f"{self.folder}/out/rlib/stamp") == self.stamp()
    def below(self):
        return []
def crates_below(top):
    return [Crate(f"{top}/crates/r10_low")]
RTLIB
for tree in one other; do
    mkdir -p "$room/$tree/crates/r10_low/src"
    echo low >"$room/$tree/crates/r10_low/src/lib.rt"
done
made=$room/other/crates/r10_low/out/rlib/r10_low.rlib given=$room/one/crates/r10_low/out/rlib
share() { "$sources/scripts/build/share_libraries.py" "$room/one" "$room/other" "$@"; }

check "a library that is not there is not given" is "$(share)" "0 libraries given"
mkdir -p "$made"
echo sum >"$made/format"
check "one that is written at this moment is not given, as it may lack files" is "$(share)" "0 libraries given"
touch -d '9 minutes ago' "$made/format" "$made"
mkdir "$made/interface"
echo all >"$made/interface/all"
check "nor while a file of it is new" is "$(share)" "0 libraries given"
touch -d '9 minutes ago' "$made/interface/all" "$made/interface" "$made/format" "$made"
touch -d '10 minutes ago' "$room/other/crates/r10_low/src/lib.rt"
check "it is given when it is whole" is "$(share)" "1 libraries given"
check "with all its files and a stamp" is "$(cd "$given" && find . -type f | sort | tr '\n' ' ')" \
    "./r10_low.rlib/format ./r10_low.rlib/interface/all ./stamp "
check "and once" is "$(share)" "0 libraries given"
rm -r "$given"
touch "$room/other/crates/r10_low/src/lib.rt"
check "one that is older than its sources is not given" is "$(share)" "0 libraries given"
check "but for what rt ci has just left" is "$(share --behind-ci)" "1 libraries given"
rm -r "$given"
touch "$made/format"
check "that may be of this moment too" is "$(share --behind-ci)" "1 libraries given"
rm -r "$given"
echo other >"$room/other/crates/r10_low/src/lib.rt"
check "it is of the same sources all the same" is "$(share --behind-ci)" "0 libraries given"
# shellcheck disable=SC2154
exit "$failed"
