#!/usr/bin/env bash
# Tests of scripts/rows/run_rows.py over a program that only repeats its words and its input. In seconds. Status 1 where one fails.
set -u
# shellcheck disable=SC2016,SC2317 source=scripts/tests/kit.sh
. "$(dirname "$(readlink -f "${BASH_SOURCE[0]}")")/kit.sh"
mkdir "$room/rows"
take_scripts "$room" rows/run_rows.py # (which finds its rows by its own place)

# The last word is the status; a second program says how long the image is, with status 1.
printf '#!/bin/sh\nprintf "%%s\\n" "$*"\ncat\nfor last; do :; done\nexit "$last"\n' >"$room/program"
printf '#!/bin/sh\nwc -c\nexit 1\n' >"$room/judge"
printf '#!/bin/sh\necho "r10: gone" >&2\nkill -9 $$\n' >"$room/killed"
chmod +x "$room/program" "$room/judge" "$room/killed"
cat >"$room/rows/cases" <<'CASES'
== plain sim 0
0
a line
== in-hex check 1
1 hex bytes 8 10
4142.
== no-command judge 2
2
== of-a-file judge closed
1 hex
4142
CASES
cat >"$room/rows/answers" <<'ANSWERS'
== plain sim 0
0
sim 0
a line
== in-hex check 1
1
4142
== no-command judge 2
2
judge 2
== of-a-file judge closed
1
2560
ANSWERS
run() { PYTHONPATH=$top/scripts/rows "$room/scripts/rows/run_rows.py" "$@" 2>&1; }
# What it prints, and its status.
said() { run "$@"; echo "status $?"; }

check "what is printed as it stands there is right" is "$(said "$room/program" --first-fault "$room/judge")" \
    $'(4 cases, 0 differ)\nstatus 0'
check "rows of judge are left out without their program, and a line says so" is "$(said "$room/program")" \
    $'NOT TRIED: 1 cases of judge: --first-fault names the program for them\n(3 cases, 0 differ)\nstatus 0'
check "a row by its name is printed" is "$(said "$room/program" plain)" \
    $'== plain sim 0\n0\nsim 0\na line\n(1 cases, 0 differ)\nstatus 0'
check "also after the other program" says "$(said "$room/program" --first-fault "$room/judge" of-a-file)" \
    $'1\n2560\n(1 cases, 0 differ)'
check "no row of that name is a failure" is "$(said "$room/program" none)" $'(0 cases, 0 differ)\nstatus 1'
check "a program that is killed differs" says "$(said "$room/killed" plain)" $'-9, not 0\nr10: gone\ndiffers: plain'
check "and then the status is 1" says "$(said "$room/killed" plain)" "status 1"
check "a program that is not there is one line" is "$(said "$room/nowhere" plain)" \
    "run_rows: cannot run $room/nowhere: No such file or directory"$'\nstatus 1'

# A case with one answer a build: this program says which it is.
printf '#!/bin/sh\necho "one$SAYS"\n' >"$room/quick-one"
chmod +x "$room/quick-one"
cp "$room/quick-one" "$room/proved-one"
ln -s quick-one "$room/linked"
cp -r "$room/rows" "$room/rows.kept"
printf '== which sim\n0\n' >"$room/rows/cases"
printf '== which sim\n0\none\n== which sim\n0 not-proved\none (not proved)\n' >"$room/rows/answers"
good=$'(1 cases, 0 differ)\nstatus 0' other=$'differs: which\n(1 cases, 1 differ)\nstatus 1'
check "a build without proofs has the answer of its own" is "$(SAYS=' (not proved)' said "$room/quick-one")" "$good"
check "also by another name" is "$(SAYS=' (not proved)' said "$room/linked")" "$good"
check "it may not answer as the proved one" is "$(SAYS='' said "$room/quick-one")" "$other"
check "any other program has to answer as the proved one" is "$(SAYS='' said "$room/proved-one")" "$good"
check "and not as the other" is "$(SAYS=' (not proved)' said "$room/proved-one")" "$other"
check "but where the call says that it is not proved" is "$(SAYS=' (not proved)' said "$room/proved-one" --not-proved)" "$good"
rm -r "$room/rows"
mv "$room/rows.kept" "$room/rows"

sed -i 's/^2560$/2561/' "$room/rows/answers"
check "another answer of judge differs" is "$(said "$room/program" --first-fault "$room/judge")" \
    $'differs: of-a-file\n(4 cases, 1 differ)\nstatus 1'
sed -i 's/^a line$/a word/' "$room/rows/answers"
check "so does another line" says "$(said "$room/program")" "differs: plain"
sed -i '/^== in-hex/,/^4142/d' "$room/rows/answers"
check "and a case without an answer" says "$(said "$room/program")" "differs: in-hex"
check "words that are not known are refused" says "$(said "$room/program" --other)" "status 2"
# shellcheck disable=SC2154
exit "$failed"
