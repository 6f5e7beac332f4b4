#!/usr/bin/env bash
# Tests of scripts/measure/covered.py over a small tree: that a trial that fails is one that fails, and that the number may not
# fall. Seconds; status 1 where one fails.
set -u
# shellcheck disable=SC2016,SC2154,SC2317 source=scripts/tests/kit.sh
. "$(dirname "$(readlink -f "${BASH_SOURCE[0]}")")/kit.sh"
/usr/bin/python3 -c 'import coverage, numpy' 2>/dev/null || {
    echo "NOT TRIED: scripts/measure/covered.py (there is no python3-coverage, or no python3-numpy)"
    exit 0
}
tree=$room/tree
take_scripts "$tree" measure/covered.py
mkdir -p "$tree/scripts/trials" "$tree/ch10" "$tree/.ci"
printf 'def f(x):\n    if x:\n        return 1\n    return 2\n' >"$tree/ch10/one.py"
touch "$tree/ch10/__init__.py"
printf 'scripts/trials/ch10_mend.py check\nscripts/trials/more.py --check\n' >"$tree/.ci/run"
# trial NAME LINES..: a trial of this name
trial() {
    local name=$1
    shift
    printf '%s\n' 'import os, sys' 'sys.path.insert(0, os.getcwd())' 'from ch10 import one' "$@" >"$tree/scripts/trials/$name.py"
}
kept() { printf 'ch10 %s\nscripts %s\n' "$@" >"$tree/scripts/measure/covered.txt"; }
covered() { PATH=/usr/bin:$PATH "$tree/scripts/measure/covered.py" "$@" 2>&1; echo "status $?"; }
of_ch10='covered: ch10: 75 of 100 lines of Python are run, at least 75'
for it in ch10_trials range_trials ch10_mend; do
    trial "$it" 'print("'"$it"'", sys.argv[1:], one.f(0))'
    chmod +x "$tree/scripts/trials/$it.py"
    sed -i '1i #!/usr/bin/env python3' "$tree/scripts/trials/$it.py"
done
trial more 'print("more", sys.argv[1:])' 'if one.f(1) != 1:' '    print(1)' '    print(2)'
chmod +x "$tree/scripts/trials/more.py"

kept 75 10
said=$(covered)
check "what the trials print is printed" says "$said" "ch10_trials ['check'] 2"
check "of both" says "$said" "range_trials ['check'] 2"
check "the number and the status" is "$(tail -n 2 <<<"$said")" "$of_ch10"$'\nstatus 0'
kept 76 10
check "a number that has fallen" is "$(covered | tail -n 2)" \
    'covered: ch10: 75 of 100 lines of Python are run, FALLEN from 76'$'\nstatus 1'
check "is not kept by itself" is "$(head -n 1 "$tree/scripts/measure/covered.txt")" "ch10 76"
check "it is kept where the call says so" is "$(covered --keep | tail -n 1)$(head -n 1 "$tree/scripts/measure/covered.txt")" \
    "status 0ch10 75"
check "with the other scripts of the gate all its lines are run" says "$(covered --all)" \
    "ch10: 100 of 100 lines of Python are run, at least 75"
check "and scripts have a number" says "$(covered --all)" "covered: scripts: "
check "which may not fall" says "$(kept 75 99; covered --all)" "FALLEN from 99"
kept 75 10
check "lines that nothing ran" says "$(covered --lines ch10/one.py)" "ch10/one.py: not run: [3]"
echo 'sys.exit(4)' >>"$tree/scripts/trials/range_trials.py"
check "a trial that fails" is "$(covered | tail -n 1)" "status 1"
check "is named" says "$(covered)" "covered: scripts/trials/range_trials.py check ended with status 4"
check "and nothing is kept" is "$(kept 70 10; covered --keep | tail -n 1; head -n 1 "$tree/scripts/measure/covered.txt")" \
    $'status 1\nch10 70'
sed -i "s|^PYTHON = .*|PYTHON = '$room/none'|" "$tree/scripts/measure/covered.py"
printf '#!/bin/sh\nexit 1\n' >"$room/none"
chmod +x "$room/none"
said=$(covered)
check "without the package the trials run" says "$said" "ch10_trials ['check'] 2"
check "one that fails does" is "$(tail -n 1 <<<"$said")" "status 1"
check "and a line says that nothing was measured" says "$said" "covered: NOT TRIED: $room/none has no coverage and numpy"
sed -i '$d' "$tree/scripts/trials/range_trials.py"
check "which is no failure by itself" is "$(covered | tail -n 1)" "status 0"
exit "$failed"
