#!/usr/bin/env bash
# Tests of how a gate counts what it does not try: scripts/build/count_untried.sh, and which tests wait for a build. In a second.
# Status 1 where one fails.
set -u
# shellcheck disable=SC2016,SC2317 source=scripts/tests/kit.sh
. "$(dirname "$(readlink -f "${BASH_SOURCE[0]}")")/kit.sh"
count() { printf '%b' "$1" | CI=${2-} "$top/scripts/build/count_untried.sh"; echo "status $?"; }
gate='ok\nx: NOT TRIED: a\nNOT TRIED: b (no c)\n'
check "without CI all is handed on" is "$(count "${gate}7 passed, 0 failed")" \
    $'ok\nx: NOT TRIED: a\nNOT TRIED: b (no c)\n7 passed, 0 failed\nstatus 0'
check "where CI is set each is a failure" is "$(count "${gate}7 passed, 0 failed, 47 crates\n" true | tail -n 2)" \
    $'7 passed, 2 failed, 47 crates\nstatus 1'
check "beside those that failed" is "$(count "${gate}7 passed, 3 failed" true | tail -n 2)" $'7 passed, 5 failed\nstatus 1'
check "a line says how many" is "$(count "${gate}7 passed, 0 failed" true | grep -c '^gate: 2 lines say NOT TRIED')" 1
check "what is all tried passes" is "$(count 'ok\n7 passed, 0 failed\n' true)" $'ok\n7 passed, 0 failed\nstatus 0'
check "a gate that ended early keeps its last line" is "$(count "${gate}killed" true | tail -n 2)" $'killed\nstatus 1'
check "nothing stays nothing" is "$(count '' true)" "status 0"
noted() { while IFS= read -r line; do echo "$line" >>"$room/order"; done; }
{
    printf 'a\nb\n'
    sleep 1
    echo c >>"$room/order"
} | "$top/scripts/build/count_untried.sh" | noted
check "a line comes before the gate ends" is "$(tr '\n' ' ' <"$room/order")" "a c b "

# The gate itself, with stand-ins for all that it calls.
mkdir -p "$room/gate/.ci"
cp "$top/.ci/run" "$room/gate/.ci"
take_scripts "$room/gate" build/count_untried.sh build/wants.sh
stand_in() { printf '#!/usr/bin/env bash\n%s\n' "$2" >"$room/gate/scripts/$1" && chmod +x "$room/gate/scripts/$1"; }
stand_in build/packages.sh 'exit 0'
stand_in build/provers.py 'echo 1'
stand_in build/side_by_side.sh 'cat >/dev/null; echo "x: NOT TRIED: y"; exit ${FIRST:-0}'
stand_in ffi.sh '[ "$*" = behind-ci ] && echo "behind it${R10_LATER:-}: ${UNTRIED:-all}"
echo "3 passed, 0 failed"
exit ${BEHIND:-0}'
mkdir "$room/bin"
printf '#!/bin/sh\n' >"$room/bin/rt" && chmod +x "$room/bin/rt"
gate() { env -u RT_JOBS -u R10_LATER PATH="$room/bin:$PATH" "$@" "$room/gate/.ci/run"; echo "status $?"; }
check "a gate where CI is set fails by it" is "$(gate CI=true | tail -n 2)" $'3 passed, 1 failed\nstatus 1'
check "and by what is not tried behind rt ci" is \
    "$(gate CI=true UNTRIED='NOT TRIED: z' | tail -n 2)" $'3 passed, 2 failed\nstatus 1'
check "elsewhere it does not" is "$(gate CI= | tail -n 3)" $'behind it: all\n3 passed, 0 failed\nstatus 0'
check "what fails behind rt ci fails" is "$(gate CI= BEHIND=1 | tail -n 1)" "status 1"
check "what fails before ends it" is "$(gate CI= FIRST=1 | tail -n 2)" $'x: NOT TRIED: y\nstatus 1'

# What wants a build is not tried before `rt ci`, which makes one: so it is tried behind it.
for test in $(grep -l '^ *no_build ' "$top"/scripts/tests/*.sh); do
    name=$(basename "$test" .sh)
    [ "$name" != kit ] || continue
    check "$name.sh is tried behind rt ci" grep -q "over_builds $name " "$top/scripts/ffi.sh"
done
check "these are five" is "$(grep -l '^ *no_build ' "$top"/scripts/tests/*.sh | wc -l)" 5
check "by hand it is said" is "$(R10_LATER="" no_build it)" "NOT TRIED: it (no build is kept)"
check "in the gate it is not, as it comes later" is "$(R10_LATER=yes no_build it)" "LATER: it"
check "the gate says so" grep -q '^R10_LATER=yes scripts/build/side_by_side.sh' "$top/.ci/run"
exit "$failed"
