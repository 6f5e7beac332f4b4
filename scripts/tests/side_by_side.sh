#!/usr/bin/env bash
# Tests of scripts/build/side_by_side.sh. In a second. Status 1 where one fails.
set -u
# shellcheck disable=SC2016 source=scripts/tests/kit.sh
. "$(dirname "$(readlink -f "${BASH_SOURCE[0]}")")/kit.sh"
run() { printf '%s\n' "$@" | "$top/scripts/build/side_by_side.sh"; }
check "what each printed, in order, on both outputs" is "$(run 'sleep 0.2; echo one; echo "a  b" >&2' 'echo two')" $'one\na  b\ntwo'
check "a status of 0" is "$(run true true && echo well)" well
check "one that fails is named" is "$(run 'echo one' 'echo two; exit 7' 'echo three')" $'one\ntwo\nFAILED: echo two; exit 7\nthree'
check "then the status is 1" is "$(run true 'exit 7' true >"$room/said" || echo $?)" 1
check "one that is killed fails" is "$(run 'kill -9 $$' 2>&1 | tail -n 1)" 'FAILED: kill -9 $$'
check "no command reads what the others are read from" is "$(run 'cat' 'echo two')" two
check "no command at all" is "$("$top/scripts/build/side_by_side.sh" </dev/null && echo well)" well
printf 'echo last' | "$top/scripts/build/side_by_side.sh" >"$room/said"
check "a last line without an end" is "$(cat "$room/said")" last
mkfifo "$room/pipe"
export pipe="$room/pipe" # (the script has a room of its own)
if [ "$(nproc)" -gt 1 ]; then
    check "two at the same time" is "$(run 'timeout 50 sh -c "echo met >$pipe"' 'timeout 50 cat "$pipe"')" met
else
    echo "NOT TRIED: two at the same time: there is one processor"
fi
# shellcheck disable=SC2154
exit "$failed"
