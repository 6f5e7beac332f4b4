#!/usr/bin/env bash
# Tests of r10-survey, over the build that is kept: some seconds. Status 1 where one fails.
set -u
# shellcheck disable=SC2317 source=scripts/tests/kit.sh
. "$(dirname "$(readlink -f "${BASH_SOURCE[0]}")")/kit.sh"
survey=$("$top/scripts/build/quick_build.py" --survey --current) || {
    no_build "lines and status of r10-survey"
    exit 0
}
check "lines, status and faults are those that a second reader has" "$top/scripts/trials/survey_trials.py" check "$survey"
check "an input that is closed is status 3" is "$("$survey" 2>&1 <&-; echo "status $?")" \
    "r10-survey: cannot read: Bad file descriptor (os error 9)
status 3"
check "so is an output that is closed" says "$({ "$survey" </dev/null >&-; } 2>&1; echo "status $?")" "status 3"
# (the program waits for input, and is stopped meanwhile)
mkfifo "$room/pipe"
"$survey" <"$room/pipe" >"$room/lines" &
exec 3>"$room/pipe"
head -c 100 "$top/crates/r10_surveyor/stdin" >&3
kill -STOP $! && kill -CONT $!
tail -c +101 "$top/crates/r10_surveyor/stdin" >&3
exec 3>&-
wait $!
check "one that is stopped and goes on reads the rest" is "$? $(cat "$room/lines")" "1 $(cat "$top/crates/r10_surveyor/stdout")"
# shellcheck disable=SC2154
exit "$failed"
