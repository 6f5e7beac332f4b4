#!/usr/bin/env bash
# Tests of the program's words, over the build that is kept: its cases, its help, and the lines that help shows. Some ten seconds;
# status 1 where one fails.
set -u
# shellcheck disable=SC2016,SC2317 source=scripts/tests/kit.sh
. "$(dirname "$(readlink -f "${BASH_SOURCE[0]}")")/kit.sh"
program=${1:-$("$top/scripts/build/quick_build.py" --current)} || {
    no_build "the program's words"
    exit 0
}

# (cases of `judge` want a program over the library, which the gate has behind `rt ci`)
rows() {
    if [ -n "${R10_LATER:-}" ]; then
        "$top/scripts/rows/run_rows.py" "$program" >"$room/rows" || { cat "$room/rows"; return 1; }
    else
        "$top/scripts/rows/run_rows.py" "$program" ${R10_FIRST_FAULT:+--first-fault "$R10_FIRST_FAULT"}
    fi
}
check "each row is answered as it stands there" rows

# The lines that help shows run as they stand, in the folder of the sources; what they write goes to a copy of it.
mkdir "$room/bin" "$room/sources"
ln -s "$program" "$room/bin/r10"
cp -r "$top/examples" "$top/scripts" "$room/sources"
lines() {
    "$program" "$@" --help | sed -n '/ \\$/{N;N;s/\\\n//;s/\n//;}; s/^  \(r10 .*[<>|].*\|tail .*\|echo .*\)$/\1/p'
}
for command in "" sim run format files play check; do
    # shellcheck disable=SC2086
    while IFS= read -r line; do
        (cd "$room/sources" && PATH="$room/bin:$PATH" bash -c "$line" >"$room/out" 2>"$room/errors")
        status=$?
        # (grep finds no refused step, and says so by its status)
        [[ $line != *"grep ' refused '"* ]] || status=$((status - 1))
        check "help of '$command': $line" is "$status$(cat "$room/errors")" "0"
    done < <(lines $command)
done
check "there are such lines for each command" test "$(for command in "" sim run format files play check; do
    # shellcheck disable=SC2086
    lines $command | grep -c .
done | grep -c '^0$')" = 0

sed 's/name = "FLT1"/name = "FLT 1"/' "$top/examples/first.toml" >"$room/refused.toml"
check "a refused step with --image is silent, status 0" is \
    "$("$program" sim --image <"$room/refused.toml" 2>&1 >/dev/null; echo $?)" "0"
check "the image of a session has its file" says \
    "$("$program" run --image <"$top/examples/session.toml" | "$program" files)" "file 0 FLT1 "
check "the line that help shows finds it" says "$("$program" sim <"$room/refused.toml" | grep ' refused ')" "3 refused 15 BadName"
exit "$failed"
