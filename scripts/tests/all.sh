#!/usr/bin/env bash
# Runs each test of this folder, as many side by side as there are processors, and prints what failed, what was not tried, and how
# many checks there were. Two minutes of a processor; status 1 where one fails.
#
#     scripts/tests/all.sh [NAME.sh]      that test alone
set -u
here=$(cd "$(dirname "$(readlink -f "${BASH_SOURCE[0]}")")" && pwd)
# shellcheck source=scripts/build/wants.sh
. "$here/../build/wants.sh"
want_python tests "checks are made by it"
if [ $# = 0 ]; then
    for test in "$here"/*.sh; do
        case $(basename "$test") in
        kit.sh | all.sh) ;;
        *) printf '%q %q\n' "$here/all.sh" "$(basename "$test")" ;;
        esac
    done | "$here/../build/side_by_side.sh"
    exit
fi
status=0
said=$("$here/$1" 2>&1) || status=1
grep -B 1 '^FAILED\|^NOT TRIED' <<<"$said"
echo "$1: $(grep -c '^ok: ' <<<"$said") checks pass, $(grep -c '^FAILED: ' <<<"$said") fail"
exit "$status"
