#!/usr/bin/env bash
# Refuses the first allocation of a session of two feeds and a reader, then in another run the second, and so on, until runs meet no
# refusal, and counts what came: for each session that stands behind `== sessions` in crates/r10_trials/stdin. Run by hand:
#
#     scripts/trials/refuse_in_sessions.sh [MOST] [NUMBER]
#
# A build without proofs refuses the allocation of this number, 3000 if none is given, in each of its runs. A run asks for memory as
# often as its line says before it begins, and more often behind it: so each of the first MOST allocations of a session, 400 if no
# number is given, is refused in one run. As threads take turns otherwise in each run, one session asks for memory more often than
# another: the last fifty runs must have met no refusal. It prints a line for each thing that came, and ends with status 1 where one
# is not as wanted.
set -u

most=${1:-400}
number=${2:-3000}
top=$(cd "$(dirname "${BASH_SOURCE[0]}")/../.." && pwd)
if [ $# -gt 2 ] || ! [[ $most =~ ^[1-9][0-9]*$ && $number =~ ^[1-9][0-9]*$ ]] || [ "$most" -lt 51 ]; then
    sed -n '2,6p' "$0" | cut -c 3-
    exit 2
fi
work=$(mktemp -d)
trap 'rm -rf "$work"' EXIT

# The names of the sessions.
names() {
    awk 'on { print $1 } /^== sessions$/ { on = 1 }' "$top/crates/r10_trials/stdin"
}

# The asks before the run that is refused its allocation of a number. The program itself asks twice before it asks for a session.
asks_for() {
    echo $((number - 2 - $1))
}

# The session of this name with so many asks, as the whole of a case.
session() {
    printf '== sessions\n%s %s\n' "$1" "$2"
}

mkdir "$work/cases"
for name in $(names); do
    session "$name" "$number" >"$work/cases/$name.0"
    for place in $(seq "$most"); do
        session "$name" "$(asks_for "$place")" >"$work/cases/$name.$place"
    done
done
(cd "$top/crates/r10_trials" && rt try --fail-alloc "$number" --cases "$work/cases") >"$work/lines" 2>"$work/notes"
bad=0
for name in $(names); do
    if ! grep -A 1 "^$name $number\$" "$work/lines" | grep -q "^as wanted, refused behind $(asks_for 1) asks before\$"; then
        echo "$name: NUMBER is too low, or a run did not end"
        tail -3 "$work/notes"
        exit 1
    fi
    # of each run the place of the allocation that it was to be refused, and a line
    awk -v name="$name" -v first="$(asks_for 0)" '
        $1 == name && NF == 2 { place = first - $2; next }
        place > 0 { print place, $0 }
        { place = 0 }
    ' "$work/lines" | sort -n >"$work/came"
    grep -v 'asks at the end$' "$work/came" >"$work/met"
    echo "$name: $(wc -l <"$work/came") runs, $(wc -l <"$work/met") of them met a refusal, the last at allocation $(
        tail -1 "$work/met" | cut -d ' ' -f 1)"
    cut -d ' ' -f 2- "$work/came" | sed 's/behind [0-9]* asks/behind asks/' | sort | uniq -c
    if [ "$(wc -l <"$work/came")" != "$most" ] || grep -q 'not as wanted\|asks before$' "$work/came"; then
        echo "  NOT AS IT SHOULD BE"
        bad=1
    fi
    if [ "$(tail -50 "$work/came" | grep -c 'asks at the end$')" != 50 ]; then
        echo "  MOST is too low: one of the last fifty runs met a refusal"
        bad=1
    fi
done
exit $bad
