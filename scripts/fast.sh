#!/usr/bin/env bash
# The lane for a small change of one crate: the quick parts of the gate, in three sequences side by side.
#
#     scripts/fast.sh CRATE [MINUTES]
#
# One is the crate's: the layout of its files, `rt check` over the libraries of the crates below it (those that are missing are
# proved first), and its slips without a verdict, or with a stale one. A slip begins only in the first MINUTES, 2 where none are
# named. Another looks over the tree: linters, documents and the pages that scripts make. The third is the program: the build
# without proofs, and all rows through it.
#
# It prints what a part says that fails, how long each took, and what it did not do. Status 1 where a part fails. No verdict of the
# gate rests on it.
set -u
top=$(cd "$(dirname "$(readlink -f "${BASH_SOURCE[0]}")")/.." && pwd)
cd "$top" || exit 3

crate=${1:-} minutes=${2:-2}
if [ "$#" -lt 1 ] || [ "$#" -gt 2 ] || [ ! -d "crates/$crate/src" ] || ! [[ $minutes =~ ^[0-9]+$ ]]; then
    echo "fast: which crate, and how many minutes for its slips? scripts/fast.sh CRATE [MINUTES]" >&2
    exit 2
fi
# shellcheck source=scripts/build/wants.sh
. scripts/build/wants.sh
want_python fast
want_rt fast
room=$(mktemp -d) || exit 3
trap 'rm -rf "$room"' EXIT

# What is not in the layout that `rt fmt` gives, by a copy of the crate.
layout() {
    mkdir -p "$room/copy/crates"
    cp crates.txt "$room/copy"
    (cd crates && tar -c --exclude=out "$crate") | tar -x -C "$room/copy/crates"
    (cd "$room/copy/crates/$crate" && rt fmt) || return
    diff -r --exclude=out "crates/$crate" "$room/copy/crates/$crate" || {
        echo "$crate is not in the layout of rt fmt: (cd crates/$crate && rt fmt)"
        return 1
    }
}

proof() {
    (cd "crates/$crate" && "$top/scripts/build/rt_once.py" check)
}

slips() {
    local status left
    if [ "$minutes" = 0 ]; then
        echo "NOT DONE: slips of $crate: no minutes are given for them"
        return
    fi
    if [ -n "$(git status --porcelain -- crates crates.txt 2>&1)" ]; then
        echo "NOT DONE: slips of $crate: they are tried of what is committed, and something below crates/ is not"
        return
    fi
    scripts/proofs/slips.py --minutes "$minutes" "$crate" >"$room/tried"
    status=$?
    cat "$room/tried"
    left=$(sed -n 's/^[0-9]* tried, \([0-9]*\) left$/\1/p' "$room/tried")
    [ "${left:-0}" = 0 ] || echo "NOT DONE: $left slips of $crate are left"
    return "$status"
}

lint() {
    scripts/build/side_by_side.sh <<'CHECKS'
scripts/lint/lint.sh
scripts/lint/plain.py
scripts/lint/check_names.py
scripts/lint/sizes.py
scripts/lint/check_numbers.py
scripts/lint/links.py
scripts/lint/pictures.py --check
scripts/proofs/proofs.py --check
scripts/proofs/conditions.py --check
scripts/proofs/surface.py --check
scripts/proofs/reads.py --check
scripts/proofs/promises.py --check
scripts/proofs/said_once.py --check
CHECKS
}

build() {
    scripts/build/quick_build.py >"$room/program"
}

rows() {
    scripts/rows/run_rows.py "$(cat "$room/program")"
}

# The crates that stand on this one, in the order of crates.txt.
above() {
    awk -v name="$crate" -F: '
        { sub(/#.*/, "") }
        NF { split($1, head, " "); order[++count] = head[1]; uses[head[1]] = " " $2 " " }
        END {
            on[name] = 1
            for (grown = 1; grown;) {
                grown = 0
                for (at = 1; at <= count; at++) {
                    if (order[at] in on) continue
                    for (it in on) if (index(uses[order[at]], " " it " ")) { on[order[at]] = grown = 1; break }
                }
            }
            for (at = 1; at <= count; at++) if (order[at] in on && order[at] != name) print order[at]
        }' crates.txt
}

# Runs parts one after the other, up to the first that fails.
TIMEFORMAT='%0R %0U %0S'
sequence() {
    local part
    for part in "$@"; do
        { time "$part" >"$room/$part.said" 2>&1; } 2>"$room/$part.time" && echo good >"$room/$part.came" || {
            echo FAILED >"$room/$part.came"
            return
        }
    done
}

above >"$room/above"
program=$(grep -x r10_cli "$room/above")
[ "$crate" != r10_cli ] || program=r10_cli
began=$SECONDS
sequence layout proof slips &
sequence lint &
[ -z "$program" ] || sequence build rows &
wait
status=0
for part in layout proof slips lint build rows; do
    [ -f "$room/$part.came" ] || continue
    read -r real user system <"$room/$part.time"
    came=$(cat "$room/$part.came")
    [ "$came" = good ] || {
        cat "$room/$part.said"
        status=1
    }
    more=$(sed -n 's/^\([0-9]* tried\), [0-9]* left$/\1/p; s/^(\([0-9]* cases, [0-9]* differ\))$/\1/p' "$room/$part.said")
    printf '%-7s %-6s %4d s, %4d of a processor%s\n' "$part" "$came" "$real" "$((user + system))" "${more:+: $more}"
done
grep -h '^NOT DONE\|^NOT TRIED' "$room"/*.said
parts=(layout proof slips lint ${program:+build rows})
for part in "${parts[@]}"; do
    [ -f "$room/$part.came" ] || echo "NOT DONE: $part, as a part before it failed"
done
[ -n "$program" ] || echo "NOT DONE: build and rows, as the program does not stand on $crate"
[ ! -s "$room/above" ] || echo "NOT DONE: $(wc -l <"$room/above") crates above are not proved: $(tr '\n' ' ' <"$room/above")"
echo "NOT DONE: tests of crates, edits of must-fail, the library for C and Rust, the service, filters, trials: .ci/run does"
if [ "$status" = 0 ]; then
    echo "fast: $crate is good so far, in $((SECONDS - began)) s"
else
    echo "fast: $crate FAILED, in $((SECONDS - began)) s"
fi
exit "$status"
