#!/usr/bin/env bash
# Looks at the rows; docs/ROWS.md says what they are.
#
#     scripts/rows/rows.sh              the names of all cases
#     scripts/rows/rows.sh NAME         a case and its answer, side by side
#     scripts/rows/rows.sh --examples   compares the cases `examples/..` with the files of that name
set -eu

top=$(cd "$(dirname "${BASH_SOURCE[0]}")/../.." && pwd)
readonly cases=$top/rows/cases answers=$top/rows/answers

usage() {
    sed -n '4,6p' "$0" | cut -c 7-
    exit 2
}

# What stands in a file behind the first two lines of the case of this name.
body_of() {
    awk -v name="$2" '/^== / { on = $2 == name; line = 0 } on && ++line > 2' "$1"
}

# The whole case of this name in a file.
whole_of() {
    awk -v name="$2" '/^== / { on = $2 == name } on' "$1"
}

# Each reply stands beside the `do` of its step; what has no step stands below.
side_by_side() {
    if [ -z "$(whole_of "$cases" "$1")" ]; then
        echo "there is no case $1" >&2
        exit 2
    fi
    awk '
        FNR == NR && FNR <= 2 { top[FNR] = $0; next }
        FNR == NR && /^[0-9]+ / { reply[$1] = $0; next }
        FNR == NR { rest[++below] = $0; next }
        { answer = FNR <= 2 ? top[FNR] : /^do = / ? reply[++step] : "" }
        { printf "%-44s | %s\n", $0, answer }
        END { for (i = 1; i <= below; i++) printf "%-44s | %s\n", "", rest[i] }
    ' <(whole_of "$answers" "$1") <(whole_of "$cases" "$1")
}

compare_examples() {
    local script name
    for script in "$top"/examples/*.toml; do
        name=examples/$(basename "$script")
        body_of "$cases" "$name" | cmp - "$script"
        body_of "$answers" "$name" | cmp - "${script%.toml}.expected"
    done
}

case $# in
0) awk '/^== / { print $2 }' "$cases" ;;
1) case $1 in
    --examples) compare_examples ;;
    -*) usage ;;
    *) side_by_side "$1" ;;
    esac ;;
*) usage ;;
esac
