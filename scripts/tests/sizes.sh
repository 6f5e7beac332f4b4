#!/usr/bin/env bash
# Tests of scripts/lint/sizes.py, over this tree and over two crates that are made here. A second; status 1 where one fails.
set -u
# shellcheck disable=SC2016,SC2317 source=scripts/tests/kit.sh
. "$(dirname "$(readlink -f "${BASH_SOURCE[0]}")")/kit.sh"
check "no crate of this tree is larger than is stated" "$top/scripts/lint/sizes.py"
take_scripts "$room" lint/sizes.py
small=$room/crates/r10_small/src large=$room/crates/r10_large/src
mkdir -p "$small" "$large/in" "$room/docs"
# So many functions, each of three lines, and so many lines of a comment.
code() {
    awk -v n="$1" -v more="$2" 'BEGIN { while (n--) print "    pub fn f() {\n        1\n    }"; while (more--) print "// more" }'
}
table() {
    printf '# Why\n\n| Crate | Lines of `src` on a day | At most | Functions, at most | Why it is one crate |\n'
    echo '|---|---|---|---|---|'
    printf '%s\n' "$@" ''
} >"$room/docs/DECISIONS.md"
found() { "$room/scripts/lint/sizes.py" | sed '$d'; }
row='| `r10_large` | 1,600 | 1,650 | 100 | It has to be. |'

code 100 1200 >"$small/lib.rt"
code 50 1150 >"$large/lib.rt"
code 50 150 >"$large/in/other.rt"
table "$row"
check "a crate of 1,500 lines and 100 functions, and one with its own most" is "$(found)" ""
check "the last line counts" is "$("$room/scripts/lint/sizes.py")" "sizes: 2 crates, 1 with a most of their own, 0 findings"
table
check "without its row the larger one is too large" is "$(found)" "r10_large has 1600 lines, more than 1500"
check "and the status is 1" is "$("$room/scripts/lint/sizes.py" >/dev/null; echo $?)" 1
table "$row"
code 0 51 >>"$large/lib.rt"
check "a line more than its most" is "$(found)" "r10_large has 1651 lines, more than 1650"
code 51 1147 >"$large/lib.rt"
check "a function more than its most" is "$(found)" "r10_large has 101 functions, more than 100"
code 100 1201 >"$small/lib.rt"
code 50 1150 >"$large/lib.rt"
check "a crate without a row, and a line too many" is "$(found)" "r10_small has 1501 lines, more than 1500"
code 101 900 >"$small/lib.rt"
check "or a function too many" is "$(found)" "r10_small has 101 functions, more than 100"
code 10 1 >"$small/lib.rt"
table "${row/1,650/1,701}"
check "a most that is far above it" is "$(found)" \
    "docs/DECISIONS.md: r10_large has 1600 lines: a most of 1701 leaves more than 100"
table "$row" '| `r10_small` | 31 | 1,500 | 100 | Why not. |'
check "a row that is not needed" is "$(found)" "docs/DECISIONS.md: r10_small needs no row: it has 31 lines and 10 functions"
table "${row/It has to be./}"
check "a row without a reason is none" is "$(found | wc -l)" 2
table "$row" '| `r10_none` | 1,600 | 1,650 | 100 | It is gone. |'
check "a row of no crate" is "$(found | cut -c 1-64)" "docs/DECISIONS.md: this row is not of a crate with two numbers a"
table "$row" "$row"
check "two rows of a crate" is "$(found | wc -l)" 1
check "a list of all" is "$("$room/scripts/lint/sizes.py" --list)" $'r10_large 1600 100\nr10_small 31 10'
check "other words are refused" is "$("$room/scripts/lint/sizes.py" --all 2>/dev/null; echo $?)" 2
exit "$failed"
