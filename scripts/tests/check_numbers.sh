#!/usr/bin/env bash
# Tests of scripts/lint/check_numbers.py, over this tree and over small changes of it. A few seconds; status 1 where one fails.
set -u
# shellcheck disable=SC2016,SC2317 source=scripts/tests/kit.sh
. "$(dirname "$(readlink -f "${BASH_SOURCE[0]}")")/kit.sh"
take_scripts "$room" lint/check_numbers.py
anew() {
    rm -rf "$room/crates"
    for crate in r10_packet r10_setup r10_b1553 r10_body r10_index; do
        mkdir -p "$room/crates/$crate"
        cp -r "$top/crates/$crate/src" "$top/crates/$crate/specs" "$room/crates/$crate"
    done
}
says() {
    said=$("$room/scripts/lint/check_numbers.py")
    status=$?
    [ "$status" = "$1" ] && [[ $said == *"$2"* ]] || { echo "    status $status: $said"; false; }
}
with() {
    anew
    printf '%b\n' "$2" >>"$room/crates/$1"
}

check "this tree: each limit stands once in code and once in definitions" "$top/scripts/lint/check_numbers.py"
anew
check "a few crates of it" says 0 " 0 places too many"
with r10_index/src/root.rt '\nfn most() -> usize {\n    100\n}'
check "a limit in code, as a number" says 1 "100 is ENTRIES_PER_NODE"
with r10_index/src/root.rt '\nfn most() -> usize\n    ensures { result ≤ 32_765 }\n{\n    1\n}'
check "a limit in a clause" says 1 "32765 is NODES_PER_ROOT"
with r10_index/specs/Written.antt '\nabbrev pub most : ℕ\nmost = 2028'
check "a limit in a definition" says 1 "2028 is FULL_NODE or full_node"
with r10_body/src/costs.rt '\nfn most() -> usize {\n    524_288\n}'
check "a limit in a file that has others" says 1 "524288 is LONGEST_PACKET"
with r10_body/src/opaque.rt '\nfn is_time(data_type: u8) -> bool {\n    data_type == 17\n}'
check "a data type that is asked for" says 1 "0x11 is TYPE_TIME"
with r10_body/src/opaque.rt '\nfn length(of: u8) -> usize {\n    match of {\n        0x38 => 4,\n        _ => 0,\n    }\n}'
check "a data type in a pattern" says 1 "0x38 is TYPE_ARINC"
with r10_body/src/opaque.rt '\n// 100 and 524288\nconst TEXT: &str = "100 or\n524,288 or 524288";'
check "comments and texts" says 0 " 0 places too many"
with r10_index/specs/Vectors.antt '\npub most : 100 ≡ 100\nmost = refl'
check "worked values" says 0 " 0 places too many"
anew
sed -i 's/^entries_per_node = 100/entries_per_node = 101/' "$room/crates/r10_body/specs/Limits.antt"
check "limits that differ, and what is computed from them" says 1 \
    "FULL_NODE is 2028 in crates/r10_body/src/limits.rt, and 2048 in"
anew
sed -i 's/^entries_per_node = 100/entries_per_node = 200/' "$room/crates/r10_body/specs/Limits.antt"
sed -i '/ENTRIES_PER_NODE: /s/100/200/' "$room/crates/r10_body/src/limits.rt"
check "a limit that is changed in both" says 0 " 0 places too many"
anew
sed -i 's/ENTRIES_PER_NODE/PER_NODE/' "$room/crates/r10_body/src/limits.rt"
check "a limit that lost its name" says 1 "ENTRIES_PER_NODE is None in crates/r10_body/src/limits.rt, and 100"
anew
sed -i 's/^type_time = 0x11/type_time = 0x12/' "$room/crates/r10_packet/specs/Types.antt"
check "a data type that differs between code and definitions" says 1 "TYPE_TIME is 0x11 in crates/r10_packet/src/types.rt"
check "other words are refused" test "$("$room/scripts/lint/check_numbers.py" --all 2>/dev/null; echo $?)" = 2
# shellcheck disable=SC2154
exit "$failed"
