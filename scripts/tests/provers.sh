#!/usr/bin/env bash
# Tests of scripts/build/provers.py over made files of a system. A second; status 1 where one fails.
set -u
# shellcheck disable=SC2317 source=scripts/tests/kit.sh
. "$(dirname "$(readlink -f "${BASH_SOURCE[0]}")")/kit.sh"
provers() { "${@:2}" "$top/scripts/build/provers.py" --root "$room/$1"; }
# machine NAME KIB: a system with so much free memory, and no limit of a group
machine() {
    mkdir -p "$room/$1/proc" "$room/$1/sys/fs/cgroup"
    printf 'MemTotal:       99999999 kB\nMemFree:        1 kB\nMemAvailable:   %s kB\n' "$2" >"$room/$1/proc/meminfo"
}
all=$(nproc)

machine large 99000000
check "one a processor where memory is there" is "$(provers large)" "$all"
check "those alone that it may run on" is "$(provers large taskset -c 0)" 1
machine small 9000000
check "as many as memory holds" test "$(provers small)" -le 2
machine least 100000
check "at least one" is "$(provers least)" 1
mkdir "$room/none"
check "one where the system does not say" is "$(provers none)" 1
machine group 99000000
printf '9000000000\n' >"$room/group/sys/fs/cgroup/memory.max"
printf 'anon 4500000000\nfile 7\n' >"$room/group/sys/fs/cgroup/memory.stat"
check "the limit of a group counts, less what it holds" is "$(provers group)" 1
printf 'max\n' >"$room/group/sys/fs/cgroup/memory.max"
check "a group without a limit" is "$(provers group)" "$all"
printf '100000 100000\n' >"$room/group/sys/fs/cgroup/cpu.max"
check "a group's time of one processor" is "$(provers group)" 1
printf 'max 100000\n' >"$room/group/sys/fs/cgroup/cpu.max"
check "a group with all time" is "$(provers group)" "$all"
machine beside 10000000
besides() { taskset -c 0 "$top/scripts/build/provers.py" --root "$room/$1" --beside "$2"; }
check "fewer beside other work" is "$(besides beside 3000000000)" 1
check "none beside work that leaves no room" is "$(besides beside 7000000000)" 0
check "none where the other work does not fit" test "$(besides least 3000000000)" -lt 1
# shellcheck disable=SC2154
exit "$failed"
