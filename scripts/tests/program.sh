#!/usr/bin/env bash
# Tests of the program that is kept, over readers and writers that fail or are slow, a long script, and the largest medium: some
# seconds. What it prints of scripts and images is in rows/. Status 1 where a check fails.
set -u
# shellcheck disable=SC2016,SC2317 source=scripts/tests/kit.sh
. "$(dirname "$(readlink -f "${BASH_SOURCE[0]}")")/kit.sh"
export LC_ALL=C
r10=$("$top/scripts/build/quick_build.py" --current) || {
    no_build "readers and writers that fail"
    exit 0
}

# A script of one step, which prints `1 refused 2 NotMounted`, in 23 bytes.
readonly SETTINGS='blocks = 64
directory = 2
volume = "VOL"
nodes = 100
time = 1
event = 2
channel = [{ id = 5, kind = "uart", capacity = 2, check = 0, bytes = 524288, number = 65535 }]
'
printf '%sstep = [{ do = "stop" }]\n' "$SETTINGS" >"$room/one.toml"
"$r10" sim --image <"$top/examples/first.toml" >"$room/medium.img"
"$top/scripts/ch10.py" file FLT1 <"$room/medium.img" >"$room/first.ch10"

# Runs the program with a standard output that takes nothing, and prints its status and what it says.
onto() {
    local target=$1 input=$2 said
    shift 2
    said=$("$r10" "$@" 2>&1 <"$input" >"$target")
    echo "$? $said"
}

readonly FULL='cannot write: No space left on device (os error 28)' GONE='cannot write: Broken pipe (os error 32)'

# Readers.
slowly() {
    local line
    while IFS= read -r line; do
        printf '%s' "${line:0:3}"
        sleep 0.01
        printf '%s\n' "${line:3}"
    done
}
check "a script that comes in small parts is read whole" is "$(slowly <"$room/one.toml" | "$r10")" "1 refused 2 NotMounted"
check "it prints 23 bytes" is "$("$r10" <"$room/one.toml" | wc -c)" 23
mkfifo "$room/pipe"
"$r10" <"$room/pipe" >"$room/lines" 2>&1 &
exec 3>"$room/pipe"
head -c 100 "$room/one.toml" >&3
for _ in 1 2 3; do
    kill -STOP $! && sleep 0.02 && kill -CONT $!
done
tail -c +101 "$room/one.toml" >&3
exec 3>&-
wait $!
check "a program that is stopped and goes on reads the rest" is "$? $(cat "$room/lines")" "0 1 refused 2 NotMounted"
for words in sim "sim --image" run files play check; do
    # shellcheck disable=SC2086
    check "a read that fails is status 3: $words" is "$("$r10" $words 2>&1 <"$room"; echo "status $?")" \
        "r10: cannot read: Is a directory (os error 21)
status 3"
    # shellcheck disable=SC2086
    check "so is a standard input that is closed: $words" says "$("$r10" $words 2>&1 <&-; echo "status $?")" "status 3"
done

# The verdict on recordings in windows of many sizes.
said=$("$top/scripts/trials/check_windows.py" "$r10" 2>&1)
check "a recording has its verdict whatever windows it comes in" says "$said" ", 0 differ"

# Writers. Each command's output, onto a full disk, and into a pipe that nobody reads.
commands=(
    "one.toml sim"
    "one.toml sim --image"
    "medium.img files"
    "medium.img play"
    "first.ch10 check"
    "one.toml format --blocks 16 --directory 2 --volume VOL"
    "one.toml --help"
    "one.toml --version"
)
mkfifo "$room/gone"
for line in "${commands[@]}"; do
    read -r input words <<<"$line"
    # shellcheck disable=SC2086
    check "a full disk is status 3: $words" is "$(onto /dev/full "$room/$input" $words)" "3 r10: $FULL"
    # a pipe whose reader has gone, and a program that ignores the signal
    said=$(
        trap '' PIPE
        # shellcheck disable=SC2094
        exec 4<>"$room/gone" 5>"$room/gone" 4<&-
        # shellcheck disable=SC2086
        "$r10" $words 2>&1 <"$room/$input" >&5
        echo "status $?"
    )
    check "so is a pipe that nobody reads: $words" is "$said" "r10: $GONE
status 3"
done
if [ "$(id -u)" = 0 ] && mkdir "$room/small" && mount -t tmpfs -o size=4k tmpfs "$room/small" 2>/dev/null; then
    said=$(onto "$room/small/image" "$room/one.toml" sim --image)
    check "a disk that is full after 4,096 bytes is status 3" is "$(wc -c <"$room/small/image") $said" "4096 3 r10: $FULL"
    umount "$room/small"
else
    echo "NOT TRIED: a disk that is full in the midst (no mount here)"
fi

# 70,000 losses in a row, more than 16 bits hold. One message after them goes into this file. Three more are lost, and the next one
# goes into another file.
{
    printf '%sstep = [{ do = "mount" }, { do = "tick", count = 1000, civil = "2024-02-29 12:34:56.78" },\n' "$SETTINGS"
    printf '{ do = "start", name = "FLT1", setup = "" },\n'
    printf '{ do = "offer", channel = 5, count = %d },\n' 1001 1002
    yes '{ do = "offer", channel = 5, count = 1003 },' | head -n 70000
    printf '{ do = "pump", channel = 5, k = 2 },\n'
    printf '{ do = "offer", channel = 5, count = %d },\n' 1004 1005 1006 1007 1008
    printf '{ do = "stop" }, { do = "tick", count = 2000, civil = "2024-02-29 12:34:56.78" },\n'
    printf '{ do = "start", name = "FLT2", setup = "" }, { do = "offer", channel = 5, count = 2000 }, { do = "stop" },\n'
    printf '{ do = "cursor", file = 0, channels = [5], from = 1003, to = 9999 }, { do = "advance", id = 0 },\n'
    printf '{ do = "next", id = 0 }, { do = "next", id = 0 },\n'
    printf '{ do = "cursor", file = 1, channels = [5], from = 0, to = 9999 }, { do = "advance", id = 1 },\n'
    printf '{ do = "next", id = 1 }]\n'
} >"$room/long.toml"
"$r10" <"$room/long.toml" >"$room/lines"
check "a loss of 70,000 messages has its number, and so has the next, a file later" is "$(tail -n 12 "$room/lines")" \
    "70012 stopped 2 0
70013 ok
70014 ok
70015 ok
70016 stopped 1 0
70017 cursor 0
70018 advanced 2
70019 entry 5 1004 70000 uart 0 0 -
70020 entry 5 1005 0 uart 0 0 -
70021 cursor 1
70022 advanced 1
70023 entry 5 2000 3 uart 0 0 -"

# The largest medium is there at once: it is made and not touched, but where something is written.
begun=$SECONDS
found=$("$r10" format --blocks 16777216 --directory 64 --volume VOL 2>"$room/said" | head -c 520 | tail -c 8)
if grep -q 'out of memory' "$room/said"; then
    echo "NOT TRIED: a medium of 8 GiB (the system grants no such memory)"
else
    check "a medium of 8 GiB has its directory" is "$found" FORTYtwo
    check "and is made in 10 seconds at most" [ $((SECONDS - begun)) -le 10 ]
fi
exit "$failed"
