#!/usr/bin/env bash
# Tests of scripts/build.sh with a stand-in for the toolchain: some twenty seconds. Status 1 where one fails.
set -u
# shellcheck disable=SC2016,SC2317 source=scripts/tests/kit.sh
. "$(dirname "$(readlink -f "${BASH_SOURCE[0]}")")/kit.sh"
trap 'rm -f "$room/a kit/slow"; rm -rf "$room"' EXIT
kit="$room/a kit"
top="$room/a folder"
make_kit "$kit"
make_checkout "$top"
PATH="$kit/bin:$PATH"
unset R10_BUILDS R10_LANES
for name in r10_one r10_two r10_three r10_top; do
    mkdir -p "$top/crates/$name/src"
    echo "# $name" >"$top/crates/$name/src/lib.rt"
done
cat >"$top/crates.txt" <<'CRATES'
# lowest first
r10_low:
r10_one: r10_low
r10_two: r10_low
r10_three: r10_low r10_two
r10_top: r10_one r10_three
r10_beside: r10_low
r10_cli: r10_top
CRATES
git init -q "$top"

build() {
    said=$("$top/scripts/build.sh" "$@" 2>"$room/errors")
    status=$?
    errors=$(cat "$room/errors")
}
count() { if [ -f "$kit/proofs" ]; then wc -l <"$kit/proofs"; else echo 0; fi; }
ended() { ! pgrep -f "$kit/bin/rt" >/dev/null; }

build 0
check "no lanes: status 2, one line" is "$status $(wc -l <"$room/errors")" "2 1"
build 1
check "all is proved" is "$status$errors" "0"
check "each crate once, and none beside" is "$(sort "$kit/proofs" | tr '\n' ' ')" \
    "lib r10_low lib r10_one lib r10_three lib r10_top lib r10_two run r10_cli "
check "lowest first" is "$(head -n 1 "$kit/proofs") $(tail -n 1 "$kit/proofs")" "lib r10_low run r10_cli"
check "the crate with the longest way above it comes before another" is "$(sed -n 2p "$kit/proofs")" "lib r10_two"
check "it says how many are proved" says "$said" "(6 of 6 proved, 0 more at work)"
check "./r10 then runs the proved program" is "$("$top/r10" 2>&1)" "proved"
check "the libraries stand in the checkout" test -f "$top/crates/r10_top/out/rlib/r10_top.rlib/format"
check "no copies of sources are left" is "$(find "$top" -name 'lane*' | wc -l)" 0
: >"$kit/proofs"
build 3
check "again, the program alone is linked" is "$(cat "$kit/proofs")" "run r10_cli"
echo "# changed" >>"$top/crates/r10_one/src/lib.rt"
: >"$kit/proofs"
build 3
check "after a change the crate" says "$(cat "$kit/proofs")" "lib r10_one"
check "and not those beside it" is "$(grep -c 'r10_three\|r10_low' "$kit/proofs")" 0

rm -rf "$top"/crates/*/out "$top/out"
build
fits=$(($(sed -n 's/^MemAvailable: *\([0-9]*\) kB/\1/p' /proc/meminfo) * 1024 / 2500000000))
most=$(printf '%s\n' "$(nproc)" "$fits" 6 | sort -n | head -n 1)
check "without LANES it takes as many as processors and free memory have room for" says "$said" \
    "side by side $((most > 0 ? most : 1)))"

rm -rf "$top"/crates/*/out "$top/out"
: >"$kit/proofs"
echo r10_three >"$kit/refused"
build 3
check "a crate that is not proved: status 1" is "$status" 1
check "one line names it and its log" is "$errors" "r10: r10_three is not proved: see crates/r10_three/out/build.log"
check "the log is there" says "$(cat "$top/crates/r10_three/out/build.log")" "logic=refused"
rm "$kit/refused"
: >"$kit/proofs"
build 3
check "what was proved before is taken over" is "$(grep -c 'r10_low\|r10_two' "$kit/proofs") $status" "0 0"

for signal in TERM INT KILL; do
    rm -rf "$top"/crates/*/out "$top/out"
    : >"$kit/proofs"
    echo 2 >"$kit/slow_from" # (the second proof is held up)
    "$top/scripts/build.sh" 1 >"$room/first" 2>&1 & one=$!
    for _ in $(seq 400); do
        [ "$(grep -c took "$room/first" 2>/dev/null)" -ge 1 ] && [ "$(wc -l <"$kit/proofs")" -ge 2 ] && break
        sleep 0.05
    done
    kill -"$signal" "$one"
    wait "$one" 2>/dev/null
    sleep 0.5
    check "after $signal no proof goes on" ended
    rm -f "$kit/slow_from"
    before=$(grep -c took "$room/first")
    : >"$kit/proofs"
    build 1
    check "a call that was ended by $signal goes on (it had proved $before)" is "$(count) $status" "$((6 - before)) 0"
done

rm -rf "$top"/crates/*/out "$top/out"
: >"$kit/proofs"
touch "$kit/slow"
"$top/scripts/build.sh" 2 >"$room/one" 2>&1 & one=$!
"$top/scripts/build.sh" 2 >"$room/two" 2>&1 & two=$!
for _ in $(seq 400); do
    ! grep -q waits "$room/one" "$room/two" || break
    sleep 0.05
done
rm "$kit/slow"
wait "$one" "$two"
check "of two calls at once one waits" says "$(cat "$room/one" "$room/two")" "waits"
check "and takes over what the other proved" is "$(count)" 7
# a crate that measures, which is a library
mkdir -p "$top/crates/r10_bench/src"
printf '# a bench\n' >"$top/crates/r10_bench/src/lib.rt"
printf 'r10_bench staticlib: r10_low\n' >>"$top/crates.txt"
: >"$kit/proofs"
"$top/scripts/build/build.py" 1 --crate r10_bench >/dev/null 2>&1
check "a program is made of a crate that measures" is "$(cat "$kit/proofs") $("$top/crates/r10_bench/out/r10_bench")" \
    "run r10_bench proved"
check "and the crate stays a library" is "$(ls "$top/crates/r10_bench/src") $(tail -n 1 "$top/crates.txt")" \
    "lib.rt r10_bench staticlib: r10_low"
"$top/scripts/measure/quick_bench.py" "$room/bench" >/dev/null 2>&1
check "so it is without a proof" is "$(sed -n '2,$p' "$room/bench")" "$(printf '%s\n' '# a bench' \
    'fn main(rt: HostRuntime) -> Result<ExitCode, BenchFault> {' '    measure(&rt)' '}')"
mkdir "$room/no"
check "without rt it is one line" is "$(PATH=$(dirname "$(command -v python3)"):/usr/bin:/bin "$top/scripts/build.sh" 2>&1 |
    wc -l)" 1
exit "$failed"
