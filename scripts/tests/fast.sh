#!/usr/bin/env bash
# Tests of scripts/fast.sh with stand-ins for the toolchain and for the scripts that it calls. Some ten seconds; status 1 where one
# fails.
set -u
# shellcheck disable=SC2016,SC2154,SC2317 source=scripts/tests/kit.sh
. "$(dirname "$(readlink -f "${BASH_SOURCE[0]}")")/kit.sh"
kit=$room/kit
top=$room/top
make_kit "$kit"
make_checkout "$top"
PATH=$kit/bin:$PATH
unset R10_BUILDS

# A script of the checkout that only does these commands, and notes that it was called.
stand_in() {
    mkdir -p "$top/scripts/$(dirname "$1")"
    printf '#!/usr/bin/env bash\necho "%s $*" >>"%s/calls"\n%s\n' "$1" "$room" "$2" >"$top/scripts/$1"
    chmod +x "$top/scripts/$1"
}
sed -n 's|^scripts/\([a-z]*/[a-z_]*\.[a-z]*\).*|\1|p' "$top/scripts/fast.sh" >"$room/linters"
while IFS= read -r name; do
    stand_in "$name" :
done <"$room/linters"
stand_in proofs/slips.py 'echo "refused: one"; echo "2 tried, 0 left"'
stand_in rows/run_rows.py 'echo "(3 cases, 0 differ)"'
printf 'r10_low:\nr10_words:\nr10_cli: r10_low r10_words\nr10_tests: r10_cli\nr10_other:\n' >"$top/crates.txt"
mkdir -p "$top/crates/r10_other/src"
echo '# other' >"$top/crates/r10_other/src/lib.rt"
git -C "$top" init -q
printf 'out/\n' >"$top/.gitignore"
save() { git -C "$top" add -A && git -C "$top" -c user.name=n -c user.email=n@localhost commit -qm "$1"; }
save first

run() {
    : >"$room/calls"
    said=$("$top/scripts/fast.sh" "$@" 2>&1)
    status=$?
}
part() { sed -n "s/^$1 *\([a-zA-Z]*\) .*/\1/p" <<<"$said"; }
not_done() { sed -n 's/^NOT DONE: //p' <<<"$said" | grep -v '^tests of crates'; }

run r10_low
check "a good crate" is "$status $(tail -n 1 <<<"$said" | cut -d , -f 1)" "0 fast: r10_low is good so far"
check "each part is good" is "$(for it in layout proof slips lint build rows; do part $it; done | tr '\n' ' ')" \
    "good good good good good good "
check "each has its time" is "$(grep -c '^[a-z]* *good *[0-9]* s, *[0-9]* of a processor' <<<"$said")" 6
check "it says what slips and rows came to" is "$(grep -o ': 2 tried$\|: 3 cases, 0 differ$' <<<"$said" | tr -d '\n')" \
    ": 2 tried: 3 cases, 0 differ"
check "the crate is proved, and no other" is "$(grep check "$kit/proofs")" "check r10_low"
check "each linter is called" is "$(cut -d ' ' -f 1 "$room/calls" | grep -c 'lint/\|proofs/')" "$(($(wc -l <"$room/linters") + 1))"
check "it names the crates above" is "$(not_done)" "2 crates above are not proved: r10_cli r10_tests "
check "and what it never does" is "$(grep -c '^NOT DONE: tests of crates' <<<"$said")" 1
check "slips have two minutes" is "$(grep slips.py "$room/calls" | grep -v check)" "proofs/slips.py --minutes 2 r10_low"
run r10_low 7
check "or as many as are named" is "$(grep slips.py "$room/calls" | grep -v check)" "proofs/slips.py --minutes 7 r10_low"
run r10_low 0
check "with none they are not tried" is "$(grep -c slips.py "$room/calls") $(not_done | head -n 1)" \
    "0 slips of r10_low: no minutes are given for them"
run r10_other
check "a crate that the program does not stand on" is "$status $(part build)$(part rows) $(not_done)" \
    "0  build and rows, as the program does not stand on r10_other"
run r10_cli
check "the program's own crate has them" is "$status $(part build) $(part rows)" "0 good good"

stand_in proofs/slips.py 'echo "2 tried, 5 left"'
run r10_low
check "slips that are left are said" is "$status $(not_done | head -n 1)" "0 5 slips of r10_low are left"
stand_in proofs/slips.py 'echo "LET THROUGH: one"; echo "1 tried, 0 left"; exit 1'
run r10_low
check "a slip that is let through fails" is "$status $(part slips) $(grep -c '^LET THROUGH: one' <<<"$said")" "1 FAILED 1"
stand_in proofs/slips.py 'echo "2 tried, 0 left"'

echo '# more' >>"$top/crates/r10_other/src/lib.rt"
run r10_low
check "slips want what is changed to be committed" is "$status $(grep -c slips.py "$room/calls") $(not_done | head -n 1)" \
    "0 0 slips of r10_low: they are tried of what is committed, and something below crates/ is not"
save more

printf '\t# low\n' >"$top/crates/r10_low/src/lib.rt"
save tab
run r10_low
check "another layout fails" is "$status $(part layout) $(part proof) $(part slips)" "1 FAILED  "
check "it says what layout" is "$(grep -c '^r10_low is not in the layout of rt fmt' <<<"$said")" 1
check "and what was not done for it" is "$(not_done | sed -n '1p;2p' | tr '\n' ' ')" \
    "proof, as a part before it failed slips, as a part before it failed "
check "the file stays" is "$(cat "$top/crates/r10_low/src/lib.rt")" "$(printf '\t# low')"
echo '# low' >"$top/crates/r10_low/src/lib.rt"
save spaces

echo r10_low >"$kit/refused"
run r10_low
check "a refused proof fails, and is shown" is "$status $(part proof) $(grep -c '^logic=refused' <<<"$said")" "1 FAILED 1"
check "the tree is looked over all the same" is "$(part lint) $(part build) $(part rows)" "good good good"
rm "$kit/refused"
stand_in lint/plain.py 'echo "a long sentence"; exit 1'
run r10_low
check "a linter's finding fails, and is shown" is "$status $(part lint) $(grep -c '^a long sentence' <<<"$said")" "1 FAILED 1"
check "the rest is done all the same" is "$(part proof) $(part build) $(part rows)" "good good good"
stand_in lint/plain.py :
echo 'error: no' >"$kit/fails"
echo '# changed' >>"$top/crates/r10_low/src/lib.rt"
save changed
run r10_low
check "a build that fails" is "$status $(part build) $(part rows) $(not_done | head -n 1)" \
    "1 FAILED  rows, as a part before it failed"
rm "$kit/fails"
stand_in rows/run_rows.py 'echo "differs: first"; echo "(3 cases, 1 differ)"; exit 1'
run r10_low
check "a row that differs" is "$status $(part rows) $(grep -c '^differs: first' <<<"$said")" "1 FAILED 1"

for words in "" r10_none "r10_low two" "r10_low 1 more"; do
    # shellcheck disable=SC2086
    run $words
    check "wrong words: '$words'" is "$status $(wc -l <<<"$said")" "2 1"
done
said=$(PATH=$(dirname "$(command -v python3)"):/usr/bin:/bin "$top/scripts/fast.sh" r10_low 2>&1)
check "without rt it is one line, status 3" is "$? $(wc -l <<<"$said")" "3 1"
exit "$failed"
