#!/usr/bin/env bash
# Tests of scripts/proofs/carried.py, over a copy of this tree and small changes of it. Some 20 seconds of a processor; status 1
# where one fails.
set -u
# shellcheck disable=SC2016,SC2317 source=scripts/tests/kit.sh
. "$(dirname "$(readlink -f "${BASH_SOURCE[0]}")")/kit.sh"
copy=$room/copy
mkdir "$copy"
(cd "$top" && git ls-files -z --cached --others --exclude-standard crates crates.txt scripts docs/SLIPS.md \
    | xargs -0 cp --parents -t "$copy")
git -C "$copy" init -q
git -C "$copy" add -A
git -C "$copy" -c user.name=r10 -c user.email=r10@example.org commit -qm tree
uart=crates/r10_uart
anew() {
    git -C "$copy" checkout -q . && git -C "$copy" clean -fdq
    : >"$room/names"
}
sums() { sed -n 's/^r10_uart \S* \S* \(\S*\) .*/\1/p' "$copy/scripts/proofs/slips.txt" | sort | uniq -c; }
now() { (cd "$copy" && python3 -c "
import sys
sys.path.insert(0, 'scripts/proofs')
import wrong_bodies
print(wrong_bodies.Sums.of('r10_uart', wrong_bodies.crates()).own)"); }
carried() {
    said=$(cd "$copy" && python3 scripts/proofs/carried.py HEAD "$room/names" 2>&1)
    [[ $said == *"$1"* ]] || { echo "    $said"; false; }
}
holds() { carried "are the same but for names" && [[ $said != *"r10_uart is another"* ]] && [[ $(sums) == *" $(now)" ]]; }

anew
grep -rl --include=*.antt --include=*.rt '\bFitsUart\b' "$copy/crates" | xargs sed -i 's/\bFitsUart\b/IsUartEntry/g'
echo 'word FitsUart IsUartEntry' >"$room/names"
check "a word that has another name in all files: the verdicts hold" holds
anew
grep -rl --include=*.antt --include=*.rt '\bFitsUart\b' "$copy/crates" | xargs sed -i 's/\bFitsUart\b/IsUartEntry/g'
check "and where nobody says so, they do not" carried "r10_uart is another"
anew
file=$(grep -rl --include=*.rt '^    {$' "$copy/$uart/src" | head -1)
sed -i '0,/^    {$/s//    {\n        let _ = 1;/' "$file"
check "a body that is another" carried "r10_uart is another"
anew
file=$(ls "$copy/$uart"/specs/*.antt | head -1)
printf '%b' '\nabbrev pub more : ℕ\nmore = 1\n' >>"$file"
check "a definition more" carried "r10_uart is another"
anew
printf '%b' '-- a module more\n' >"$copy/$uart/specs/More.antt"
check "a file more" carried "r10_uart is another"
# shellcheck disable=SC2154
exit "$failed"
