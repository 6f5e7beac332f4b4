#!/usr/bin/env bash
# Tests of scripts/proofs/said_once.py over a small tree of two crates. A second; status 1 where one fails.
set -u
# shellcheck disable=SC2016,SC2317 source=scripts/tests/kit.sh
. "$(dirname "$(readlink -f "${BASH_SOURCE[0]}")")/kit.sh"
low="$room/crates/r10_low" high="$room/crates/r10_high"
anew() {
    rm -rf "$room/crates" "$room/scripts"
    mkdir -p "$low/src" "$low/proofs" "$high/src" "$high/proofs/calls/f"
    take_scripts "$room" proofs/said_once.py proofs/reads.py
    most 0
    printf 'r10_low:\nr10_high: r10_low\nr10_side: r10_low\n' >"$room/crates.txt"
    printf 'Laws: `a_law`.\n' >"$low/README.md"
    printf '/// A law.\npub fn a_law()\n    ensures { (n : ℕ) → n ≡ n }\n{}\n' >"$low/src/laws.rt"
    printf '%b' 'use Rattle.std.Common.{refl}\n\n-- it is itself\npub itself : (n : ℕ) → n ≡ n\nitself n = refl\n\n' \
        'a-worked-value : 1 ≡ 1\na-worked-value = refl\n' >"$low/proofs/Same.antt"
    printf 'use Rattle.r10_low.proofs.Same.{itself as same}\n\npub returns : goal.returns\nreturns c = same c.n\n' \
        >"$high/proofs/calls/f/Answers.antt"
}
most() { sed -i '/^MOST/s/"copies": [0-9]*/"copies": '"$1"'/' "$room/scripts/proofs/said_once.py"; }
says() {
    said=$("$room/scripts/proofs/said_once.py" --check)
    status=$?
    [ "$status" = "$1" ] && [[ $said == *"$2"* ]] || { echo "    status $status: $said"; false; }
}

anew
check "a tree in which all is said once" says 0 "said_once: 2 lemmas, 0 too many and 0 without a use; 0 idle laws"
anew
printf '%b' '\npub also : (other : ℕ) → other ≡ other\nalso other = itself other\n\npub used : (m k : ℕ) → m ≡ k → m ≡ k\n' \
    'used m k e = also m\n\nlast : 2 ≡ 2\nlast = used 2 2 refl\n' >>"$low/proofs/Same.antt"
check "a statement that stands twice, under other names" says 1 \
    "1 statements stand twice or more, in 1 lemmas too many; where each can stay:
    r10_low/proofs/Same.antt itself, also r10_low/proofs/Same.antt also"
most 1
check "as much as may be" says 0 "said_once: 5 lemmas, 1 too many and 0 without a use; 0 idle laws"
check "nothing of it is of another crate" test "$("$room/scripts/proofs/said_once.py" r10_high | grep -c .)" = 1
anew
printf 'also : (other : ℕ) → other ≡ other\nalso other = refl\n\nlast : 2 ≡ 2\nlast = also 2\n' >"$high/proofs/More.antt"
check "in two crates: it can stay in the lower one" says 1 "
    r10_low/proofs/Same.antt itself, also r10_high/proofs/More.antt also
"
mkdir -p "$room/crates/r10_side/proofs"
for crate in high side; do
    printf 'also : (other : ℕ) → other ≡ 2\nalso other = refl\n\nlast : 2 ≡ 2\nlast = also 2\n' \
        >"$room/crates/r10_$crate/proofs/More.antt"
done
check "in two crates side by side: it can go to one below" says 1 "
    to r10_low, from r10_high/proofs/More.antt also, r10_side/proofs/More.antt also
"
anew
printf '%b' '\npub idle : (m k : ℕ) → m ≡ k → m ≡ k\nidle m k e = helper m k e\n\n' \
    'helper : (m k : ℕ) → m ≡ k → k ≡ k\nhelper m k e = refl\n' >>"$low/proofs/Same.antt"
check "a lemma without a use, and one that such a lemma alone uses" says 1 "2 lemmas without a use:
    r10_low/proofs/Same.antt: helper, idle
"
printf '#[tactic(auto, using(r10_low::proofs::Same::idle))]\n' >"$high/src/lib.rt"
check "a lemma that a function's tactic names" says 0 "0 without a use"
anew
echo >"$low/README.md"
check "a law that nobody calls and no README names" says 1 "1 laws that nobody calls, and no README or page names:
    r10_low/src/laws.rt: a_law"
mkdir -p "$room/docs"
printf 'It is `a_law`.\n' >"$room/docs/PROVING.md"
check "nor a page of docs but that about lemmas" says 1 "1 idle laws"
mv "$room/docs/PROVING.md" "$room/docs/MODEL.md"
check "a law that a page of docs names" says 0 "0 idle laws"
rm -rf "$room/docs"
printf 'pub fn f() {\n    a_law();\n    g();\n}\n' >"$high/src/lib.rt"
check "a law that a function calls" says 0 "0 idle laws"
check "other words are refused" test "$("$room/scripts/proofs/said_once.py" --all 2>/dev/null; echo $?)" = 2
exit "$failed"
