#!/usr/bin/env bash
# Tests of scripts/proofs/emptied.py and above.py over a small tree of two crates, with a stand-in for the prover. Some seconds;
# status 1 where one fails.
set -u
# shellcheck disable=SC2016,SC2317 source=scripts/tests/kit.sh
. "$(dirname "$(readlink -f "${BASH_SOURCE[0]}")")/kit.sh"
tree="$room/tree" high="$room/tree/crates/r10_high" user="$room/tree/crates/r10_user"
export PATH="$room/kit/bin:$PATH" GIT_AUTHOR_NAME=a GIT_AUTHOR_EMAIL=a@a GIT_COMMITTER_NAME=a GIT_COMMITTER_EMAIL=a@a

# (it refuses the body of `count` with `wrong` in it by the clause `counted`, as long as that says something, and one with `false`
# by the clause `same`; answers about a clause that says nothing it does not read)
mkdir -p "$room/kit/bin"
cat >"$room/kit/bin/rt" <<'RT'
#!/usr/bin/env bash
cp src/lib.rt "$(dirname "$0")/seen"
bad=0
if grep -q 'ensures counted { IsCount' src/lib.rt; then
    ! grep -q wrong src/lib.rt ||
        { echo 'proofs/count/Answers.antt:3:1: error: no proof of `returns-clause-counted`'; bad=1; }
elif grep -q '^returns-clause-counted' proofs/count/Answers.antt; then
    echo 'proofs/count/Answers.antt:1:1: error: `returns-clause-counted`: expected another type'
    bad=1
fi
! grep -q false src/lib.rt || { echo 'proofs/count/Answers.antt:3:1: error: no proof of `returns-clause-same`'; bad=1; }
[ "$bad" = 1 ] || echo "fn ${PWD##*/}::count: proved"
echo "only=1 proved=$((1 - bad))"
exit "$bad"
RT
printf '%s\n' 'def crates_below(top):' '    return []' '' '' 'class Crate:' '    def stamp(self):' '        return ""' \
    >"$room/kit/bin/rtlib.py"
chmod +x "$room/kit/bin/rt"

mkdir -p "$tree/docs" "$high"/{src,specs,guards,proofs/count} "$user"/{src,proofs/twice,proofs/thrice}
take_scripts "$tree" proofs/{slips,wrong_bodies,reads,promises,emptied,above}.py build/{rt_once,share_libraries,toolchain}.py
printf 'r10_high:\nr10_user: r10_high\n' >"$tree/crates.txt"
printf '__pycache__/\n' >"$tree/.gitignore"
printf 'abbrev pub IsCount : ℕ → Type 0\nIsCount n = n < 7\n' >"$high/specs/Counts.antt"
cat >"$high/src/lib.rt" <<'RT'
ghost use Rattle.std.specs.Prelude.{◌≡◌};
ghost use Rattle.r10_high.specs.Counts.{IsCount};

/// It counts.
pub fn count(a: u64) -> u64
    ensures counted { IsCount result }
    ensures same { result ≡ result }
{
    a + 1
}

/// It says nothing of `counted`.
pub fn other(a: u64) -> u64
    ensures counted { a ≡ result }
{
    a
}
RT
cat >"$high/proofs/count/Answers.antt" <<'ANTT'
use Rattle.std.proofs.Common.{refl}

helper : ℕ
helper = 7

pub returns-clause-counted : goal.returns-clause-counted
returns-clause-counted g c = helper

pub returns-clause-same : goal.returns-clause-same
returns-clause-same g c = refl
ANTT
printf 'says: It is wrong.\nrefused: count counted\nfile: src/lib.rt\nold: a + 1\nnew: wrong\n' >"$high/guards/g.edit"
printf 'pub fn twice(a: u64) -> u64\n{\n    count(count(a))\n}\n\npub fn thrice(a: u64) -> u64\n{\n    count(a)\n}\n\n%s\n' \
    'pub fn none(a: u64) -> u64 { other(a) }' >"$user/src/lib.rt"
echo 'returns g c = c.count.ensures.counted' >"$user/proofs/twice/Answers.antt"
printf '%s\n' '## What is promised' '' '| | Promise | Function | File |' '|---|---|---|---|' \
    '| 1 | It counts. | `count`, clause `counted` | `r10_high/src/lib.rt` |' >"$tree/docs/PROMISES.md"
printf '%s\n' '## Emptied clauses' '' 'Made by `scripts/proofs/emptied.py --table`.' '' '## Next' >"$tree/docs/SLIPS.md"
git init -q "$tree"
commit() { git -C "$tree" add -A && git -C "$tree" commit -qm "$1"; }
commit first

emptied() {
    said=$("$tree/scripts/proofs/emptied.py" "$@" 2>&1)
    status=$?
}
ends() { [ "$status" = "$1" ] && [[ $said == *"$2"* ]] || { echo "    status $status: $said"; false; }; }

emptied --check
check "a page without the table fails" ends 1 \
    'docs/SLIPS.md, "Emptied clauses", is not what scripts/proofs/emptied.py --table writes'
emptied --table
check "what was not tried is said" says "$(cat "$tree/docs/SLIPS.md")" '- `count.counted`'
commit table
emptied --check
check "a clause that the page shows, with an edit: all is well" ends 0 ""
sed -i "s/^def section_of.*/&\n    return []/" "$tree/scripts/proofs/promises.py"
emptied --check
check "a page that does not change with a clause is found out" ends 1 \
    "docs/PROMISES.md does not change where clause counted of count is emptied"
git -C "$tree" checkout -q scripts
sed -i 's/refused: count counted/refused: count same/' "$high/guards/g.edit"
emptied --check
check "so is a clause without an edit" ends 1 "no edit of the gate is to be refused by clause counted of count (r10_high)"
git -C "$tree" checkout -q crates
emptied
check "an edit over the emptied clause is let through" ends 0 "count, counted: through"
check "it is kept" is "$(cut -d ' ' -f 1-3,8 "$tree/scripts/proofs/emptied.txt")" "r10_high count counted through"
emptied --table
check "the table says so" says "$(cat "$tree/docs/SLIPS.md")" '| `count` | `counted` | let through | not tried | 20'
check "and leaves the rest of the page" is "$(tail -n 1 "$tree/docs/SLIPS.md")" '## Next'
check "the clause was emptied, and the edit there" is \
    "$(grep -c 'ensures counted { result ≡ result }\|wrong' "$room/kit/bin/seen")" 2
check "and the other function is as it was" is "$(grep -c 'a ≡ result' "$room/kit/bin/seen")" 1
sed -i 's/new: wrong/new: wrong + false/' "$high/guards/g.edit" && commit false
emptied
check "what else refuses it is said" ends 0 "count, counted: helper,returns-clause-same"
sed -i "s/proof.write_text(answers_without/proof.exists() or &/" "$tree/scripts/proofs/emptied.py"
emptied
check "what still refuses it by that clause fails" ends 1 "count, counted: STILL helper,returns-clause-counted"
git -C "$tree" checkout -q scripts

said=$("$tree/scripts/proofs/above.py" --list 2>&1)
check "a function above that cites the clause is found, and not one that only calls" is "$said" \
    "count, counted: {'r10_user': ['twice']}"
rm "$user/proofs/twice/Answers.antt"
said=$("$tree/scripts/proofs/above.py" --list 2>&1)
check "without one that cites it, all that call it" is "$said" "count, counted: {'r10_user': ['twice', 'thrice']}"
exit "$failed"
