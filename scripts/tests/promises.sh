#!/usr/bin/env bash
# Tests of scripts/proofs/promises.py, over a small tree that is made here. Some seconds; status 1 where one fails.
set -u
# shellcheck disable=SC2016,SC2317 source=scripts/tests/kit.sh
. "$(dirname "$(readlink -f "${BASH_SOURCE[0]}")")/kit.sh"
low="$room/crates/r10_low" high="$room/crates/r10_high"
mkdir -p "$room/docs" "$low/src" "$low/specs" "$high/src"
take_scripts "$room" proofs/promises.py proofs/reads.py
cat >"$low/specs/Counts.antt" <<'ANTT'
use Rattle.std.specs.Prelude.{ℕ, ◌<◌}

-- a count has 48 bits
abbrev pub IsCount : ℕ → Type 0
IsCount n = n < bound

bound : ℕ
bound = 2 ^ 48

abbrev pub idle : ℕ
idle = 7
ANTT
cat >"$low/specs/Forms.antt" <<'ANTT'
use Rattle.r10_low.specs.Bodies as bodies

abbrev pub IsForm : ℕ → Type 0
IsForm n = bodies.IsBody n
ANTT
cat >"$low/specs/Bodies.antt" <<'ANTT'
abbrev pub IsBody : ℕ → Type 0
IsBody n = n < 9
ANTT
cat >"$low/src/lane.rt" <<'RT'
pub trait LaneOut {
    ghost took: { Self → ℕ → Type 0 };

    fn take(&mut self) -> u64
        ensures taken { took self.old result };
}
RT
cat >"$low/src/ring.rt" <<'RT'
ghost use Rattle.r10_low.specs.Counts.{idle};

use crate::lane::LaneOut;

pub struct Ring {
    value: u64,
}

impl LaneOut for Ring {
    ghost took = { λ ring n. n ≡ idle };

    fn take(&mut self) -> u64 {
        7
    }
}
RT
printf 'pub mod lane;\npub mod ring;\n' >"$low/src/lib.rt"
cat >"$high/src/lib.rt" <<'RT'
ghost use Rattle.std.specs.Prelude.{◌≡◌, IfOk};
ghost use Rattle.r10_low.specs.Counts.{IsCount};
ghost use Rattle.r10_low.specs.Forms as forms;

/// It counts.
pub fn count(a: u64) -> Result<u64, ()>
    requires low { a ≡ 0 }
    ensures counted { IfOk result (λ n. IsCount n) }
    // a clause that no promise names
    ensures same { result ≡ result }
{
    Ok(a)
}

pub fn other(a: u64) -> u64
    ensures { IsCount result }
{
    a
}

pub fn third(a: u64) -> u64
    ensures counted { forms.IsForm result }
{
    a
}
RT
cat >"$room/docs/PROMISES.md" <<'MD'
# The promises

## What is promised

| | Promise | Function | File |
|---|---|---|---|
| 1 | It is. And on. | First: `count`, clause `counted`; so too `third`. Second: `other`, its one clause | `r10_high/src/lib.rt` |
| 2 | It takes. | `LaneOut::take`, clause `taken` | `r10_low/src/lane.rt` |
MD
promises() {
    said=$("$room/scripts/proofs/promises.py" "$@" 2>&1)
    status=$?
}
ends() { [ "$status" = "$1" ] && [[ $said == *"$2"* ]] || { echo "    status $status: $said"; false; }; }
# (what a change in the tree does to the check; the change is taken back)
changes() {
    cp "$2" "$room/before"
    sed -i "$3" "$2"
    cmp -s "$room/before" "$2" && { echo "    nothing was changed"; return 1; }
    promises --check
    cp "$room/before" "$2"
    ends "$1" "${4-}"
}

cp "$room/docs/PROMISES.md" "$room/by_hand" && rm "$room/docs/PROMISES.md"
promises --check
check "without a page the check fails" ends 1 "docs/PROMISES.md has no ## What is promised"
cp "$room/by_hand" "$room/docs/PROMISES.md"
promises --list
check "each clause is listed once, also one that is named by its neighbour" is "$said" "1 count counted crates/r10_high/src/lib.rt
1 other - crates/r10_high/src/lib.rt
1 third counted crates/r10_high/src/lib.rt
2 LaneOut::take taken crates/r10_low/src/lane.rt"
promises --check
check "without the contracts the check fails" ends 1 "a promise, or what it stands on, is not what docs/PROMISES.md has"
promises
check "the page is written" ends 0 ""
promises --check
check "and is what would be written" ends 0 ""
check "what stands there by hand stays" is "$(sed -n '1p;/^| 1 |/p;/^## /p' "$room/docs/PROMISES.md" | cut -c 1-20)" \
    "$(printf '%s\n' '# The promises' '## What is promised' '| 1 | It is. And on.' '## The contracts')"
check "and may be changed" changes 0 "$room/docs/PROMISES.md" 's/^# The promises/# All promises/'
check "it has what is asked and what is promised, without comments" is \
    "$(grep -c 'requires low\|ensures counted\|ensures same\|ensures { IsC\|no promise\|It counts' "$room/docs/PROMISES.md")" 4
check "and the name of a clause beside, with a sum" is \
    "$(grep -c '^- beside these: `same`: [0-9a-f]\{12\}$' "$room/docs/PROMISES.md")" 1
check "and what a type gives for a word of a trait" says "$(cat "$room/docs/PROMISES.md")" '`took of Ring`'

readonly change="a promise, or what it stands on"
check "a clause that is emptied is seen" \
    changes 1 "$high/src/lib.rt" 's/ensures counted { IfOk.*/ensures counted { result ≡ result }/' "$change"
check "so is a clause beside it" changes 1 "$high/src/lib.rt" 's/ensures same.*//' "$change"
check "and one that says another thing" \
    changes 1 "$high/src/lib.rt" 's/ensures same { result ≡ result }/ensures same { result ≡ Ok a }/' "$change"
check "and what is asked" changes 1 "$high/src/lib.rt" 's/requires low { a ≡ 0 }/requires low { a ≡ 1 }/' "$change"
check "and the function of one clause" \
    changes 1 "$high/src/lib.rt" 's/ensures { IsCount result }/ensures { result ≡ result }/' "$change"
check "a definition that a clause names" changes 1 "$low/specs/Counts.antt" 's/n < bound/n < bound + 1/' "$change"
check "one that this stands on" changes 1 "$low/specs/Counts.antt" 's/2 ^ 48/2 ^ 49/' "$change"
check "one that a name of its file leads to" changes 1 "$low/specs/Forms.antt" 's/IsBody n$/IsBody (n + 1)/' "$change"
check "also by way of another" changes 1 "$low/specs/Bodies.antt" 's/n < 9/n < 10/' "$change"
check "what a type gives for a word of a trait" changes 1 "$low/src/ring.rt" 's/n ≡ idle/n ≡ n/' "$change"
check "and what that stands on" changes 1 "$low/specs/Counts.antt" 's/idle = 7/idle = 8/' "$change"
check "a word of the toolchain that is another" changes 1 "$high/src/lib.rt" 's/◌≡◌, IfOk/◌≡◌, IfErr as IfOk/' "$change"
check "one below" changes 1 "$low/specs/Counts.antt" 's/{ℕ, ◌<◌}/{ℕ, ◌≤◌ as ◌<◌}/' "$change"
check "a comment is no change" changes 0 "$low/specs/Counts.antt" 's/-- a count has 48 bits/-- a count/'
check "nor is a body" changes 0 "$high/src/lib.rt" 's/^    Ok(a)/    Ok(a + 0)/'
check "nor how a line is broken" changes 0 "$low/specs/Counts.antt" 's/^IsCount n = n < bound/IsCount n =\n  n < bound/'
check "the table names no function that is not there" \
    changes 1 "$room/docs/PROMISES.md" 's/`count`/`counts`/' 'names `counts`, which is 0 functions'
check "nor a clause" changes 1 "$room/docs/PROMISES.md" 's/clause `counted`/clause `found`/' '`count` has no clause found'
check "nor a one clause of several" changes 1 "$room/docs/PROMISES.md" 's/`count`, clause `counted`/`count`, its one clause/' \
    '`count` has no clause that is its one'
check "each promise names a clause" \
    changes 1 "$room/docs/PROMISES.md" 's/`LaneOut::take`, clause `taken`/none/' 'promise 2 of docs/PROMISES.md names no clause'
check "what the table no longer names is seen too" changes 1 "$room/docs/PROMISES.md" 's/; so too `third`//' "$change"
exit "$failed"
