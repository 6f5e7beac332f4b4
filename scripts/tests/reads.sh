#!/usr/bin/env bash
# Tests of scripts/proofs/reads.py, over a small tree of two crates that is made here, and of what it finds for the theorem. Some
# seconds; status 1 where one fails.
set -u
# shellcheck disable=SC2016,SC2317 source=scripts/tests/kit.sh
. "$(dirname "$(readlink -f "${BASH_SOURCE[0]}")")/kit.sh"
low="$room/crates/r10_low" high="$room/crates/r10_high"
mkdir -p "$room/docs" "$low/src" "$low/specs" "$high/src" "$high/specs"
take_scripts "$room" proofs/reads.py
cat >"$low/src/count.rt" <<'RT'
ghost use Rattle.r10_low.specs.Counts.{IsCount};

/// A count.
#[derive(Debug)]
pub struct Count {
    value: u64,
}

impl Model for Count {
    ghost Value = { ℕ };

    ghost invariant = { λ c. IsCount c.value };
}
RT
echo 'pub use count::Count;' >"$low/src/lib.rt"
cat >"$low/specs/Counts.antt" <<'ANTT'
-- What counts are.
use Rattle.std.specs.Prelude.{ℕ, ◌<◌}

-- a count has 48 bits
abbrev pub IsCount : ℕ → Type 0
IsCount n = n < 2 ^ 48

-- nobody names it
abbrev pub idle : ℕ
idle = 7

-- two kinds
pub data Kind : Type 0 where
  small : Kind
  large : ℕ → Kind
ANTT
cat >"$high/specs/Runs.antt" <<'ANTT'
use Rattle.std.specs.Prelude.{ℕ, List, [], ◌∷◌}
use Rattle.r10_high.specs.Steps.{Step, IsCount, first}
use Rattle.r10_low.specs.Counts.{idle, small}

-- one step after another
abbrev pub Run : List ℕ → Type 0
Run [] = Unit {0}
Run (idle ∷ rest) = Step idle × Run rest

-- what a run ends with
pub record Ends (n : ℕ) : Type 0 where
  -- a field is no definition: first
  pub first : Step n
  pub count : IsCount n
  pub last : Step first
ANTT
cat >"$high/specs/Steps.antt" <<'ANTT'
use Rattle.std.specs.Prelude.{ℕ}
use Rattle.r10_low.specs.declared.count.Count.{Count}
use Rattle.r10_low.specs.Counts.{small}
pub use Rattle.r10_low.specs.Counts.{IsCount}

-- a step
abbrev pub Step : ℕ → Type 0
Step n = (c : Count) × (λ idle. kind_of idle) c

abbrev kind_of : ℕ → Kind
kind_of n = small

abbrev pub first : ℕ
first = 0
ANTT
cat >"$high/src/run.rt" <<'RT'
ghost use Rattle.std.specs.Prelude.{◌≡◌, length};
ghost use Rattle.r10_high.specs.Runs.{Run, Ends};
ghost use Rattle.r10_low.specs.Counts.{idle};

use r10_low::Count;

pub struct Machine {
    at: u64,
}

impl Machine {
    /// Runs on.
    pub fn record_all(&mut self, idle: &[u64]) -> u64
        requires { length idle.now ≡ 0 }
        ensures runs { Run idle.now }
        ensures ends {
            Ends result
        }
    {
        0
    }

    pub fn go(&self) -> Count {
        todo()
    }
}

/// A whole run.
pub fn record_all(
    idle: &[u64],
) -> Count
    ensures { Run idle.now }
{
    0
}
RT
says() {
    said=$("$room/scripts/proofs/reads.py" "${@:3}" 2>&1)
    status=$?
    [ "$status" = "$1" ] && [ "$said" = "$2" ] || { echo "    status $status: $said"; false; }
}
has() {
    said=$("$room/scripts/proofs/reads.py" "${@:3}" 2>&1)
    status=$?
    [ "$status" = "$1" ] && [[ $said == *"$2"* ]] || { echo "    status $status: $said"; false; }
}

check "clauses in turn, each definition once, with file and line" says 0 'crates/r10_high/src/run.rt:13: Machine::record_all

==== for runs
 1  crates/r10_high/specs/Runs.antt:6: Run
 2  crates/r10_high/specs/Steps.antt:7: Step
 3  crates/r10_low/src/count.rt:5: Count
 3  crates/r10_high/specs/Steps.antt:10: kind_of
 4  crates/r10_low/specs/Counts.antt:5: IsCount
 4  crates/r10_low/specs/Counts.antt:13: Kind

==== for ends
 1  crates/r10_high/specs/Runs.antt:11: Ends

==== for the types of its parameters
 1  crates/r10_high/src/run.rt:7: Machine

Machine::record_all: 8 definitions in 5 files of 2 crates, 27 lines; and 3 of the toolchain and ported crates' \
    Machine::record_all --names
check "one clause, to a depth" says 0 'crates/r10_high/src/run.rt:13: Machine::record_all

==== for ends
 1  crates/r10_high/specs/Runs.antt:11: Ends

==== for the types of its parameters
 1  crates/r10_high/src/run.rt:7: Machine

Machine::record_all: 2 definitions in 2 files of 1 crates, 7 lines; and 1 of the toolchain and ported crates' \
    Machine::record_all.ends --names --depth 1
check "a definition, through one that is passed on" has 0 "1  crates/r10_low/specs/Counts.antt:5: IsCount" Ends --names
check "the text of each, with its comment" has 0 '    -- a count has 48 bits
    abbrev pub IsCount : ℕ → Type 0
    IsCount n = n < 2 ^ 48' Run
check "a type with the value that contracts see" has 0 '    ghost invariant = { λ c. IsCount c.value };' Machine::go
check "a contract without its body" says 0 'crates/r10_high/src/run.rt:29: record_all
/// A whole run.
pub fn record_all(
    idle: &[u64],
) -> Count
    ensures { Run idle.now }

record_all: 0 definitions in 0 files of 0 crates, 0 lines; and 0 of the toolchain and ported crates' record_all --depth 0
check "a part of it" says 0 'crates/r10_high/src/run.rt:13: Machine::record_all

Machine::record_all: 0 definitions in 0 files of 0 crates, 0 lines; and 3 of the toolchain and ported crates' \
    Machine::record_all --names --part model
check "and the part that has the rest" has 0 "Machine::record_all: 8 definitions" Machine::record_all --names --part formats
check "no such part" has 2 "scripts/proofs/reads.py NAME" Machine::record_all --part else
check "a name of nothing" says 1 "reads: there is no public function, type or definition Nothing" Nothing
check "a clause that is not there" says 1 \
    "reads: Machine::record_all has no clause last; it has requires, runs, ends" Machine::record_all.last
check "other words are refused" has 2 "scripts/proofs/reads.py NAME" --all
cp "$low/specs/Counts.antt" "$high/specs/Counts.antt"
check "a name of two crates" has 1 "IsCount is 2 things; with their crates: r10_high::IsCount (" IsCount
check "and with its crate" has 0 "crates/r10_low/specs/Counts.antt:5: IsCount" r10_low::IsCount --names
check "no page" has 1 "docs/THEOREM.md is not what" --check
"$room/scripts/proofs/reads.py" --page
check "the page as it is written" says 0 "" --check
sed -i 's/^-- a step$/-- one step/' "$high/specs/Steps.antt"
check "a comment far below leaves the page" says 0 "" --check
sed -i 's/2 ^ 48/2 ^ 47/' "$low/specs/Counts.antt"
check "a page that is older than a definition four steps below" has 1 "docs/THEOREM.md is not what" --check
sed -i 's/2 ^ 47/2 ^ 48/' "$low/specs/Counts.antt"
sed -i 's/^-- one step after another$/-- one after another/' "$high/specs/Runs.antt"
check "and one that is older than the comment of one that has its text there" has 1 "docs/THEOREM.md is not what" --check
"$room/scripts/proofs/reads.py" --page
sed -i '1i -- A comment over all.' "$high/specs/Steps.antt"
check "lines that moved leave the page" says 0 "" --check
# shellcheck disable=SC2154
exit "$failed"
