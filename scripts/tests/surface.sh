#!/usr/bin/env bash
# Tests of scripts/proofs/surface.py over a small tree of two crates. A second; status 1 where one fails.
set -u
# shellcheck disable=SC2016,SC2317 source=scripts/tests/kit.sh
. "$(dirname "$(readlink -f "${BASH_SOURCE[0]}")")/kit.sh"
src="$room/crates/r10_low/src" page="$room/docs/surface.txt"
anew() {
    rm -rf "$room/crates" "$room/scripts" "$room/docs"
    mkdir -p "$room/docs" "$src" "$room/crates/r10_high/src" "$room/crates/r10_low_tests/src"
    take_scripts "$room" proofs/surface.py proofs/conditions.py
    printf 'r10_low:\nr10_high: r10_low\nr10_low_tests staticlib: r10_low\n' >"$room/crates.txt"
    cat >"$src/lib.rt" <<'RT'
mod lane;
mod hidden;
pub use lane::{Lane, LaneFault, LaneOut, NoLane, WIDTH, open_lane};
RT
    cat >"$src/lane.rt" <<'RT'
/// How wide it is.
pub const WIDTH: usize = 8;

/// A lane.
#[derive(Clone, Drop)]
pub struct Lane {
    /// Its number.
    pub id: u16, // not 0
    pub(crate) bytes: Vec<u8>,
    ghost invariant = { λ lane. lane.id < 9 };
}

#[derive(Debug, Error)]
pub enum LaneFault {
    /// No room.
    #[error("the lane is full")]
    Full,
    #[error("lane {0} is \"closed\"")]
    #[repr(C)]
    Closed(u16),
}

/// No lane.
#[derive(Error)]
#[error("there is no lane {number}")]
pub struct NoLane {
    pub number: u16,
}

#[derive(Error)]
#[error("nobody sees this")]
struct Unseen;

pub trait LaneOut {
    fn take(&mut self) -> Option<u8>;
}

impl Lane {
    /// Its stamp.
    pub fn stamp(&self) -> [u8; 8]
        ensures { length result ≡ 8 }
    {
        [0; 8]
    }

    pub(crate) fn own(&self) {}

    fn unseen(&self) {}
}

/// Opens one.
pub fn open_lane<F: Fn(u16) -> bool>(
    id: u16,
    test: F,
) -> Result<Lane, LaneFault>
    requires { 0 < id }
{
    own(id)
}

fn own(id: u16) {}
RT
    printf 'pub fn deep() {}\n' >"$src/hidden.rt"
    printf 'pub use r10_low::{Lane, LaneFault};\n\npub fn high() {}\n' >"$room/crates/r10_high/src/lib.rt"
    printf 'pub fn test() {}\n' >"$room/crates/r10_low_tests/src/lib.rt"
    "$room/scripts/proofs/surface.py"
}
says() {
    said=$("$room/scripts/proofs/surface.py" --check 2>&1)
    status=$?
    [ "$status" = "$1" ] && [[ $said == *"$2"* ]] || { echo "    status $status: $said"; false; }
}

anew
check "the page" diff - <(tail -n +3 "$page") <<'PAGE'
[r10_low]
const WIDTH: usize
enum LaneFault { Full, Closed(u16) }; Debug, Error
fn Lane::stamp(&self) -> [u8; 8]
fn LaneOut::take(&mut self) -> Option<u8>
fn open_lane<F: Fn(u16) -> bool>(id: u16, test: F) -> Result<Lane, LaneFault>
struct Lane { id: u16, .. }; Clone, Drop
struct NoLane { number: u16 }; Error
text LaneFault::Closed "lane {0} is \"closed\""
text LaneFault::Full "the lane is full"
text NoLane "there is no lane {number}"
trait LaneOut

[r10_high]
fn high()
use Lane of r10_low
use LaneFault of r10_low
PAGE
check "nothing changed" says 0 ""
sed -i 's/0 < id/1 < id/; s/length result ≡ 8/⊤/; s/own(id)$/own(0)/; s/bytes: Vec<u8>/text: Vec<u8>/' "$src/lane.rt"
check "contracts, bodies and what is hidden may change" says 0 ""
sed -i 's/    id: u16,$/    id: u32,/' "$src/lane.rt"
check "another argument" says 1 'surface: -fn open_lane<F: Fn(u16) -> bool>(id: u16, test: F) -> Result<Lane, LaneFault>
surface: +fn open_lane<F: Fn(u16) -> bool>(id: u32, test: F) -> Result<Lane, LaneFault>'
anew
sed -i 's/    Closed(u16),/    Closed(u16),\n    Gone,/' "$src/lane.rt"
check "another variant" says 1 'surface: +enum LaneFault { Full, Closed(u16), Gone }; Debug, Error'
anew
sed -i 's/is full/has no room/' "$src/lane.rt"
check "another text of a fault" says 1 'surface: +text LaneFault::Full "the lane has no room"'
anew
sed -i 's/no lane {number}/lane/' "$src/lane.rt"
check "another text of a fault that is a struct" says 1 'surface: -text NoLane "there is no lane {number}"'
anew
sed -i 's/derive(Clone, Drop)/derive(Drop)/' "$src/lane.rt"
check "a type that is no longer copied" says 1 'surface: +struct Lane { id: u16, .. }; Drop'
anew
sed -i 's/, open_lane//' "$src/lib.rt"
check "a call that is shown no more" says 1 'surface: -fn open_lane'
anew
sed -i 's/{Lane, LaneFault}/Lane/' "$room/crates/r10_high/src/lib.rt"
check "a name that is handed on no more" says 1 'surface: -use LaneFault of r10_low'
"$room/scripts/proofs/surface.py"
check "it is written anew" says 0 ""
rm "$page"
check "without a page" says 1 'surface: docs/surface.txt is not what the crates show'
check "other words are refused" test "$("$room/scripts/proofs/surface.py" --all 2>/dev/null; echo $?)" = 2
exit "$failed"
