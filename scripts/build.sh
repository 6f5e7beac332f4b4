#!/usr/bin/env bash
# Makes the proved build of r10, which ./r10 then starts at once:
#
#     scripts/build.sh [LANES]
#
# It proves each crate that the program stands on, several side by side, and no other: scripts/build/build.py says how. What is
# proved already is taken over, so that a call that was stopped goes on. What the prover says of a crate is in
# crates/NAME/out/build.log. A crate that is not proved is one line, and status 1.
set -u

top=$(cd "$(dirname "$(readlink -f "${BASH_SOURCE[0]}")")/.." && pwd)
# shellcheck source=scripts/build/wants.sh
. "$top/scripts/build/wants.sh"
want_python r10
exec "$top/scripts/build/build.py" "$@"
