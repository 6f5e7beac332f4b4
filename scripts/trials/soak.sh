#!/usr/bin/env bash
# Records under load, kills the recorder at random moments, and counts what was acknowledged by a commit and is not there
# afterwards: none may be.
#
#     scripts/trials/soak.sh SECONDS [SEED [FOLDER [BLOCKS]]]
#
# It runs ffi/example.c, compiled over the proved library if it is there (scripts/ffi.sh build), else over one without proofs, on a
# file that it maps in FOLDER (else a new one under /tmp). Each run is ended by SIGKILL after some hundredths of a second. Then
# scripts/tools/judge_image.py, which shares no code with the recorder, says what the medium holds. The file has BLOCKS blocks:
# 2,048 (1 MiB) where that is not said. The last line counts; the status is 0 where nothing is missing.
set -eu

top=$(cd "$(dirname "$(readlink -f "${BASH_SOURCE[0]}")")/../.." && pwd)
[[ ${1:-} =~ ^[1-9][0-9]*$ ]] || {
    sed -n '2,5s/^# \{0,1\}//p' "${BASH_SOURCE[0]}" >&2
    exit 2
}
room=$(mktemp -d)
trap 'rm -rf "$room"' EXIT
quick=()
"$top/scripts/ffi.sh" proved >/dev/null || {
    quick=(--quick)
    echo "(over a library that is not proved: scripts/ffi.sh build makes the proved one)" >&2
}
"$top/scripts/ffi.sh" examples "${quick[@]}" "$room"
python3 "$top/scripts/trials/soak.py" "$room/example_c" "$1" "${2:-1}" "${3:-$room}" "${4:-2048}"
