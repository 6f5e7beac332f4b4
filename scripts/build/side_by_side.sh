#!/usr/bin/env bash
# Runs the commands on standard input, a line each, as many side by side as there are processors. When all have ended it prints what
# each printed, in the order of the lines. A line after it says which failed; then the status is 1.
#
#     scripts/build/side_by_side.sh <FILE
set -u
room=$(mktemp -d) || exit 3
trap 'rm -rf "$room"' EXIT
mapfile -t commands
for at in "${!commands[@]}"; do
    printf '%s\0%s\0' "$at" "${commands[$at]}"
done | xargs -0 -r -n 2 -P "$(nproc)" \
    bash -c 'bash -c "$2" </dev/null >"$0/$1.said" 2>&1 && : >"$0/$1.passed"; :' "$room"
status=0
for at in "${!commands[@]}"; do
    cat "$room/$at.said" || status=1
    [ -e "$room/$at.passed" ] || {
        echo "FAILED: ${commands[$at]}"
        status=1
    }
done
exit "$status"
