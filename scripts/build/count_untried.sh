#!/usr/bin/env bash
# Hands on what a gate prints. Where CI is set, each line that says NOT TRIED is one failure more in the last line, and the status
# is 1.
#
#     COMMAND | scripts/build/count_untried.sh
set -u
count=0 last='' any='' status=0
while IFS= read -r line || [ -n "$line" ]; do
    [ -z "$any" ] || printf '%s\n' "$last"
    any=yes last=$line
    [[ $line != *'NOT TRIED'* ]] || count=$((count + 1))
done
if [ -n "${CI:-}" ] && [ "$count" -gt 0 ]; then
    status=1
    if [[ $last =~ ^([0-9]+ passed, )([0-9]+)( failed.*)$ ]]; then
        echo "gate: $count lines say NOT TRIED: where CI is set, each counts as a failure"
        last=${BASH_REMATCH[1]}$((BASH_REMATCH[2] + count))${BASH_REMATCH[3]}
    fi
fi
[ -z "$any" ] || printf '%s\n' "$last"
exit "$status"
