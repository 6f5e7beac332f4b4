#!/usr/bin/env bash
# Tests of scripts/proofs/proofs.py, over three crates that are made here. A second; status 1 where one fails.
set -u
# shellcheck disable=SC2016,SC2317 source=scripts/tests/kit.sh
. "$(dirname "$(readlink -f "${BASH_SOURCE[0]}")")/kit.sh"
mkdir -p "$room/docs"
take_scripts "$room" proofs/proofs.py lint/pictures.py lint/plain.py
printf '# Lowest first.\nr10_low: thiserror\nr10_mid: r10_low\nr10_top: r10_low r10_mid\n' >"$room/crates.txt"
for crate in low mid top; do
    mkdir -p "$room/crates/r10_$crate/src" "$room/crates/r10_$crate/must-fail"
    printf '# r10_%s\n\nPromises\n%s.\n\n## Where to begin\n\nHere.\n' "$crate" "$crate" >"$room/crates/r10_$crate/README.md"
done
says() {
    said=$("$room/scripts/proofs/proofs.py" --check 2>&1)
    status=$?
    [ "$status" = "$1" ] && [ "$said" = "$2" ] || { echo "    status $status: $said"; false; }
}

check "a README without its neighbours" says 1 \
    "proofs: crates/r10_low/README.md does not name its neighbours as scripts/proofs/proofs.py does: run it"
"$room/scripts/proofs/proofs.py"
check "what is written passes" says 0 ""
check "neighbours, without what follows from others" is "$(grep -h '^Right below' "$room"/crates/*/README.md)" \
    'Right below: no crate of r10. Right above: `r10_mid`.
Right below: `r10_low`. Right above: `r10_top`.
Right below: `r10_mid`. Right above: no crate of r10.'
check "a line for each crate" is \
    "$(grep 'r10_mid' "$room/docs/PROOFS.md")" '- [`r10_mid`](../crates/r10_mid/README.md): Promises mid.'
"$room/scripts/proofs/proofs.py"
check "written twice it is the same" says 0 ""
sed -i 's/^mid\./more./' "$room/crates/r10_mid/README.md"
check "a promise that the page has not" says 1 "proofs: docs/PROOFS.md is not what scripts/proofs/proofs.py writes: run it"
sed -i 's/^more\./mid./' "$room/crates/r10_mid/README.md"
sed -i 's/^mid\./mid. Twice./' "$room/crates/r10_mid/README.md"
check "its first sentence alone" says 0 ""
sed -i 's/^mid\. Twice\./mid. Twice. Thrice./' "$room/crates/r10_mid/README.md"
check "a promise of three sentences" says 1 "proofs: crates/r10_mid/README.md has a promise of more than two sentences"
sed -i 's/^mid\..*/mid./' "$room/crates/r10_mid/README.md"
sed -i 's/r10_top: r10_low r10_mid/r10_top: r10_low/' "$room/crates.txt"
check "a crate that stands elsewhere" says 1 \
    "proofs: crates/r10_low/README.md does not name its neighbours as scripts/proofs/proofs.py does: run it"
"$room/scripts/proofs/proofs.py"
yes '
more' | head -40 >>"$room/crates/r10_top/README.md"
check "more than a page" says 1 "proofs: crates/r10_top/README.md has more than 40 lines"
rm "$room/crates/r10_low/README.md"
check "no README" says 1 "proofs: crates/r10_low has no README.md"
# shellcheck disable=SC2154
exit "$failed"
