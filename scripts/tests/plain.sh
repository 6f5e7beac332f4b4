#!/usr/bin/env bash
# Tests of scripts/lint/plain.py and scripts/lint/check_names.py, over this tree and over small changes of it. Some ten seconds;
# status 1 where one fails.
set -u
# shellcheck disable=SC2016,SC2317 source=scripts/tests/kit.sh
. "$(dirname "$(readlink -f "${BASH_SOURCE[0]}")")/kit.sh"
mkdir -p "$room/docs"
take_scripts "$room" lint/plain.py lint/check_names.py
anew() {
    rm -rf "$room/crates"
    mkdir -p "$room/crates/r10_medium"
    cp -r "$top/crates/r10_medium/src" "$top/crates/r10_medium/specs" "$room/crates/r10_medium"
    echo 'A document.' >"$room/README.md"
}
answers() {
    said=$("$room/scripts/lint/$1" 2>&1)
    status=$?
    [ "$status" = "$2" ] && [[ $said == *"$3"* ]] || { echo "    status $status: $said"; false; }
}
with() {
    anew
    printf '%b\n' "$2" >>"$room/$1"
}

check "the comments and documents of this tree are plain" "$top/scripts/lint/plain.py"
anew
check "a crate of it and a document" answers plain.py 0 ""
with crates/r10_medium/src/memory.rt '/// The block behind it.\nfn next() {}'
check "a word with a meaning of its own above a function" answers plain.py 1 "'behind': say 'after'"
with crates/r10_medium/src/memory.rt 'fn next() {} // what it was told'
check "the same after code" answers plain.py 1 "'told': say 'given'"
with crates/r10_medium/specs/Disk.antt '-- this is sure'
check "the same in a definition" answers plain.py 1 "'sure': say 'on the disk'"
with crates/r10_medium/src/memory.rt 'fn told_behind() {}\n// `told_behind` is a name.'
check "names of code are not looked at" answers plain.py 0 ""
with README.md "\n$(printf 'word %.0s' {1..26})."
check "a document with a sentence of 26 words" answers plain.py 1 "26 words"

with CHANGELOG.md "$(printf 'word %.0s' {1..26})."
check "so is another document of the top" answers plain.py 1 "CHANGELOG.md:1: 26 words"
rm "$room/CHANGELOG.md"
with docs/PROMISES.md "$(printf 'word %.0s' {1..26}).\n\n## The contracts\n\nWords."
check "what a person writes of a page is measured" answers plain.py 1 "docs/PROMISES.md:1: 26 words"
rm "$room/docs/PROMISES.md"
with docs/PROMISES.md "Words.\n\n## The contracts\n\n$(printf 'word %.0s' {1..26})."
check "and what a script writes is not" answers plain.py 0 ""
rm "$room/docs/PROMISES.md"

check "each name of a type has one meaning in this tree, and no line is long" "$top/scripts/lint/check_names.py"
anew
sed -i '/^ALLOWED = {/,/^}/c\ALLOWED: dict[str, str] = {}' "$room/scripts/lint/check_names.py"
check "a crate of it" answers check_names.py 0 "0 findings"
with crates/r10_medium/src/memory.rt 'struct Crashing {}'
check "a second type of one name" answers check_names.py 1 "Crashing has 2 meanings"
with crates/r10_medium/src/memory.rt "// $(printf 'word %.0s' {1..27})"
check "a line of more than 132 columns" answers check_names.py 1 "138 columns"
anew
with crates/r10_medium/specs/Disk.antt "-- $(printf 'word %.0s' {1..27})"
check "a line of definitions of more than 132 columns" answers check_names.py 1 "138 columns"
anew
with crates/r10_medium/specs/Memory.antt "abbrev pub Block : Type 0\nBlock = Type 0"
check "a second word of definitions of one name" answers check_names.py 1 "Block is defined 2 times"
anew
with crates/r10_medium/specs/Found.antt "abbrev pub found : Type 0\nfound = Type 0"
check "a module whose name says nothing" answers check_names.py 1 "Found.antt: this name says nothing"
# shellcheck disable=SC2154
exit "$failed"
