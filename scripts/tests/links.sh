#!/usr/bin/env bash
# Tests of scripts/lint/links.py, over documents that are made here. In no time. Status 1 where one fails.
set -u
# shellcheck disable=SC2016,SC2317 source=scripts/tests/kit.sh
. "$(dirname "$(readlink -f "${BASH_SOURCE[0]}")")/kit.sh"
mkdir -p "$room/docs" "$room/crates/r10_one/src"
take_scripts "$room" lint/links.py proofs/reads.py
touch "$room/crates/r10_one/src/other.rt"
printf '%b' 'pub fn go(n: u64)\n    ensures comes { n ≡ n }\n{\n    helper(n)\n}\n\npub enum Kind {\n    Small,\n}\n' \
    >"$room/crates/r10_one/src/lib.rt"
mkdir -p "$room/crates/r10_two/specs" "$room/crates/r10_two/src"
echo 'pub fn r10_go() {}' >"$room/crates/r10_two/src/lib.rt"
printf 'use Rattle.std.specs.Prelude.{ℕ}\n\nabbrev pub Run : ℕ → Type 0\nRun n = Unit {0}\n' >"$room/crates/r10_two/specs/Runs.antt"
printf '# Two words, `one` more\n\n# Two words, one more\n' >"$room/docs/ONE.md"
printf 'In `src/lib.rt`.\n' >"$room/crates/r10_one/README.md"
scripts() { printf '## %s: a folder\n\n| `%s` | what it does |\n' "$@" >"$room/scripts/README.md"; }
scripts lint links.py proofs reads.py

of() {
    printf '%s\n' "$1" >"$room/README.md"
    "$room/scripts/lint/links.py" | grep -c '^README.md:1: '
}
check "a link to a file and its heading" is \
    "$(of '[a](docs/ONE.md) [b](docs/ONE.md#two-words-one-more) [c](docs/ONE.md#two-words-one-more-1)'\
        ' [d](https://example.org/x)')" 0
check "a link to no file" is "$(of '[a](docs/TWO.md)')" 1
echo '[a](docs/TWO.md)' >"$room/CHANGELOG.md"
check "also in another document of the top" is "$("$room/scripts/lint/links.py" | grep -c '^CHANGELOG.md:1: ')" 1
rm "$room/CHANGELOG.md"
check "a link to no heading" is "$(of '[a](docs/ONE.md#two-words-one-more-2)')" 1
check "names of files" is \
    "$(of '`crates/r10_one/src/lib.rt` `r10_one/src/{lib,other}.rt` `docs/ONE.md` `crates/NAME/src/lib.rt`')" 0
check "a name of no file" is "$(of '`crates/r10_one/src/gone.rt`')" 1
check "one of two names is of no file" is "$(of '`r10_one/src/{lib,gone}.rt`')" 1
check "what only begins like a file's name" is "$(of '`recorder.committed` `FLIGHT.1553.csv`')" 0
check "names of the sources" is "$(of 'By `go`, clause `comes`: `Kind::Small`, `Run`, `R10`, `lower`, `r10_two`, and `r10_one`.')" 0
check "a name of nothing" is "$(of '`Kind::Large` `Walk`')" 2
check "a clause that the function has not" is "$(of '`go`, clause `Run`')" 1
promised() { printf '%b' "$1" >"$room/docs/PROMISES.md"; "$room/scripts/lint/links.py" | grep -c '^docs/PROMISES.md:'; }
check "a name of nothing on the page of promises" is "$(promised '`Walk`\n\n## The contracts\n\n`Walk`\n')" 1
check "and none in its contracts" is "$(promised '`Run`\n\n## The contracts\n\n`Walk`\n')" 0
rm "$room/docs/PROMISES.md"
row() { of "| Promise | Function | File below \`crates/\` |
|---|---|---|
| one | two | $1 |" | tail -n 1; "$room/scripts/lint/links.py" | grep -c '^README.md:3: '; }
check "a function in a file of its row" is "$(row '`go`, clause `comes` | `r10_one/src/other.rt`, `lib.rt`' | tail -n 1)" 0
check "a function in another file" is "$(row '`go`, clause `comes` | `r10_one/src/other.rt`' | tail -n 1)" 2
echo >"$room/README.md"
in_crate() {
    printf '# r10_one\n\n## %s\n\n%s\n' "${2:-Proved}" "$1" >"$room/crates/r10_one/README.md"
    "$room/scripts/lint/links.py" | grep -c '^crates/r10_one/README.md:5: '
}
check "names in the README of a crate" is "$(in_crate '`go`, `comes`, `helper`, `Small`, `lib`: see `r10_two`.')" 1
check "a name of another crate under what is proved" is "$(in_crate '`Run`')" 1
check "and elsewhere" is "$(in_crate '`Run`' Neither)" 0
check "a crate that is not there" is "$(in_crate '`r10_three`')" 1
check "a call of another crate that is no crate" is "$(in_crate '`r10_go`' Neither)" 1
echo 'fn helper() {}' >>"$room/crates/r10_one/src/other.rt"
check "names that are there" is "$(in_crate '`go`, `comes`, `helper`, `Small`, `lib`: see `r10_two`.')" 0
"$room/scripts/lint/links.py" >/dev/null
check "its status" is "$?" 0
row_of() {
    scripts "$@"
    "$room/scripts/lint/links.py" | grep '^scripts/README.md: ' | tr '\n' ' '
}
check "a script without a row" is "$(row_of lint links.py)" "scripts/README.md: 0 rows for proofs/reads.py "
check "a row without a script" is "$(row_of lint links.py proofs reads.py proofs gone.py)" \
    "scripts/README.md: 1 rows for proofs/gone.py "
check "two rows for a script" is "$(row_of lint links.py proofs reads.py proofs reads.py)" \
    "scripts/README.md: 2 rows for proofs/reads.py "
check "a row below another folder's heading" is "$(row_of lint links.py lint reads.py)" \
    "scripts/README.md: 1 rows for lint/reads.py scripts/README.md: 0 rows for proofs/reads.py "
# shellcheck disable=SC2154
exit "$failed"
