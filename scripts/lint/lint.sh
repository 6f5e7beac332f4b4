#!/usr/bin/env bash
# Looks over the scripts of this repository with the linters that are there, and says in a line which is not.
#
#     scripts/lint/lint.sh
#
# Every shell script has to parse, and every Python script to compile; and what begins as a command does has the run bit. Then the
# Python scripts are looked at by pyflakes (or by ruff, by the same rules), the types of those that build and of the filters by
# mypy, and those of the shell by shellcheck: Debian's packages are pyflakes3, mypy and shellcheck. typed.py looks whether the
# filters stay documented. Sources in C and Rust have the form that clang-format and rustfmt give them, by ffi/.clang-format and the
# rustfmt.toml of each folder, and clippy has no hint for the crates of ffi/rust. No line of the filters, of the scripts or of the
# service's tests is longer than 132 columns. Status 1 where one of them finds something.
set -u
cd "$(dirname "${BASH_SOURCE[0]}")/../.." || exit 1
# shellcheck source=scripts/build/wants.sh
. scripts/build/wants.sh
want_python lint "checks are made by it"

readonly shells=(r10 .ci/run scripts/*.sh scripts/*/*.sh recorder/tests/*.sh)
readonly pythons=(scripts/*.py scripts/*/*.py ch10/*.py recorder/tests/*.py examples/*.py)
# (what has types that mypy takes)
readonly typed=(scripts/build/*.py ch10/*.py)
readonly sources=(ffi/*.[ch] scripts/*/*.c bench/*.c recorder/tests/*.c)
bad=0

for script in "${shells[@]}"; do
    bash -n "$script" || bad=1
done
for script in "${pythons[@]}"; do
    python3 -c 'import sys; compile(open(sys.argv[1], encoding="utf-8").read(), sys.argv[1], "exec")' "$script" || bad=1
    [ "$(head -c 2 "$script")" != '#!' ] || [ -x "$script" ] ||
        { echo "$script: it begins as a command does, and has no run bit"; bad=1; }
done

python3 - ch10/* scripts/* scripts/*/* recorder/tests/* <<'EOF' || bad=1
import pathlib, sys

MOST = 132
long = ["%s:%d: %d columns, more than %d" % (path, number, len(line), MOST)
        for path in map(pathlib.Path, sys.argv[1:]) if path.is_file()
        for number, line in enumerate(path.read_text(encoding="utf-8").split("\n"), 1) if len(line) > MOST]
print("".join(line + "\n" for line in long), end="")
sys.exit(bool(long))
EOF

if command -v pyflakes3 >/dev/null; then
    pyflakes3 "${pythons[@]}" || bad=1
elif command -v ruff >/dev/null; then
    ruff check --quiet --isolated --select F "${pythons[@]}" || bad=1
else
    echo "lint: NOT TRIED: there is no pyflakes3 and no ruff for the Python scripts"
fi
if command -v mypy >/dev/null; then
    mypy --cache-dir=/dev/null --no-error-summary --follow-imports=silent "${typed[@]}" || bad=1
else
    echo "lint: NOT TRIED: there is no mypy for the types of the Python scripts"
fi
scripts/lint/typed.py || bad=1
if command -v shellcheck >/dev/null; then
    printf '%s\0' "${shells[@]}" | xargs -0 -n 8 -P "$(nproc)" shellcheck -x --severity=warning || bad=1
else
    echo "lint: NOT TRIED: there is no shellcheck for the shell scripts"
fi

if command -v clang-format >/dev/null; then
    clang-format --style=file:ffi/.clang-format --dry-run --Werror "${sources[@]}" || bad=1
else
    echo "lint: NOT TRIED: there is no clang-format for the sources in C"
fi
if command -v rustfmt >/dev/null && command -v cargo >/dev/null; then
    for folder in ffi/rust bench recorder; do
        (cd "$folder" && cargo fmt --check) || bad=1
    done
else
    echo "lint: NOT TRIED: there is no rustfmt for the sources in Rust"
fi
# (clippy wants no library, but the crates' build looks whether its file is there; the service's crate is looked at by recorder.sh)
if cargo clippy --version >/dev/null 2>&1; then
    room=$(mktemp -d) && : >"$room/libr10.a" || exit 3
    (cd ffi/rust && CARGO_TARGET_DIR=$room R10_LIB_DIR=$room R10_STATIC=1 \
        cargo clippy --offline --quiet --workspace --all-targets -- -D warnings) || bad=1
    rm -r "$room"
else
    echo "lint: NOT TRIED: there is no clippy for the crates in Rust"
fi

[ "$bad" = 0 ] && echo "lint: ${#pythons[@]} Python scripts and ${#shells[@]} of the shell"
exit "$bad"
