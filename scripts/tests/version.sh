#!/usr/bin/env bash
# Tests that the version is one number: that of the file VERSION. It stands in sources, in CHANGELOG.md, in what packages are made
# of, and in tags, where there are some. Without a build, in a second. (What an installation and its package say, install.sh looks
# at.) Status 1 where one fails.
set -u
# shellcheck disable=SC2016,SC2317 source=scripts/tests/kit.sh
. "$(dirname "$(readlink -f "${BASH_SOURCE[0]}")")/kit.sh"
version=$(cat "$top/VERSION")
IFS=. read -r major minor patch <<<"$version"
number=$((10000 * major + 100 * minor + patch))

part() { sed -n "s/^#define R10_VERSION_$1 \([0-9]*\)$/\1/p" "$top/ffi/r10.h"; }
check "VERSION is three numbers" is "$(grep -cE '^[0-9]{1,2}\.[0-9]{1,2}\.[0-9]{1,2}$' "$top/VERSION")" 1
check "the program's source has it" is \
    "$(sed -n 's/^const VERSION: &str = "\(.*\)";$/\1/p' "$top/crates/r10_arguments/src/usage.rt")" \
    "$version"
check "so has that of r10-survey" is \
    "$(sed -n 's/^const VERSION: &str = "\(.*\)";$/\1/p' "$top/crates/r10_surveyor/src/main.rt")" "$version"
check "so has the library's" is "$(sed -n 's/^const VERSION: u32 = \(.*\);$/\1/p' "$top/crates/r10_ffi/src/calls.rt")" "$number"
check "so has the header" is "$(part MAJOR).$(part MINOR).$(part PATCH)" "$version"
check "so have the declarations for Rust" is \
    "$(sed -n 's/^pub const R10_VERSION: u32 = \(.*\);$/\1/p' "$top/ffi/rust/r10-sys/src/lib.rs" | tr -d _)" "$number"
for crate in r10-sys r10 kernel-clock; do
    check "so has the crate $crate" is "$(sed -n 's/^version = "\(.*\)"$/\1/p' "$top/ffi/rust/$crate/Cargo.toml")" "$version"
done
check "so has the service" is "$(sed -n 's/^version = "\(.*\)"$/\1/p' "$top/recorder/Cargo.toml" | head -n 1)" "$version"
for lock in recorder ffi/rust; do
    check "and $lock/Cargo.lock has no other one of these crates" is "$(awk -F '"' -v want="$version" \
        '$1 == "name = " { name = $2 } $1 == "version = " && name ~ /^(r10.*|kernel-clock)$/ && $2 != want { print name, $2 }' \
        "$top/$lock/Cargo.lock")" ""
done

# What is packaged: the filters for Python, the library's r10.pc, and Debian's packages.
check "pyproject.toml takes VERSION, and has no number of its own" is \
    "$(grep -E '^(version|dynamic) *=' "$top/pyproject.toml")" \
    $'dynamic = ["version"]\nversion = { file = "VERSION" }'
check "r10.pc takes it" is "$(grep '^Version:' "$top/ffi/r10.pc.in")" "Version: @VERSION@"
for script in ffi.sh deb.sh python_deb.sh; do
    check "scripts/$script takes it from VERSION, and once" is \
        "$(grep -E '^ *version=.*(VERSION|[0-9]\.[0-9])' "$top/scripts/$script" | sed 's/^ *//')" 'version=$(cat "$top/VERSION")'
done
if command -v dpkg-deb >/dev/null; then
    package=$("$top/scripts/python_deb.sh" "$room" 2>/dev/null)
    check "the package of Python has it" is "$(dpkg-deb -f "$package" Version)" "$version"
    check "and so has what pip reads there" is \
        "$(dpkg-deb --fsys-tarfile "$package" | tar -xO --wildcards '*/METADATA' | sed -n 's/^Version: //p')" "$version"
else
    echo "NOT TRIED: the package of Python (no dpkg-deb)"
fi

# CHANGELOG.md: its newest entry is this version's, and each is of one version, the newest first, with a day once it is released.
entries=$(sed -n 's/^## //p' "$top/CHANGELOG.md")
check "CHANGELOG begins with this version" is "$(head -n 1 <<<"$entries" | cut -d , -f 1)" "$version"
check "each entry of CHANGELOG has a number, and a day or 'not released'" is \
    "$(grep -vE '^[0-9]{1,2}\.[0-9]{1,2}\.[0-9]{1,2}, ([0-9]{4}-[0-9]{2}-[0-9]{2}|not released)$' <<<"$entries")" ""
check "only the newest is not released" is "$(sed 1d <<<"$entries" | grep 'not released')" ""
check "the newest stands first, and none twice" is "$(cut -d , -f 1 <<<"$entries")" "$(cut -d , -f 1 <<<"$entries" | sort -Vru)"

# Tags: a release is vNUMBER, and the commit under it has that number. An archive, and a clone of one branch, have none.
check "a tag vNUMBER is of a commit with that VERSION" is "$(git -C "$top" tag -l 'v[0-9]*' 2>/dev/null | while read -r tag; do
    [ "v$(git -C "$top" show "$tag:VERSION")" = "$tag" ] || echo "$tag"
done)" ""

# The command of CONTRIBUTING.md that finds the commit of a version without a tag, over four commits.
command=$(sed -n "s/^    \(git log .*0\\\\.3\\\\.0.*\)$/\1/p" "$top/CONTRIBUTING.md")
scratch() { git -C "$room/scratch" -c user.name=r10 -c user.email=r10@localhost "$@"; }
git init -q "$room/scratch"
for entry in "0.3.0, not released" "0.3.0, 2026-12-24" "0.4.0, not released"$'\n\n'"## 0.3.0, 2026-12-24" \
    "0.4.0, not released"$'\n\n'"## 0.3.0, 2026-12-25"; do
    printf '# Changelog\n\n## %s\n' "$entry" >"$room/scratch/CHANGELOG.md"
    scratch add CHANGELOG.md && scratch commit -qm "$entry"
done
check "CONTRIBUTING has a command that finds the commit of a version" is "$(cd "$room/scratch" && bash -c "${command:-false}")" \
    "$(scratch rev-parse HEAD~2)"
# shellcheck disable=SC2154
exit "$failed"
