#!/usr/bin/env bash
# Installs r10: the programs r10 and r10-survey, the library for C and Rust (static and shared), its header and r10.pc, the filters
# as ch10, the service r10d with r10ctl and its unit for systemd, the manual pages, completions for bash and zsh, the documents for
# users, and a copyright file with the licences of what is built in.
#
#     scripts/install.sh [PREFIX] [DESTDIR]               # below /usr/local, or below DESTDIR/PREFIX for a package; libraries go
#                                                         # to PREFIX/lib, or to the folder of PREFIX that R10_LIBDIR names
#     scripts/install.sh --uninstall [PREFIX] [DESTDIR]   # removes what the list of an installation names, and nothing else
#
# It takes the proved builds where they are there and of the sources as they stand (scripts/build.sh, scripts/ffi.sh build), else
# those without proofs, and says so: their version has `(not proved)`. Programs are stripped, and have a note with their commit and
# toolchain (scripts/build/about.sh). Where r10d cannot be built (no cargo, or not its crates), a line says so, and the rest is
# installed. What was installed stands in PREFIX/share/r10/installed, after a line for each program and one for the library. Without
# leave to write, or room, that is one line, and status 3; then nothing is changed.
set -eu
# what is installed is for all users, whatever the caller's mask
umask 022

top=$(cd "$(dirname "$(readlink -f "${BASH_SOURCE[0]}")")/.." && pwd)

give_up() {
    echo "install: $2" >&2
    exit "$1"
}

case ${1:-} in
-h | --help)
    sed -n '2,/^[^#]/s/^# \{0,1\}//p' "${BASH_SOURCE[0]}"
    exit
    ;;
esac
uninstall=
if [ "${1:-}" = --uninstall ]; then
    uninstall=yes
    shift
fi
[ "$#" -le 2 ] || give_up 2 "too many words: scripts/install.sh [--uninstall] [PREFIX] [DESTDIR]"
prefix=${1:-/usr/local}
root=${2:-}
[[ $prefix = /* && $prefix != *$'\n'* ]] || give_up 2 "PREFIX begins with /: scripts/install.sh [--uninstall] [PREFIX] [DESTDIR]"
prefix=${prefix%/}
list=$root$prefix/share/r10/installed

# Removes what the list names: files first, then the folders that are empty then.
remove() {
    local name
    while IFS= read -r name; do
        [[ $name = /* ]] || continue
        if [ -d "$root$name" ] && [ ! -L "$root$name" ]; then
            rmdir "$root$name" 2>/dev/null || true
        else
            rm -f "$root$name"
        fi
    done < <(tac "$1")
}

# Whether all that this call changes may be changed.
may_write() {
    local at=$root$prefix
    while [ ! -e "$at" ]; do
        at=$(dirname "$at")
    done
    [ -d "$at" ] && [ -w "$at" ] || give_up 3 "$at may not be written: name another PREFIX, or call it as root"
}

if [ -n "$uninstall" ]; then
    [ -f "$list" ] || give_up 1 "there is no $list: nothing was installed there"
    may_write
    copy=$(mktemp)
    trap 'rm -f "$copy"' EXIT
    cat "$list" >"$copy"
    remove "$copy"
    echo "(removed from $root$prefix)"
    exit
fi

may_write
version=$(cat "$top/VERSION")
# shellcheck source=scripts/build/wants.sh
. "$top/scripts/build/wants.sh"
want_python install
want_commands install cc ld ar nm objcopy strip
# shellcheck source=scripts/build/about.sh
. "$top/scripts/build/about.sh"
facts=$("$top/scripts/build/quick_build.py" --about) || exit 3
{ IFS= read -r program && IFS= read -r proved && IFS= read -r toolchain; } <<<"$facts"
[ "$proved" = proved ] || echo "(the program that is installed is not proved: scripts/build.sh makes the proved one)" >&2
facts=$("$top/scripts/build/quick_build.py" --survey --about) || exit 3
{ IFS= read -r survey && IFS= read -r survey_proved && IFS= read -r survey_toolchain; } <<<"$facts"
[ "$survey_proved" = proved ] || echo "(r10-survey, which is installed, is not proved: scripts/build.sh makes the proved one)" >&2

# All is made whole in a folder of its own first.
made=$(mktemp -d)
trap 'rm -rf "$made"' EXIT
whole=$made/root
share=$whole$prefix/share
mkdir -p "$whole$prefix/bin" "$share/r10/scripts" "$share/doc/r10" "$share/man" \
    "$share/bash-completion/completions" "$share/zsh/site-functions"

install -m 755 "$program" "$whole$prefix/bin/r10"
install -m 755 "$survey" "$whole$prefix/bin/r10-survey"
"$top/scripts/ffi.sh" install "$prefix" "$whole" || exit 3

# The filters, as a package, and their start.
install -m 755 "$top/scripts/ch10.py" "$share/r10/scripts"
mkdir "$share/r10/ch10"
install -m 644 "$top"/ch10/*.py "$share/r10/ch10"
install -m 644 "$top/VERSION" "$share/r10"
ln -s ../share/r10/scripts/ch10.py "$whole$prefix/bin/ch10"

"$top/scripts/recorder.sh" install "$prefix" "$whole" || exit 3

# What each program and the library say of themselves.
program_line=$(about r10 "$proved" "$toolchain")
library_line=$(sed -n 's/^proved=//p' "$whole$prefix/${R10_LIBDIR:-lib}/pkgconfig/r10.pc")
library_line=$(about libr10 "$library_line" "$(rt version)")
strip --strip-unneeded "$whole$prefix/bin/r10" && put_note "$program_line" "$whole$prefix/bin/r10" || exit 3
survey_line=$(about r10-survey "$survey_proved" "$survey_toolchain")
strip --strip-unneeded "$whole$prefix/bin/r10-survey" && put_note "$survey_line" "$whole$prefix/bin/r10-survey" || exit 3
for name in r10d r10ctl; do
    [ ! -e "$whole$prefix/bin/$name" ] || put_note "$name $version over $library_line" "$whole$prefix/bin/$name" || exit 3
done
# (nothing is run out of that folder: it may lie where nothing can be)
service=()
[ ! -e "$whole$prefix/bin/r10d" ] || service=("$top/out/recorder/target/release")
"$top/scripts/tools/manual.py" "$program" "$survey" "$top/scripts/ch10.py" "$made/manual" "${service[@]}" || exit 3
cp -r "$made/manual/"man? "$share/man"
cp "$made/manual/bash/"* "$share/bash-completion/completions"
cp "$made/manual/zsh/"* "$share/zsh/site-functions"
"$top/scripts/tools/pages.py" "$share/doc/r10" || exit 3
crates=()
[ ! -e "$whole$prefix/bin/r10d" ] || mapfile -t crates < <("$top/scripts/recorder.sh" crates)
"$top/scripts/tools/copyright.py" "$(dirname "$(dirname "$(readlink -f "$(command -v rt)")")")" "${crates[@]}" \
    >"$share/doc/r10/copyright" || exit 3
chmod -R u=rwX,go=rX "$whole"

# A folder is in the list if it is r10's own, is made now, or was made by an earlier installation: it goes once it is empty.
: >"$made/before"
[ ! -f "$list" ] || grep '^/' "$list" | LC_ALL=C sort >"$made/before"
(
    cd "$whole"
    find ".$prefix" -mindepth 1 \( -type d -path '*r10*' -o ! -type d \) -print | sed 's/^\.//'
    find ".$prefix" -type d -print | sed 's/^\.//' | while IFS= read -r name; do
        if [ ! -d "$root$name" ] || grep -qxF -e "$name" "$made/before"; then
            echo "$name"
        fi
    done
    echo "$prefix/share/r10/installed"
) | LC_ALL=C sort -u >"$made/installed"
{
    printf '%s\n' "$program_line" "$library_line" "$survey_line"
    cat "$made/installed"
} >"$share/r10/installed"
chmod 644 "$share/r10/installed"

# What an earlier version had and this one has not goes.
LC_ALL=C comm -23 "$made/before" "$made/installed" >"$made/gone"
# (a file that is there is taken away first: a program that runs cannot be written to, and a library that one has mapped may not be)
mkdir -p "$root$prefix" && cp -a --no-preserve=ownership --remove-destination "$whole$prefix/." "$root$prefix/" ||
    give_up 3 "not all could be written below $root$prefix: call it again, or with --uninstall"
[ ! -s "$made/gone" ] || remove "$made/gone"
if [ -z "$root" ] && [ "$(id -u)" = 0 ] && command -v ldconfig >/dev/null; then
    ldconfig
fi
again=${1:+ $(printf %q "$1")}${2:+ $(printf %q "$2")}
[ "$proved" = proved ] || version="$version ($proved)"
echo "(installed r10 $version in $root$prefix: scripts/install.sh --uninstall$again removes it)"
