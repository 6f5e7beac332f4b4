#!/usr/bin/env bash
# Tests of scripts/install.sh and scripts/deb.sh, over the builds that are kept: some twenty seconds. Status 1 where one fails.
set -u
# shellcheck disable=SC2016,SC2317 source=scripts/tests/kit.sh
. "$(dirname "$(readlink -f "${BASH_SOURCE[0]}")")/kit.sh"
program=$("$top/scripts/build/quick_build.py" --current) && { "$top/scripts/ffi.sh" proved ||
    "$top/scripts/build/quick_build.py" --library --current; } >/dev/null || {
    no_build "an installation"
    exit 0
}
survey=$("$top/scripts/build/quick_build.py" --survey --current) || {
    no_build "an installation"
    exit 0
}
version=$(cat "$top/VERSION")
# What a build says of itself: that it is proved, or not.
case $program in
*/proved-*) proved=proved whole="r10 $version" ;;
*) proved="not proved" whole="r10 $version (not proved)" ;;
esac
case $survey in
*/proved_survey-*) survey_proved=proved survey_whole="r10-survey $version" ;;
*) survey_proved="not proved" survey_whole="r10-survey $version (not proved)" ;;
esac
if "$top/scripts/ffi.sh" proved >/dev/null; then library=proved over=; else library="not proved" over=" (not proved)"; fi

check "the program has the number in VERSION, and says where it is not proved" is "$("$program" --version)" "$whole"
root="$room/a root"
"$top/scripts/install.sh" /usr "$root" >"$room/said" 2>&1
check "it installs" is "$?" 0
r10=$root/usr/bin/r10
check "what was installed says the same" is "$("$r10" --version)" "$whole"
check "the program runs" is "$("$r10" <"$top/examples/first.toml")" "$(cat "$top/examples/first.expected")"
check "r10-survey says what it is" is "$("$root/usr/bin/r10-survey" --version)" "$survey_whole"
check "r10-survey runs" is "$("$root/usr/bin/r10-survey" <"$top/crates/r10_surveyor/stdin"; echo "status $?")" \
    "$(cat "$top/crates/r10_surveyor/stdout" && echo "status 1")"
"$r10" sim --image <"$top/examples/first.toml" >"$room/medium.img"
check "the filters run" says "$("$root/usr/bin/ch10" summary <"$room/medium.img")" "file 0 FLT1: 272 bytes"
check "the filters have the number too" is "$("$root/usr/bin/ch10" --version)" "ch10 $version"
check "the documents are those for users, the table of promises is none of them" is \
    "$(cd "$root/usr/share/doc/r10" && find . -name '*.md' | sort | tr '\n' ' ')" \
    "./README.md $(printf './docs/%s.md ' FORMAT LIBRARY MODEL RANGE RECORDER UNPROVED USING)"
check "the filters leave nothing" is "$(find "$root" -name '__pycache__' | wc -l)" 0

# The note of each file: what it is, of which commit and by which toolchain.
commit=$(git -C "$top" describe --always --abbrev=40 --exclude='*' --dirty=' with changes' 2>/dev/null) || commit="not known"
note() { readelf -p .note.r10 "$1" 2>/dev/null | grep -o 'r10.*\|libr10.*' | tail -n 1; }
lib=$root/usr/lib/libr10
check "the program has a note with its commit" says "$(note "$r10")" "r10 $version ($proved), commit $commit, toolchain "
check "the library has one" says "$(note "$lib.so.$version")" "libr10 $version ($library), commit $commit, toolchain rattle"
check "the static one too" is "$(note "$lib.a")" "$(note "$lib.so.$version")"
check "it is a note as ELF has them" says "$(readelf -SW "$r10")" ".note.r10         NOTE"
check "so has r10-survey" says "$(note "$root/usr/bin/r10-survey")" \
    "r10-survey $version ($survey_proved), commit $commit, toolchain "
check "the list of what is installed begins with all three" is "$(head -n 3 "$root/usr/share/r10/installed")" \
    "$(note "$r10")"$'\n'"$(note "$lib.a")"$'\n'"$(note "$root/usr/bin/r10-survey")"
check "r10.pc says whether it is proved" is "$(sed -n 's/^proved=//p' "$root/usr/lib/pkgconfig/r10.pc")" "$library"
check "and of which commit it is" is "$(sed -n 's/^commit=//p' "$root/usr/lib/pkgconfig/r10.pc")" "$commit"
check "its version is a number" is "$(sed -n 's/^Version: //p' "$root/usr/lib/pkgconfig/r10.pc")" "$version"
cat >"$room/over.c" <<'C'
#include <stdio.h>
#include "r10.h"
int main(void) { return printf("%u\n", (unsigned)r10_version()) < 0; }
C
cc -I"$root/usr/include" -o "$room/over" "$room/over.c" "$lib.a"
check "a program over the static library has the library's note" is "$(note "$room/over")" "$(note "$lib.a")"
IFS=. read -r major minor patch <<<"$version"
check "r10_version() is a number" is "$("$room/over")" "$((10000 * major + 100 * minor + patch))"

copyright=$root/usr/share/doc/r10/copyright
check "the copyright file says that no licence is decided" says "$(cat "$copyright")" "No licence is decided for r10 itself"
check "it has the licences of ported crates" says "$(cat "$copyright")" "Files: rattle/rtrb/*"
check "and names those that have none" says "$(cat "$copyright")" $'License: not-stated\nComment: it has no licence text.'

if [ "$(id -u)" = 0 ] && mkdir "$room/noexec" && mount -t tmpfs -o noexec tmpfs "$room/noexec" 2>/dev/null; then
    TMPDIR=$room/noexec "$top/scripts/install.sh" /usr "$room/other" >"$room/said" 2>&1
    umount "$room/noexec"
    check "where nothing in TMPDIR may be run it installs the same" is "$(cd "$room/other" && find . | sort)" \
        "$(cd "$root" && find . | sort)"
else
    echo "NOT TRIED: a TMPDIR where nothing may be run (no mount here)"
fi

# The service, where it can be built here.
built() { stat -c %y "$top/out/recorder/target/release/r10d" 2>/dev/null; }
before=$(built)
if why=$("$top/scripts/recorder.sh" ready); then
    example=$root/usr/share/doc/r10/examples/recorder.toml
    check "the service has the number too, and says where its library is not proved" is \
        "$("$root/usr/bin/r10d" --version)" "r10d $version$over"
    check "so has the program that controls it" is "$("$root/usr/bin/r10ctl" --version)" "r10ctl $version$over"
    for name in r10d r10ctl; do
        check "$name has no path of this machine in it" is "$(grep -c -a -F -e "$top" -e "$HOME/.cargo" "$root/usr/bin/$name")" 0
        check "$name is stripped" is "$(readelf -SW "$root/usr/bin/$name" | grep -c ' \.symtab\| \.debug_info')" 0
        check "$name says in its note over which library it is" says "$(note "$root/usr/bin/$name")" "over $(note "$lib.a")"
    done
    check "the copyright file has the crates of the service" says "$(cat "$copyright")" "Files: crates/clap-"
    found=$(sed -n 's/^ExecStart=//p' "$root/usr/lib/systemd/system/r10d.service")
    check "its unit runs what was installed" is "$found" "/usr/bin/r10d /etc/r10/recorder.toml"
    check "its settings are an example that it takes" says "$("$root/usr/bin/r10d" --check "$example")" "good, 1 channels"
    check "so are those that README begins with" says "$("$root/usr/bin/r10d" --check "$top/recorder/demo.toml")" "good, 1 channels"
    if command -v systemd-analyze >/dev/null; then
        # (of this root alone: so it has the units that this one names, as empty ones)
        for name in local-fs network sysinit basic shutdown multi-user; do
            printf '[Unit]\nDescription=empty\nDefaultDependencies=no\n' >"$root/usr/lib/systemd/system/$name.target"
        done
        # (it is reloaded by a signal)
        mkdir -p "$root/bin" && install -m 755 /dev/null "$root/bin/kill"
        check "systemd takes its unit" is "$(systemd-analyze verify --root="$root" --man=no r10d.service 2>&1 | grep r10d)" ""
        rm -r "$root/usr/lib/systemd/system/"*.target "${root:?}/bin"
    fi
    sed 's:/var/lib/r10/::; s:/run/r10/::; s:2097152:4096:; s/^input = .*/input = { lines = "pipe" }/' "$example" >"$room/my.toml"
    (cd "$room" && exec "$root/usr/bin/r10d" my.toml 2>r10d.log) &
    ctl() { "$root/usr/bin/r10ctl" --socket "$room/control" "$@"; }
    until ctl status >/dev/null 2>&1 || ! kill -0 $! 2>/dev/null; do sleep 0.05; done
    ctl record FLT1 && echo 'bytes = "68656c6c6f"' >"$room/pipe"
    until [[ $(ctl figures) == *'"durable":1,'* ]] || ! kill -0 $! 2>/dev/null; do sleep 0.05; done
    ctl shutdown
    wait $!
    check "it records, and ends well" is "$?" 0
    check "what it recorded is played" says "$("$r10" play --channel 5 <"$room/medium")" "message 0 0 0 68656c6c6f"
else
    echo "NOT TRIED: the service ($why)"
fi
mkdir "$room/old"
printf '#!/bin/sh\necho cargo 1.0.0\n' >"$room/old/cargo"
chmod +x "$room/old/cargo"
PATH=$room/old:$PATH "$top/scripts/install.sh" /usr "$room/without" >"$room/said" 2>&1
check "without a cargo the rest is installed" is "$? $("$room/without/usr/bin/r10" --version)" "0 $whole"
check "and a line says so" is "$(grep -c '^(r10d and r10ctl are not installed: ' "$room/said")" 1
check "and nothing of the service is there" is "$(find "$room/without" -name 'r10d*' -o -name 'r10ctl*' -o -name '*.service')" ""

# A prefix with letters that mean something to a shell, to sed or to systemd.
odd="/opt/r 10 & co"
(umask 077 && "$top/scripts/install.sh" "$odd" "$room/odd") >"$room/said" 2>&1
check "it installs below a prefix with spaces" is "$? $("$room/odd$odd/bin/r10" --version)" "0 $whole"
check "for all users, whatever the caller's mask" is "$(find "$room/odd/opt" ! -type l ! -perm -044)" ""
if command -v pkg-config >/dev/null; then
    check "r10.pc names it" is "$(PKG_CONFIG_PATH="$room/odd$odd/lib/pkgconfig" pkg-config --variable=prefix r10)" "$odd"
    check "and gives words that a shell takes apart right" is \
        "$(eval "printf '%s\n' $(PKG_CONFIG_PATH="$room/odd$odd/lib/pkgconfig" pkg-config --cflags --libs r10)" | head -n 2)" \
        "$(printf '%s\n' "-I$odd/include" "-L$odd/lib")"
    if command -v cargo >/dev/null; then
        PKG_CONFIG_PATH="$room/odd$odd/lib/pkgconfig" CARGO_TARGET_DIR=$room/crate cargo build --quiet --offline \
            --manifest-path "$top/ffi/rust/r10-sys/Cargo.toml" 2>"$room/said"
        check "the crate for Rust takes them apart right too" is \
            "$(sed -n 's/^cargo::rustc-link-search=native=//p' "$room"/crate/debug/build/r10-sys-*/output)" "$odd/lib"
    fi
fi
unit=$room/odd$odd/lib/systemd/system/r10d.service
[ ! -f "$unit" ] || check "the unit names it" is "$(sed -n 's/^ExecStart=//p' "$unit")" \
    '/opt/r\x2010\x20&\x20co/bin/r10d /etc/r10/recorder.toml'
"$top/scripts/install.sh" --uninstall "$odd" "$room/odd" >/dev/null
check "it is removed from there too" is "$(find "$room/odd" -type f -o -type l)" ""

flags() { PKG_CONFIG_PATH="$root/usr/lib/pkgconfig" PKG_CONFIG_SYSROOT_DIR="$root" pkg-config "$@" r10; }
if command -v pkg-config >/dev/null && command -v cc >/dev/null; then
    check "r10.pc has the version" is "$(flags --modversion)" "$version"
    flat=$room/flat
    ln -s "$root" "$flat"
    # (compiled without optimisation, where a call of the header is a function of its own)
    cc -std=c11 -O0 -I"$flat/usr/include" -o "$room/shared" "$top/ffi/calls.c" -L"$flat/usr/lib" -lr10 &&
        cc -std=c11 -I"$flat/usr/include" -o "$room/static" "$top/ffi/calls.c" "$flat/usr/lib/libr10.a"
    check "a program links with either library" is "$?" 0
    check "with the shared one it prints what it is to" is "$(LD_LIBRARY_PATH="$flat/usr/lib" "$room/shared")" \
        "$(cat "$top/ffi/calls.expected")"
    check "with the static one too" is "$("$room/static")" "$(cat "$top/ffi/calls.expected")"
    check "the shared one gives the calls of the header and no other name" is \
        "$(nm -D --defined-only "$flat/usr/lib/libr10.so" | sed -n '/ T /s/.* \(.*\)@@R10_[0-9.]*$/\1/p' | sort | tr '\n' ' ')" \
        "$(sed -n 's/^ *\(r10_[a-z0-9_]*\);$/\1/p' "$top/ffi/r10.map" | sort | tr '\n' ' ')"
else
    echo "NOT TRIED: linking (no pkg-config or cc here)"
fi

pages=$(find "$root/usr/share/man" -type f | sort)
check "a page for each command, and one of r10-survey" is \
    "$(find "$root/usr/share/man/man1" -name 'r10-*' -printf '%f\n' | sort | tr '\n' ' ')" \
    "$({ "$r10" --help | sed -n '/^Commands:/,/^$/s/^  \([a-z]*\) .*/r10-\1.1/p' | grep -v help && echo r10-survey.1; } | sort |
        tr '\n' ' ')"
if command -v groff >/dev/null; then
    while IFS= read -r page; do
        check "$(basename "$page") formats without a warning" is "$(groff -man -Tutf8 -ww -z "$page" 2>&1)" ""
    done <<<"$pages"
fi
words() { groff -man -Tascii -P-cbou "$1" | tr -s ' \n' '  '; }
if command -v groff >/dev/null; then
    check "the page of play says what its help says" says "$(words "$root/usr/share/man/man1/r10-play.1")" \
        "$("$r10" play --help | grep -o 'The file must be strict' | head -n 1)"
    check "the page of the header has its calls" says "$(words "$root/usr/share/man/man3/r10.h.3")" "r10_commit(r10 *recorder)"
fi

complete_words() {
    bash -c '. "$1"; shift; COMP_WORDS=("$@"); COMP_CWORD=$(($# - 1)); _"$1"; echo "${COMPREPLY[*]}"' - \
        "$root/usr/share/bash-completion/completions/$1" "$@"
}
check "bash completes a command" is "$(complete_words r10 ch)" "check"
check "bash completes an option" is "$(complete_words r10 play --f)" "--file --from"
check "bash completes the option of a session" is "$(complete_words r10 run --i)" "--image"
if [ -x "$root/usr/bin/r10ctl" ]; then
    check "bash completes a word of the recorder's" is "$(complete_words r10ctl st)" "status stop standing"
    check "bash completes an option of the service" is "$(complete_words r10d --f)" "--format --force"
    if command -v groff >/dev/null; then
        found=$(words "$root/usr/share/man/man8/r10d.8")
        check "the page of the service has its settings" says "$found" "commit_ms how often what came is made durable"
        check "the page of r10ctl has the words" says "$(words "$root/usr/share/man/man1/r10ctl.1")" "record [NAME] begins a file"
    fi
fi
check "bash completes an option of the survey" is "$(complete_words r10-survey --v)" "--version"
check "bash completes a command of the filters" is "$(complete_words ch10 sum)" "summary"
if command -v zsh >/dev/null; then
    check "zsh reads its completions" zsh -n "$root/usr/share/zsh/site-functions/_r10"
else
    echo "NOT TRIED: completions in zsh (no zsh here)"
fi

touch "$root/usr/bin/other"
# (the list may be of a call in another language: its order is another one then)
printf '/usr/share/r10/gone\n' >>"$root/usr/share/r10/installed"
sort -r -o "$root/usr/share/r10/installed" "$root/usr/share/r10/installed"
touch "$root/usr/share/r10/gone"
# an upgrade while what it upgrades runs: a file that is run cannot be written to, and one that is mapped may not be
mkfifo "$room/script"
"$r10" <"$room/script" >"$room/runs" &
exec 9>"$room/script"
exec 8<"$root/usr/lib/libr10.so.$version"
"$top/scripts/install.sh" /usr "$root" >"$room/said" 2>&1
check "it installs over a program that runs" is "$?" 0
check "and builds the service no second time" is "$(built)" "$before"
cat "$top/examples/first.toml" >&9
exec 9>&-
wait $!
check "which runs on" is "$(cat "$room/runs")" "$(cat "$top/examples/first.expected")"
check "the shared library is another file then: a program that uses the old one keeps it" is "$(stat -L -c %h /proc/$$/fd/8)" 0
exec 8<&-
check "a file that only an earlier version had goes" test ! -e "$root/usr/share/r10/gone"
"$top/scripts/install.sh" --uninstall /usr "$root" >/dev/null
check "it is removed by its list, and nothing else" is "$(find "$root" -type f -o -type l)" "$root/usr/bin/other"
check "no folder that it made is left" is "$(find "$root" -mindepth 1 -type d | sort | tr '\n' ' ')" "$root/usr $root/usr/bin "
"$top/scripts/install.sh" --uninstall /usr "$root" >"$room/said" 2>&1
check "twice is an error of one line" is "$? $(wc -l <"$room/said")" "1 1"
"$top/scripts/install.sh" relative >"$room/said" 2>&1
check "a prefix that does not begin with / is one line, status 2" is "$? $(wc -l <"$room/said")" "2 1"
if [ "$(id -u)" = 0 ]; then
    mkdir "$room/shut"
    chmod 755 "$room" "$room/shut"
    setpriv --reuid=65534 --regid=65534 --clear-groups "$top/scripts/install.sh" /usr "$room/shut" >"$room/said" 2>&1
    check "without leave to write it is one line, status 3" is "$? $(wc -l <"$room/said")" "3 1"
fi

if command -v dpkg-deb >/dev/null; then
    mkdir "$room/packages" "$room/again"
    of_package=$version words=()
    if [ "$proved$library" != provedproved ]; then
        of_package=$version~unproved words=(--unproved)
        said=$("$top/scripts/deb.sh" "$room/packages" 2>"$room/said")
        check "a package of what is not proved is not made by itself" is "$? $said$(find "$room/packages" -type f)" "1 "
        check "a line says how it is made" says "$(tail -n 1 "$room/said")" "with --unproved alone"
    fi
    package=$(umask 077 && "$top/scripts/deb.sh" "${words[@]}" "$room/packages" 2>/dev/null)
    check "a Debian package is made" test -f "$package"
    check "its version says where something in it is not proved" is "$(dpkg-deb -f "$package" Version)" "$of_package"
    check "its description has the commit" says "$(dpkg-deb -f "$package" Description | tr -d '\n')" "commit ${commit:0:40}"
    check "with files for all users" is "$(dpkg-deb -c "$package" | grep -v '^l' | cut -c 2-10 | sort -u | tr '\n' ' ')" \
        "rw-r--r-- rwxr-xr-x "
    check "with libraries where Debian has them" says "$(dpkg-deb -c "$package")" \
        " ./usr/lib/$(gcc -print-multiarch)/libr10.so.$version"
    check "with copyright and changelog" is "$(dpkg-deb -c "$package" | grep -c '/doc/r10/\(copyright\|changelog.gz\)$')" 2
    check "without the list that dpkg has itself" is "$(dpkg-deb -c "$package" | grep -c share/r10/installed)" 0
    again=$(cd / && umask 022 && TMPDIR=$room/again "$top/scripts/deb.sh" "${words[@]}" "$room/again" 2>/dev/null)
    check "another one has the same bytes" cmp "$package" "$again"
    if command -v lintian >/dev/null; then
        check "lintian finds nothing but what is listed" is "$(lintian --allow-root --fail-on none "$package" 2>&1)" ""
    else
        echo "NOT TRIED: the package by Debian's rules (no lintian here)"
    fi
    check "it installs in a root of its own, runs there and goes" "$top/scripts/deb.sh" try "$package"
    cp -r "$room" "$room.broken"
    for name in r10 r10-survey; do
        rm -rf "$room.broken/whole"
        dpkg-deb -R "$package" "$room.broken/whole" && echo 'echo no' >"$room.broken/whole/usr/bin/$name" &&
            dpkg-deb --root-owner-group -b "$room.broken/whole" "$room.broken/broken.deb" >/dev/null
        check "a package whose $name is another is refused" bash -c '! "$1" try "$2" >/dev/null 2>&1' - "$top/scripts/deb.sh" \
            "$room.broken/broken.deb"
    done
    rm -rf "$room.broken"
else
    echo "NOT TRIED: a Debian package (no dpkg-deb here)"
fi
exit "$failed"
