#!/usr/bin/env bash
# Makes a Debian package of r10, by what scripts/install.sh installs, and tries it. If r10d is among it, the package makes its user,
# r10, and does not start it.
#
#     scripts/deb.sh FOLDER               # makes FOLDER/r10_VERSION_ARCHITECTURE.deb, and prints its name
#     scripts/deb.sh --unproved FOLDER    # the same where the program or the library is not proved: its version is VERSION~unproved
#     scripts/deb.sh try PACKAGE          # unpacks it into a root of its own, which has a C library and nothing else, and runs r10
#                                         # there
#
# Two packages of one commit have the same bytes; times in them are the commit's. scripts/trials/same_package.sh builds two in two
# folders, and compares them. What `lintian` finds and is to stay, with its reasons, is in scripts/build/lintian.txt.
#
# `try` wants root, for chroot, or leave to make a namespace (unshare); without either a line says NOT TRIED.
set -eu
umask 022

top=$(cd "$(dirname "$(readlink -f "${BASH_SOURCE[0]}")")/.." && pwd)

give_up() {
    echo "deb: $2" >&2
    exit "$1"
}

command -v dpkg-deb >/dev/null || give_up 3 "there is no dpkg-deb"
# shellcheck source=scripts/build/wants.sh
. "$top/scripts/build/wants.sh"
# shellcheck source=scripts/build/about.sh
. "$top/scripts/build/about.sh"
made=$(mktemp -d)
trap 'rm -rf "$made"' EXIT

# The C library's version that these files want at least.
wanted_libc() {
    objdump -T "$@" 2>/dev/null | sed -n 's/.*(\{0,1\}GLIBC_\([0-9.]*\).*/\1/p' | sort -Vu | tail -n 1
}

# What the package does on a system: it makes the user, and ends what runs and goes. With DPKG_ROOT it is for another root.
make_scripts() {
    cat >"$1/postinst" <<'SCRIPT'
#!/bin/sh
# The user of r10d. The service is neither enabled nor started: it has no settings yet.
set -e
if [ "$1" = configure ]; then
    if command -v systemd-sysusers >/dev/null; then
        systemd-sysusers ${DPKG_ROOT:+--root="$DPKG_ROOT"} r10.conf
    elif [ -z "${DPKG_ROOT:-}" ]; then
        adduser --quiet --system --group --no-create-home --home /nonexistent r10
    fi
    if [ -z "${DPKG_ROOT:-}" ] && [ -d /run/systemd/system ]; then
        systemctl daemon-reload || true
    fi
fi
SCRIPT
    cat >"$1/prerm" <<'SCRIPT'
#!/bin/sh
# A service whose program goes is ended first. An upgrade ends no recording: the new program is for the next start.
set -e
if [ "$1" = remove ] && [ -z "${DPKG_ROOT:-}" ] && [ -d /run/systemd/system ]; then
    deb-systemd-invoke stop r10d.service || true
fi
SCRIPT
    cat >"$1/postrm" <<'SCRIPT'
#!/bin/sh
set -e
if [ -z "${DPKG_ROOT:-}" ] && [ -d /run/systemd/system ]; then
    systemctl daemon-reload || true
fi
SCRIPT
    chmod 755 "$1/postinst" "$1/prerm" "$1/postrm"
}

# Whether all of it is proved that is installed below a folder, by its first lines.
is_proved() {
    [ "$(head -n 3 "$1/usr/share/r10/installed" | grep -c ' (proved), ')" = 3 ]
}

# How large it is when it is installed, in KiB, as Debian reckons: by its files, whatever the file system.
size_of() {
    (cd "$1" && find usr lib -printf '%y %s\n' 2>/dev/null) |
        awk '{ sum += $1 == "f" ? int(($2 + 1023) / 1024) : 1 } END { print sum }'
}

make_package() {
    local version architecture package root=$made/root programs depends multiarch lines doc
    version=$(cat "$top/VERSION")
    architecture=$(dpkg --print-architecture)
    want_python deb
    multiarch=$(dpkg-architecture -qDEB_HOST_MULTIARCH 2>/dev/null) || {
        want_commands deb gcc
        multiarch=$(gcc -print-multiarch)
    }
    SOURCE_DATE_EPOCH=$(time_of)
    export SOURCE_DATE_EPOCH
    R10_LIBDIR=lib/$multiarch "$top/scripts/install.sh" /usr "$root" >&2
    if ! is_proved "$root"; then
        [ -n "$unproved" ] || give_up 1 "a program or the library is not proved (scripts/build.sh and scripts/ffi.sh build prove \
them); a package of it is made with --unproved alone"
        version=$version~unproved
    fi
    lines=$(head -n 3 "$root/usr/share/r10/installed" | fold -s -w 76 | sed 's/^/ /; s/ *$//')
    # (the list is for scripts/install.sh alone: here dpkg keeps one)
    rm "$root/usr/share/r10/installed"
    find "$root/usr/share/man" -type f -exec gzip -9n {} +
    # Where Debian has zsh's own functions of packages.
    mkdir -p "$root/usr/share/zsh/vendor-completions"
    mv "$root"/usr/share/zsh/site-functions/* "$root/usr/share/zsh/vendor-completions"
    rmdir "$root/usr/share/zsh/site-functions"
    doc=$root/usr/share/doc/r10
    {
        printf 'r10 (%s) unstable; urgency=medium\n\n' "$version"
        printf '  * What changed stands in CHANGELOG.md of the sources. This package:\n'
        printf '%s\n' "$lines" | sed 's/^ /    /; s/ *$//'
        printf '\n -- the r10 project <r10@localhost.localdomain>  %s\n' "$(LC_ALL=C date -uRd "@$SOURCE_DATE_EPOCH")"
    } | gzip -9n >"$doc/changelog.gz"
    mkdir -p "$root/DEBIAN" "$root/usr/share/lintian/overrides"
    install -m 644 "$top/scripts/build/lintian.txt" "$root/usr/share/lintian/overrides/r10"
    programs=("$root/usr/bin/r10" "$root/usr/bin/r10-survey" "$root/usr/lib/$multiarch"/libr10.so.*)
    depends=
    if [ -e "$root/usr/bin/r10d" ]; then
        programs+=("$root/usr/bin/r10d" "$root/usr/bin/r10ctl")
        depends=", libgcc-s1, adduser"
        # where Debian 12 has units
        mkdir -p "$root/lib/systemd/system"
        mv "$root/usr/lib/systemd/system/r10d.service" "$root/lib/systemd/system"
        rm -r "$root/usr/lib/systemd"
        make_scripts "$root/DEBIAN"
    fi
    depends="libc6 (>= $(wanted_libc "${programs[@]}"))$depends"
    # (nothing in it is newer than the commit)
    find "$root" -exec touch -hd "@$SOURCE_DATE_EPOCH" {} +
    cat >"$root/DEBIAN/control" <<CONTROL
Package: r10
Version: $version
Architecture: $architecture
Maintainer: the r10 project <r10@localhost.localdomain>
Section: science
Priority: optional
Installed-Size: $(size_of "$root")
Depends: $depends
Recommends: python3 (>= 3.7), python3-numpy
Description: flight recorder for IRIG 106 Chapter 10 files
 Records UART, MIL-STD-1553, ARINC 429, discrete and message channels into
 recording files, plays them back, and says the verdict on a recording.
 With a library for programs in C and Rust, filters for recordings, and a
 service that records live inputs.
 .
$lines
CONTROL
    printf 'activate-noawait ldconfig\n' >"$root/DEBIAN/triggers"
    printf 'libr10 %s r10 (>= %s)\n' "${version%%.*}" "$version" >"$root/DEBIAN/shlibs"
    (cd "$root" && find usr lib -type f -print0 2>/dev/null | LC_ALL=C sort -z | xargs -0 md5sum) >"$root/DEBIAN/md5sums"
    package=$1/r10_${version}_$architecture.deb
    dpkg-deb --root-owner-group --build "$root" "$made/package.deb" >&2 || give_up 3 "the package was not made"
    cp "$made/package.deb" "$package" || give_up 3 "$package can't be written"
    echo "$package"
}

# A root with the C library and the words of a Debian system that dpkg asks for.
make_root() {
    local root=$1 file name
    shift
    mkdir -p "$root/var/lib/dpkg/info" "$root/var/lib/dpkg/updates" "$root/var/lib/dpkg/triggers" "$root/var/log" "$root/tmp" \
        "$root/etc"
    cat >"$root/var/lib/dpkg/status" <<STATUS
Package: libc6
Status: install ok installed
Architecture: $(dpkg --print-architecture)
Version: $(dpkg-query -W -f '${Version}' libc6 2>/dev/null || echo 2.36)
Maintainer: none
Description: what this root has of it

STATUS
    for name in libgcc-s1 adduser; do
        printf 'Package: %s\nStatus: install ok installed\nArchitecture: all\nVersion: 1\n' "$name"
        printf 'Maintainer: none\nDescription: nothing of it\n\n'
    done >>"$root/var/lib/dpkg/status"
    while read -r file; do
        mkdir -p "$root$(dirname "$file")"
        cp -L "$file" "$root$file"
    done < <(ldd "$@" | sed -n 's/.* => \(\/[^ ]*\) .*/\1/p; s/^\t\(\/[^ ]*\) .*/\1/p' | sort -u)
}

try_package() {
    local root=$made/root into=() listed said suffix=
    if [ "$(id -u)" != 0 ]; then
        unshare --user --map-root-user true 2>/dev/null || {
            echo "deb: NOT TRIED: no leave for chroot here"
            return
        }
        into=(unshare --user --map-root-user)
    fi
    dpkg-deb -x "$1" "$made/unpacked"
    make_root "$root" "$made"/unpacked/usr/bin/r10* "$made/unpacked"/usr/lib/*/libr10.so.*.*
    "${into[@]}" dpkg --root="$root" --force-script-chrootless --force-not-root --log=/dev/null -i "$1" >"$made/dpkg" 2>&1 ||
        { cat "$made/dpkg" >&2; give_up 1 "dpkg does not install it"; }
    "${into[@]}" chroot "$root" /usr/bin/r10 <"$top/examples/first.toml" | cmp - "$top/examples/first.expected" ||
        give_up 1 "r10 in that root prints another thing"
    # (what its description says of program and library, on one line)
    said=$(dpkg-deb -f "$1" Description | tr -d '\n')
    [[ $said != *" r10 $(cat "$top/VERSION") (not proved), "* ]] || suffix=' (not proved)'
    [ "$("${into[@]}" chroot "$root" /usr/bin/r10 --version)" = "r10 $(cat "$top/VERSION")$suffix" ] ||
        give_up 1 "r10 in that root has another version"
    suffix=
    [[ $said != *" r10-survey $(cat "$top/VERSION") (not proved), "* ]] || suffix=' (not proved)'
    [ "$("${into[@]}" chroot "$root" /usr/bin/r10-survey --version)" = "r10-survey $(cat "$top/VERSION")$suffix" ] ||
        give_up 1 "r10-survey in that root has another version"
    "${into[@]}" chroot "$root" /usr/bin/r10-survey <"$top/crates/r10_surveyor/stdin" | cmp - "$top/crates/r10_surveyor/stdout" ||
        give_up 1 "r10-survey in that root prints another thing"
    [[ $said != *"(not proved), "* || $(dpkg-deb -f "$1" Version) = *~unproved ]] ||
        give_up 1 "its version does not say that something in it is not proved"
    if [ -e "$root/usr/bin/r10d" ]; then
        suffix=
        [[ $said != *" libr10 $(cat "$top/VERSION") (not proved), "* ]] || suffix=' (not proved)'
        [ "$("${into[@]}" chroot "$root" /usr/bin/r10d --version)" = "r10d $(cat "$top/VERSION")$suffix" ] ||
            give_up 1 "r10d in that root has another version"
        ! command -v systemd-sysusers >/dev/null || grep -q '^r10:x:' "$root/etc/passwd" || give_up 1 "there is no user r10"
        [ -f "$root/lib/systemd/system/r10d.service" ] && [ -z "$(find "$root/etc" -name 'r10d*')" ] ||
            give_up 1 "the unit is not there, or is enabled"
    fi
    dpkg --root="$root" --verify r10 || give_up 1 "files are not as the package has them"
    listed=$(dpkg --root="$root" -L r10 | wc -l)
    "${into[@]}" dpkg --root="$root" --force-script-chrootless --force-not-root --log=/dev/null -r r10 >"$made/dpkg" 2>&1 ||
        give_up 1 "dpkg does not remove it"
    [ -z "$(find "$root/usr" "$root/lib" -name '*r10*' 2>/dev/null)" ] || give_up 1 "after it was removed files are left"
    echo "deb: $(basename "$1") is installed in a root of its own, runs there, and is removed ($listed names)"
}

unproved=
if [ "${1:-}" = --unproved ]; then
    unproved=yes
    shift
fi
case ${1:-} in
-h | --help)
    sed -n '2,/^[^#]/s/^# \{0,1\}//p' "${BASH_SOURCE[0]}"
    ;;
try)
    [ -f "${2:-}" ] || give_up 2 "which package? scripts/deb.sh try PACKAGE"
    try_package "$2"
    ;;
*)
    [ -d "${1:-}" ] || give_up 2 "into which folder? scripts/deb.sh FOLDER"
    make_package "$1"
    ;;
esac
