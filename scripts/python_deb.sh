#!/usr/bin/env bash
# Makes a Debian package of the filters as a package of Python, python3-ch10. The command ch10 is in the package of r10.
#
#     scripts/python_deb.sh FOLDER    # makes FOLDER/python3-ch10_VERSION_all.deb, and prints its name
#
# Times in it are the commit's, where there is one. Status 2 for wrong words, 3 where it can't be made.
set -eu
umask 022

top=$(cd "$(dirname "$(readlink -f "${BASH_SOURCE[0]}")")/.." && pwd)

give_up() {
    echo "python_deb: $2" >&2
    exit "$1"
}

[ -d "${1:-}" ] || give_up 2 "into which folder? scripts/python_deb.sh FOLDER"
command -v dpkg-deb >/dev/null || give_up 3 "there is no dpkg-deb"
made=$(mktemp -d)
trap 'rm -rf "$made"' EXIT

version=$(cat "$top/VERSION")
root=$made/root
place=$root/usr/lib/python3/dist-packages
mkdir -p "$place/ch10" "$place/ch10-$version.dist-info" "$root/DEBIAN"
install -m 644 "$top"/ch10/*.py "$top/ch10/py.typed" "$place/ch10"
printf 'Metadata-Version: 2.1\nName: ch10\nVersion: %s\n' "$version" >"$place/ch10-$version.dist-info/METADATA"
cat >"$root/DEBIAN/control" <<CONTROL
Package: python3-ch10
Version: $version
Architecture: all
Maintainer: the r10 project <r10@localhost>
Section: python
Priority: optional
Installed-Size: $(du -sk "$root/usr" | cut -f 1)
Depends: python3 (>= 3.7), python3-numpy
Recommends: python3-h5py, python3-pandas
Description: reads IRIG 106 Chapter 10 recordings in Python
 Gives recordings, their channels, and entries as columns of numpy or pandas,
 with times and what was lost. Writes HDF5 and files of MATLAB.
CONTROL
(cd "$root" && find usr -type f -print0 | sort -z | xargs -0 md5sum) >"$root/DEBIAN/md5sums"
if moment=$(git -C "$top" log -1 --format=%ct 2>/dev/null) && [ -n "$moment" ]; then
    export SOURCE_DATE_EPOCH=$moment
    find "$root" -print0 | xargs -0 touch -h -d "@$moment"
fi
dpkg-deb --root-owner-group --build "$root" "$made/package.deb" >&2 || give_up 3 "the package was not made"
cp "$made/package.deb" "$1/python3-ch10_${version}_all.deb" || give_up 3 "$1 can't be written"
echo "$1/python3-ch10_${version}_all.deb"
