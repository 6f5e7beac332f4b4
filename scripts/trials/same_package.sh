#!/usr/bin/env bash
# Makes the Debian package twice from the commit that is checked out, each in a clone of its own with builds of its own, and
# compares them byte for byte.
#
#     scripts/trials/same_package.sh [FOLDER]
#
# The clones lie in FOLDER, or in a folder that is removed at the end; their names differ in length, and so do the times of both and
# their temporary folders. Nothing is proved in them, so the packages are made with --unproved. It takes some 15 minutes of a
# processor. Where a file differs, that is a line with its name, and status 1.
set -u

top=$(cd "$(dirname "$(readlink -f "${BASH_SOURCE[0]}")")/../.." && pwd)
if [ -n "${1:-}" ]; then
    room=$1
    mkdir -p "$room" || exit 3
else
    room=$(mktemp -d) || exit 3
    trap 'rm -rf "$room"' EXIT
fi
commit=$(git -C "$top" rev-parse HEAD) || exit 3
packages=()
for name in one another-folder; do
    at=$room/$name
    mkdir -p "$at.tmp" "$at.deb"
    git clone -q "$top" "$at" && git -C "$at" checkout -q "$commit" || exit 3
    package=$(TMPDIR=$at.tmp "$at/scripts/deb.sh" --unproved "$at.deb") || exit 3
    packages+=("$package")
    sha256sum "$package"
done
if cmp "${packages[@]}"; then
    echo "same_package: both packages of $commit are the same, $(stat -c %s "${packages[0]}") bytes"
    exit 0
fi
for it in 0 1; do
    dpkg-deb -R "${packages[it]}" "$room/whole$it" || exit 3
done
diff -rq "$room/whole0" "$room/whole1"
echo "same_package: the packages of $commit differ"
exit 1
