#!/usr/bin/env bash
# The recorder as a service, r10d and r10ctl (docs/RECORDER.md): builds it, and tries it.
#
#     scripts/recorder.sh build [--quick]             # builds both over the library, and prints the folder that they are in
#     scripts/recorder.sh ready                       # whether they can be built here; if not, a line says why and what to do, and
#                                                     # the status is 1; and how long a build takes
#     scripts/recorder.sh crates                      # the folders of the crates that both are built of
#     scripts/recorder.sh install PREFIX [DESTDIR]    # over the library below DESTDIR/PREFIX: puts both there, the unit for
#                                                     # systemd, its user, and an example of settings; or says in a line why not
#                                                     # (install.sh calls it)
#     scripts/recorder.sh check [NAME..]              # what the gate runs: tests of its parts, and recordings through the running
#                                                     # service, also through its page in a browser; with names, as full-medium,
#                                                     # those recordings alone
#     scripts/recorder.sh long [WORDS..]              # 200 kills, 1,000 power cuts, failures at each operation, a flood:
#                                                     # recorder/tests/long.py says more
#     scripts/recorder.sh soak HOURS [RATE]           # records for so long, and draws memory and acknowledged messages
#
# Crates come from Debian's packages where those are there (scripts/build/packages.sh names them), so no
# network is needed; else from the registry, as cargo is set up. With --quick the library is the one without proofs. `check` takes
# the library that is there, says in a line what it cannot try, and fails of nothing that is only missing.
set -u

top=$(cd "$(dirname "$(readlink -f "${BASH_SOURCE[0]}")")/.." && pwd)
# shellcheck source=scripts/build/wants.sh
. "$top/scripts/build/wants.sh"
PACKAGES=$("$top/scripts/build/packages.sh" service)
readonly PACKAGES
readonly REGISTRY=/usr/share/cargo/registry

give_up() {
    echo "recorder: $1" >&2
    exit 1
}

# The crate r10 wants this Rust, 1.89; Debian 12 has 1.63 (its cargo says 0.66).
readonly OLDEST=89
readonly CARGO="Debian 12 has an older one; https://rustup.rs installs one beside it, for this user, in a minute with a network"

is_new() {
    [[ $(cargo --version) =~ ^cargo\ 1\.([0-9]+) ]] && [ "${BASH_REMATCH[1]}" -ge "$OLDEST" ]
}

# Where crates come from: words for cargo.
from=()
if [ -d "$REGISTRY/clap-4.0.32" ] || compgen -G "$REGISTRY/clap-4*" >/dev/null; then
    from=(--config "$top/recorder/debian.toml" --offline)
fi

# The crate in a folder of its own, with the sources as links: cargo writes sums into Cargo.lock, and Debian's crates have not all
# of them. The versions are those of the tree's Cargo.lock; where the packages of another Debian have others, those are taken.
crate() {
    local to=$top/out/recorder/crate name
    mkdir -p "$to" && ln -sfn "$top/recorder/src" "$to/src" && ln -sfn "$top/recorder/examples" "$to/examples" || return
    # (crates of the tree are links in it too: cargo names what it builds by their paths, and those below this folder are the same
    # wherever it lies)
    for name in r10 r10-sys kernel-clock; do
        ln -sfn "$top/ffi/rust/$name" "$to/$name" || return
    done
    sed 's|path = "\.\./ffi/rust/|path = "|' "$top/recorder/Cargo.toml" >"$to/Cargo.toml.new" || return
    cmp -s "$to/Cargo.toml.new" "$to/Cargo.toml" || cp "$to/Cargo.toml.new" "$to/Cargo.toml" || return
    if ! cmp -s "$top/recorder/Cargo.lock" "$to/Cargo.lock.of_tree"; then
        cp "$top/recorder/Cargo.lock" "$to/Cargo.lock" && cp "$to/Cargo.lock" "$to/Cargo.lock.of_tree" || return
        cargo "${from[@]}" metadata --format-version 1 --manifest-path "$to/Cargo.toml" >/dev/null 2>&1 || rm "$to/Cargo.lock"
    fi
    echo "$to/Cargo.toml"
}

# cargo over the library, in a folder of its own. What is built has no path of this machine in it. Over a library that is not proved
# its version says so.
build_by() {
    local manifest flags
    manifest=$(crate) || return
    if [ -f "$library.proved" ]; then export R10_PROVED=yes; else unset R10_PROVED; fi
    flags=$(printf -- '--remap-path-prefix=%s=/r10\x1f--remap-path-prefix=%s=/cargo' "$top" \
        "${CARGO_HOME:-${HOME:-/root}/.cargo}")
    CARGO_ENCODED_RUSTFLAGS=$flags R10_LIB_DIR=$library R10_STATIC=1 CARGO_TARGET_DIR=$top/out/recorder/target \
        nice -n 5 cargo "$1" --manifest-path "$manifest" "${from[@]}" "${@:2}"
}

# The folder with libr10.a: one of its own, in which the file changes only if its bytes do, so that nothing is built anew. The note
# of an installed one, which names a commit, is left out. A file beside the folder says that the library is the proved one: by that
# note, or as scripts/ffi.sh knows it.
library() {
    local made=${R10_LIB_DIR:-} kept=$top/out/recorder/lib proved=
    if [ -z "$made" ]; then
        made=$("$top/scripts/ffi.sh" build "$@" --shared) || return
        [ "$("$top/scripts/ffi.sh" proved)" != "$made" ] || proved=yes
        made=$(dirname "$made")
    elif readelf -p .note.r10 "$made/libr10.a" 2>/dev/null | grep -q 'libr10 [0-9.]* (proved), '; then
        proved=yes
    fi
    # (made beside that folder, since cargo builds anew where the folder itself has changed)
    mkdir -p "$kept" && objcopy -D --remove-section .note.r10 "$made/libr10.a" "$kept.new" || return
    if cmp -s "$kept.new" "$kept/libr10.a"; then rm "$kept.new"; else mv "$kept.new" "$kept/libr10.a"; fi || return
    if [ -n "$proved" ]; then touch "$kept.proved"; else rm -f "$kept.proved"; fi || return
    echo "$kept"
}

# Whether both can be built here; if not, why, and what to do.
ready() {
    if ! command -v cargo >/dev/null; then
        echo "there is no cargo of 1.$OLDEST or later: $CARGO"
    elif ! is_new; then
        echo "the cargo that is there is older than 1.$OLDEST: $(cargo --version); $CARGO"
    # cargo says whether all crates are there, without building one
    elif ! library=/nonexistent from_kept metadata --format-version 1 >/dev/null 2>&1; then
        echo "the crates of r10d are not there: apt-get update && apt-get install -y $PACKAGES; or, with a network," \
            "scripts/recorder.sh build"
    else
        return 0
    fi
    return 1
}

# cargo without a network.
from_kept() {
    local from=("${from[@]}")
    [ "${#from[@]}" != 0 ] || from=(--offline)
    build_by "$@"
}

build() {
    local jobs
    jobs=$(($(nproc) > 2 ? 2 : $(nproc)))
    build_by build --release --quiet --bins --examples -j "$jobs"
}

case ${1:-} in
ready)
    why=$(ready)
    found=$?
    [ -z "$why" ] || echo "$why"
    # (as measured on four processors with nothing else to do; a machine with other work takes a multiple of it)
    echo "a build takes some 3 minutes, and its first one 3 more for the library; on a machine with other work up to three" \
        "times that"
    exit "$found"
    ;;
crates)
    library=/nonexistent from_kept metadata --format-version 1 2>/dev/null | python3 -c '
import json, os, sys
for it in json.load(sys.stdin)["packages"]:
    if it["source"]:
        print(os.path.dirname(it["manifest_path"]))'
    ;;
install)
    [[ ${2:-} = /* ]] || give_up "below which folder? scripts/recorder.sh install /PREFIX [DESTDIR]"
    prefix=${2%/} to=${3:-}${2%/}
    why=$(ready) && library=$(R10_LIB_DIR=$to/${R10_LIBDIR:-lib} library) && why=$(build 2>&1) || {
        [[ $why != *$'\n'* ]] || why="it was not built, for \"$(tail -n 1 <<<"$why")\""
        echo "(r10d and r10ctl are not installed: ${why:-there is no library below $to})" >&2
        exit 0
    }
    made=$top/out/recorder/target/release
    bin=$(for_sed "${prefix// /\\x20}/bin") # as a unit has it
    mkdir -p "$to/bin" "$to/lib/systemd/system" "$to/lib/sysusers.d" "$to/share/doc/r10/examples" &&
        install -m 755 "$made/r10d" "$made/r10ctl" "$to/bin" && strip --strip-unneeded "$to/bin/r10d" "$to/bin/r10ctl" &&
        sed "s|/usr/local/bin/|$bin/|" "$top/recorder/r10d.service" >"$to/lib/systemd/system/r10d.service" &&
        install -m 644 "$top/recorder/sysusers.conf" "$to/lib/sysusers.d/r10.conf" &&
        install -m 644 "$top/recorder/recorder.toml" "$top/recorder/demo.toml" "$top/recorder/r10.rules.yml" \
            "$to/share/doc/r10/examples" || give_up "not all could be written below $to"
    ;;
build)
    command -v cargo >/dev/null && is_new || give_up "there is no cargo of 1.$OLDEST or later: $CARGO"
    # (the crates are looked for before the library is made, which takes minutes)
    library=/nonexistent build_by metadata --format-version 1 >/dev/null ||
        give_up "the crates of r10d are not there; without a network: apt-get update && apt-get install -y $PACKAGES"
    library=$(library ${2:+"$2"}) || give_up "there is no library: scripts/ffi.sh build says why"
    build || give_up "r10d was not built"
    echo "$top/out/recorder/target/release"
    ;;
check)
    why=$(ready) || {
        echo "recorder: NOT TRIED: $why"
        exit
    }
    [ "${#from[@]}" != 0 ] || from=(--offline)
    kept=$("$top/scripts/ffi.sh" kept) || give_up "there is no library to build r10d over"
    quick=()
    [[ $kept != */out/builds/* ]] || quick=(--quick)
    library=$(library "${quick[@]}") || give_up "there is no library to build r10d over"
    build || give_up "r10d was not built"
    if [ "$#" = 1 ]; then
        cargo fmt --check --manifest-path "$top/recorder/Cargo.toml" >/dev/null || give_up "run cargo fmt in recorder/"
        if cargo clippy --version >/dev/null 2>&1; then
            build_by clippy --quiet --all-targets -j 2 -- -D warnings ||
                give_up "clippy has hints (recorder/Cargo.toml has its list)"
        else
            echo "recorder: NOT TRIED: clippy is not there"
        fi
        build_by test --release --quiet --lib --bins -j 2 || give_up "a test of its parts failed"
    fi
    "$top/recorder/tests/check.py" "$top/out/recorder/target/release" "${@:2}" || give_up "a recording through the service failed"
    ;;
long | soak)
    library=$(library --quick) || give_up "there is no library to build r10d over"
    build || give_up "r10d was not built"
    exec "$top/recorder/tests/$1.py" "$top/out/recorder/target/release" "${@:2}"
    ;;
*)
    sed -n '2,/^[^#]/s/^# \{0,1\}//p' "${BASH_SOURCE[0]}" >&2
    exit 2
    ;;
esac
