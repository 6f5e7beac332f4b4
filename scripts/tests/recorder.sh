#!/usr/bin/env bash
# Tests of scripts/recorder.sh, with stand-ins for cargo and for the library: that a version says where the library below it is not
# proved. Seconds, and no build. Status 1 where one fails.
set -u
# shellcheck disable=SC2154 source=scripts/tests/kit.sh
. "$(dirname "$(readlink -f "${BASH_SOURCE[0]}")")/kit.sh"
# shellcheck source=scripts/build/about.sh
. "$sources/scripts/build/about.sh"
for it in cc ar objcopy readelf strip; do
    command -v "$it" >/dev/null || {
        echo "NOT TRIED: scripts/recorder.sh with a stand-in for cargo (there is no $it)"
        exit 0
    }
done

# A checkout in which scripts/ffi.sh answers what the test says: the library that a build makes, and the one that is proved.
tree=$room/tree
take_scripts "$tree" build/wants.sh build/packages.sh
cp "$sources/scripts/recorder.sh" "$tree/scripts"
mkdir -p "$tree/recorder/src" "$tree/recorder/examples" "$tree/ffi/rust" "$room/bin" "$room/plain" "$room/quick"
cp "$sources"/recorder/*.* "$tree/recorder"
echo 'int r10_version(void) { return 200; }' | cc -x c -c -o "$room/r10.o" - || exit 3
for it in plain quick; do
    ar rcsD "$room/$it/libr10_ffi.a" "$room/r10.o" && cp "$room/$it/libr10_ffi.a" "$room/$it/libr10.a"
done
cat >"$tree/scripts/ffi.sh" <<'FFI'
#!/usr/bin/env bash
room=$(dirname "$(dirname "$(dirname "$(readlink -f "$0")")")")
case $1$2 in
build--quick) echo "$room/quick/libr10_ffi.a" ;;
build* | kept) echo "$room/plain/libr10_ffi.a" ;;
proved) [ ! -e "$room/is_proved" ] || echo "$room/plain/libr10_ffi.a" ;;
esac
FFI
# cargo as far as it is called here: a build writes down what it is given.
cat >"$room/bin/cargo" <<'CARGO'
#!/usr/bin/env bash
room=$(dirname "$(dirname "$(readlink -f "$0")")")
case $1 in
--version) echo "cargo 1.95.0 (a stand-in)" ;;
build)
    echo "${R10_PROVED-nothing}" >"$room/given"
    mkdir -p "$CARGO_TARGET_DIR/release" && cp "$(type -P true)" "$CARGO_TARGET_DIR/release/r10d" &&
        cp "$(type -P true)" "$CARGO_TARGET_DIR/release/r10ctl"
    ;;
esac
CARGO
chmod +x "$tree/scripts/ffi.sh" "$room/bin/cargo"

# What a build is given, of a call with these words.
given() {
    rm -f "$room/given"
    PATH=$room/bin:$PATH "$tree/scripts/recorder.sh" "$@" >"$room/said" 2>&1 || cat "$room/said"
    cat "$room/given"
}
# The same of an installation over a library whose note is this line.
over_note() {
    put_note "$1" "$room/plain/libr10.a" && mkdir -p "$room/root/usr/lib" && cp "$room/plain/libr10.a" "$room/root/usr/lib" &&
        given install /usr "$room/root"
}

check "over a library that is not proved nothing says that it is" is "$(given build)" nothing
check "nor where the caller's own variables say so" is "$(R10_PROVED=yes given build)" nothing
touch "$room/is_proved"
check "over the proved library a build is given that" is "$(given build)" yes
check "with --quick it is not" is "$(given build --quick)" nothing
check "an installation goes by the note of its library: proved" is \
    "$(over_note "libr10 0.2.0 (proved), commit 1, toolchain 2")" yes
check "not proved" is "$(over_note "libr10 0.2.0 (not proved), commit 1, toolchain 2")" nothing
rm "$room/is_proved"
check "a folder of libraries goes by its note too" is "$(R10_LIB_DIR=$room/plain given build)" nothing
put_note "libr10 0.2.0 (proved), commit 1, toolchain 2" "$room/plain/libr10.a"
check "also where it is proved" is "$(R10_LIB_DIR=$room/plain given build)" yes
objcopy --remove-section .note.r10 "$room/plain/libr10.a"
check "without a note nobody knows" is "$(R10_LIB_DIR=$room/plain given build)" nothing
check "the library in the service's folder has no note" is \
    "$(readelf -SW "$tree/out/recorder/lib/libr10.a" | grep -c 'note\.r10')" 0
# shellcheck disable=SC2154
exit "$failed"
