#!/usr/bin/env bash
# The recorder as a library for programs in C, C++ and Rust: ffi/r10.h says what it is.
#
#     scripts/ffi.sh build                       # makes crates/r10_ffi/out/libr10_ffi.a, proved, where it is not there or a source
#                                                # has changed
#     scripts/ffi.sh build --shared              # and of it, beside it, libr10.a and libr10.so, which show the names of r10.h and
#                                                # no others
#     scripts/ffi.sh install PREFIX [DESTDIR]    # puts headers, the kept library (static and shared) and r10.pc below
#                                                # DESTDIR/PREFIX: scripts/install.sh calls it. Libraries go to PREFIX/lib, or to
#                                                # the folder of PREFIX that R10_LIBDIR names
#     scripts/ffi.sh examples FOLDER             # compiles ffi/example.c and ffi/example.rs over it, into FOLDER/example_c and
#                                                # FOLDER/example_rs
#     scripts/ffi.sh random CALLS [SEED]         # random calls under the address sanitizer, a tenth of them under valgrind, and
#                                                # scripts of 1,000 beside `r10 sim`
#     scripts/ffi.sh check                       # runs both, ffi/calls.c, which calls each function, also as C++, ffi/flight.c,
#                                                # ffi/disk.c, ffi/commits.c, ffi/accounts.c, ffi/aside.c, ffi/refused.c,
#                                                # ffi/media.c, ffi/media_in_row.c, ffi/parts.c, ffi/memory.c,
#                                                # ffi/ports.c and ffi/log.c, and compares what they print
#                                                # with ffi/*.expected; ffi/port_load.c, for its sums;
#                                                # runs the rows
#     scripts/ffi.sh kept                        # prints where the library is: the proved one if it is there, else one that is not
#                                                # proved
#     scripts/ffi.sh proved                      # prints where the proved library is; status 1 if it is not there, or a source has
#                                                # changed
#     scripts/ffi.sh behind-ci                   # `rt ci`; after it `check` over its libraries, an installation of what was proved,
#                                                # the service, and sessions: the gate
#
# With --quick as the word after it, `build`, `examples` and `check` take a library that is not proved: it is made once, in some
# two minutes, and kept (scripts/build/quick_build.py). `build` prints where the library is.
#
# Without `rt ci` before it, scripts/build/build.py proves what is not proved, side by side. It wants a C compiler, `cc`; for the
# program in C++ `g++`, and for the Rust crates `cargo`, which needs no network. If one of the last two is not there, a line says
# what was not tried. `check` fails without `cc`; `behind-ci` says so in a line, and goes on. With R10_FFI_LIBRARY=FILE another
# static library is taken, and none is made: for trials.
set -u

top=$(cd "$(dirname "$(readlink -f "${BASH_SOURCE[0]}")")/.." && pwd)
crate=$top/crates/r10_ffi
library=${R10_FFI_LIBRARY:-$crate/out/libr10_ffi.a}
version=$(cat "$top/VERSION")
major=${version%%.*}

give_up() {
    echo "ffi: $1" >&2
    exit 1
}

rt=$(command -v rt) || give_up "there is no rt to build or to prove with: install the toolchain, and put its folder bin on the PATH"
# shellcheck source=scripts/build/wants.sh
. "$top/scripts/build/wants.sh"
# shellcheck source=scripts/build/about.sh
. "$top/scripts/build/about.sh"
kit=$(dirname "$(dirname "$(readlink -f "$rt")")")
quick=
if [ "${2:-}" = --quick ]; then
    quick=yes
    set -- "$1" "${@:3}"
fi
# what the library calls of the C library, through the kit
below=("$kit/c/liblibc_c.a")
[ -z "${R10_FFI_LIBRARY:-}" ] || below=("$kit/c/libos_c.a" "$kit/c/liblibc_c.a")

# A sum of all that the library is made from.
sum() {
    {
        rt version
        cd "$top" && find crates.txt crates/*/src crates/*/specs crates/*/proofs -type f -print0 | sort -z | xargs -0 sha256sum
    } | sha256sum | cut -c1-64
}

# Whether the proved library is there, and is of the sources as they stand.
is_proved() {
    [ -f "$library" ] && [ "$(cat "$library.sum" 2>/dev/null)" = "$(sum)" ]
}

build() {
    local now
    [ -z "${R10_FFI_LIBRARY:-}" ] || return 0
    want_python ffi
    if [ -n "$quick" ]; then
        library=$("$top/scripts/build/quick_build.py" --library) || exit
        return
    fi
    now=$(sum)
    [ -f "$library" ] && [ "$(cat "$library.sum" 2>/dev/null)" = "$now" ] && return 0
    mkdir -p "$crate/out"
    rm -f "$library.sum"
    if [ "${1:-}" = over-ci ]; then
        # over the libraries that `rt ci` has just left in crates/*/out, which `rt lib` would make anew
        PYTHONDONTWRITEBYTECODE=1 PYTHONPATH=$top/scripts/build python3 -c \
            'import sys, toolchain; sys.exit(toolchain.library_over_ci(sys.argv[1]))' "$crate" >"$crate/out/lib.log" 2>&1
    else
        # (what it says of a crate that is not proved is said at once)
        "$top/scripts/build/build.py" --crate r10_ffi >"$crate/out/lib.log"
    fi || {
        [ $? = 3 ] && [ "${1:-}" = over-ci ] && return 3
        tail -n 20 "$crate/out/lib.log" >&2
        give_up "the library was not made: see crates/r10_ffi/out/lib.log"
    }
    echo "$now" >"$library.sum"
}

# Of the static library a static and a shared one that show the names of the header and no others, in a folder.
share() {
    local names="$room/names"
    want_commands ffi cc ld ar nm objcopy
    sed -n 's/^\(R10_CALL \)\{0,1\}\(uint32_t\|uint64_t\|void\) \(r10_[a-z0-9_]*\)(.*/\3/p' "$top/ffi/r10.h" >"$names"
    ld -r -o "$room/all.o" --whole-archive "$library" --no-whole-archive "${below[@]}" &&
        objcopy --keep-global-symbols="$names" "$room/all.o" "$room/r10.o" &&
        rm -f "$1/libr10.a" && ar rcsD "$1/libr10.a" "$room/r10.o" &&
        cc -shared -Wl,-soname,"libr10.so.$major" -Wl,--no-undefined -Wl,-Bsymbolic -Wl,-z,now \
        -Wl,--version-script="$top/ffi/r10.map" -o "$1/libr10.so.$version" "$room/r10.o" &&
        ln -sf "libr10.so.$version" "$1/libr10.so.$major" && ln -sf "libr10.so.$major" "$1/libr10.so" ||
        give_up "libr10.a and libr10.so were not made"
    # (each has a version, and each version is a name of its own)
    nm -D --defined-only "$1/libr10.so" | awk '$2 == "T" { print $3 }' | sed '/@@R10_[0-9.]*$/s/@@.*//' | sort >"$room/shown"
    nm -g --defined-only "$1/libr10.a" | awk 'NF == 3 { print $3 }' | sort >"$room/shown_static"
    sort "$names" | diff - "$room/shown" >&2 && sort "$names" | diff - "$room/shown_static" >&2 ||
        give_up "the libraries do not show the names of ffi/r10.h and no others"
}

# Whether what is installed is proved, in words.
proved_or_not() {
    if [ -n "$quick" ] || ! is_proved; then echo "not proved"; else echo "proved"; fi
}

# Headers, libraries and r10.pc, for a prefix, in the folder that stands for it.
# The crates of the library, as a program in Rust names them by their paths.
rust_crates() {
    local it
    for it in r10 r10-sys; do
        (cd "$top/ffi/rust" && find -L "$it" -type f ! -path '*/target/*' ! -name Cargo.lock \
            -exec install -D -m 644 {} "$1/{}" \;) || return
    done
    # (the example stands beside those in C)
    install -D -m 644 "$top/ffi/example.rs" "$1/r10/examples/example.rs" && sed -i '/^\[\[example\]\]$/,$d' "$1/r10/Cargo.toml"
}

install_for() {
    local lib=$2/${R10_LIBDIR:-lib} proved toolchain
    mkdir -p "$2/include" "$lib/pkgconfig" || give_up "can't make folders in $2"
    share "$lib"
    proved=$(proved_or_not) toolchain=$(rt version)
    strip --strip-unneeded "$lib/libr10.so.$version" && chmod 644 "$lib/libr10.so.$version" &&
        put_note "$(about libr10 "$proved" "$toolchain")" "$lib/libr10.so.$version" "$lib/libr10.a" ||
        give_up "the libraries do not take their note"
    install -m 644 "$top/ffi/r10.h" "$top/ffi/r10_posix.h" "$2/include" || give_up "can't write into $2"
    rust_crates "$2/share/r10/rust" || give_up "can't write into $2"
    sed "s|@PREFIX@|$(for_sed "$1")|; s|@VERSION@|$version|; s|@LIBDIR@|$(for_sed "${R10_LIBDIR:-lib}")|; s|@PROVED@|$proved|
        s|@COMMIT@|$(commit_of)|; s|@TOOLCHAIN@|$(for_sed "$toolchain")|" "$top/ffi/r10.pc.in" >"$lib/pkgconfig/r10.pc" ||
        give_up "can't write into $2"
}

# A program in C over the library; what follows are words for the compiler.
c_example() {
    cc -std=c11 -Wall -Wextra -Werror -O2 -pthread -I"$top/ffi" -o "$2" "$top/ffi/$1" "$library" "${below[@]}" ||
        give_up "ffi/$1 does not compile"
}

# The program of threads, under the thread sanitizer, where the compiler has it: of its own code, over the shared library, which is
# not made with it.
under_threads() {
    echo 'int main(void) { return 0; }' >"$room/empty.c"
    cc -fsanitize=thread -o "$room/empty" "$room/empty.c" 2>/dev/null && "$room/empty" 2>/dev/null || {
        echo "ffi: NOT TRIED: there is no thread sanitizer to run ffi/ports.c with"
        return 0
    }
    cc -std=c11 -g -O1 -fsanitize=thread -pthread -I"$top/ffi" -o "$room/ports_threads" "$top/ffi/ports.c" -L"$1" -lr10 ||
        give_up "ffi/ports.c does not compile with the thread sanitizer"
    TSAN_OPTIONS=ignore_noninstrumented_modules=1 LD_LIBRARY_PATH=$1 "$room/ports_threads" 10000 >"$room/ports_threads.out" ||
        give_up "ports, with the thread sanitizer: status $?"
    diff <(sed 's/100000/10000/' "$top/ffi/ports.expected") "$room/ports_threads.out" >&2 ||
        give_up "what was printed with the thread sanitizer is not ffi/ports.expected"
}

# A program in a folder of its own over the crates that are installed, which prints the library's version; and both crates packed.
rust_user() {
    mkdir -p "$2/src" &&
        printf '[package]\nname = "user"\nversion = "0.1.0"\nedition = "2024"\n\n[dependencies]\nr10 = { path = "%s" }\n' \
            "$1/share/r10/rust/r10" >"$2/Cargo.toml" &&
        echo 'fn main() { println!("{}", r10::version()); }' >"$2/src/main.rs" &&
        [ "$(R10_LIB_DIR=$1/lib R10_STATIC=1 CARGO_TARGET_DIR=$room/rust_user cargo run --offline --quiet --manifest-path \
            "$2/Cargo.toml")" = "$(sed -n 's/^pub const R10_VERSION: u32 = \(.*\);/\1/p' "$top/ffi/rust/r10-sys/src/lib.rs")" ] &&
        R10_LIB_DIR=$1/lib R10_STATIC=1 CARGO_TARGET_DIR=$room/rust_user cargo package --offline --quiet --allow-dirty \
            --manifest-path "$top/ffi/rust/Cargo.toml" -p r10-sys -p r10 2>"$room/package.out" || {
        cat "$room/package.out" >&2
        return 1
    }
}

# The program in Rust over the crates of ffi/rust, without a network, over the libraries in a folder.
rust_example() {
    R10_LIB_DIR=$2 R10_STATIC=1 CARGO_TARGET_DIR=$room/rust cargo build --offline --quiet --release --manifest-path \
        "$top/ffi/rust/Cargo.toml" --example example &&
        cp "$room/rust/release/examples/example" "$1" || give_up "ffi/example.rs does not compile"
}

# Whether a compiler is there; where it is not, what that means.
has() {
    command -v "$1" >/dev/null && return 0
    [ -n "$must" ] && [ "$1" = cc ] && give_up "there is no $1 to compile ffi/$2 with"
    echo "ffi: NOT TRIED: there is no $1 to compile ffi/$2 with"
    return 1
}

# Scripts of random calls, and what `r10 sim` says of the same, but for the texts behind a refusal's number. The program is that of
# R10_PROGRAM, or the proved one.
beside_sim() {
    local program=${R10_PROGRAM:-$top/crates/r10_cli/out/r10_cli} seed
    [ -x "$program" ] || {
        echo "ffi: NOT TRIED: there is no program to set random calls beside"
        return 0
    }
    for ((seed = $1; seed < $1 + $2; seed++)); do
        "$room/random" "$seed" 1000 "$room/script" "$room/replies" >/dev/null || give_up "random $seed: status $?"
        "$program" sim <"$room/script" | sed 's/^\([0-9]* refused [0-9]*\) .*/\1/' | diff "$room/replies" - >&2 ||
            give_up "random $seed: r10 sim says something else"
    done
    echo "ffi: $2 scripts of 1,000 random calls come to the same in r10 sim"
}

# The rows, through the program of R10_PROGRAM, or the proved one, as LLVM and as Rattle's own compiler built it. Files are judged
# under a directory entry through the library.
rows() {
    local program=${R10_PROGRAM:-$top/crates/r10_cli/out/r10_cli} build
    [ -x "$program" ] || {
        echo "ffi: NOT TRIED: there is no program to run the rows through"
        return 0
    }
    c_example first_fault.c "$room/first_fault"
    for build in "$program" "$program.by-rattle"; do
        [ -x "$build" ] || {
            [ -n "${R10_PROGRAM:-}" ] || echo "ffi: NOT TRIED: there is no ${build##*/} to run the rows through"
            continue
        }
        "$top/scripts/rows/run_rows.py" "$build" --first-fault "$room/first_fault" >"$room/rows" 2>&1 || {
            cat "$room/rows" >&2
            give_up "what ${build##*/} prints is not rows/answers"
        }
        echo "ffi: rows through ${build##*/}: $(tail -n 1 "$room/rows")"
    done
    "$top/scripts/rows/play_cases.py" compare "$program" >"$room/compared" || {
        cat "$room/compared" >&2
        give_up "r10 play and the reader of the standard print other entries"
    }
    echo "ffi: r10 play beside the reader of the standard: $(tail -n 1 "$room/compared")"
}

random() {
    c_example random.c "$room/random"
    cc -std=c11 -g -O1 -fsanitize=address,undefined -fno-sanitize-recover=all -I"$top/ffi" -o "$room/random_asan" \
        "$top/ffi/random.c" "$library" "${below[@]}" || give_up "ffi/random.c does not compile"
    "$room/random_asan" "$2" "$1" || give_up "random, with the address sanitizer: status $?"
    if command -v valgrind >/dev/null; then
        valgrind -q --error-exitcode=99 --leak-check=full "$room/random" "$2" $(($1 / 10)) ||
            give_up "random, under valgrind: status $?"
    else
        echo "ffi: NOT TRIED: there is no valgrind"
    fi
    beside_sim "$2" 100
}

# Whether what a run printed is what stands in the file.
compare() {
    diff "$top/ffi/$1" "$2" >&2 || give_up "what was printed is not ffi/$1"
}

# What example.c says, without the number of operations that it came to.
without_operations() {
    sed 's/ at [0-9]*$//'
}

check() {
    local kind
    if has cc example.c; then
        c_example example.c "$room/example_c"
        c_example calls.c "$room/calls"
        c_example flight.c "$room/flight"
        {
            "$room/example_c" "$room/medium" 0 1000 100 && "$room/example_c" "$room/medium" 1 250 100
        } >"$room/c.said" || give_up "example_c: status $?"
        without_operations <"$room/c.said" >"$room/c.out"
        compare example_c.expected "$room/c.out"
        "$top/scripts/tools/judge_image.py" files <"$room/medium" >"$room/files.out"
        compare example_files.expected "$room/files.out"
        "$top/scripts/tools/judge_image.py" check <"$room/medium" >"$room/verdicts.out"
        compare example_verdicts.expected "$room/verdicts.out"
        "$room/calls" >"$room/calls.out" || give_up "calls: status $?"
        compare calls.expected "$room/calls.out"
        "$room/flight" 40 100000 >"$room/flight.out" || give_up "flight: status $?"
        compare flight.expected "$room/flight.out"
        c_example disk.c "$room/disk"
        "$room/disk" "$room/disk.medium" >"$room/disk.out" || give_up "disk: status $?"
        compare disk.expected "$room/disk.out"
        "$top/scripts/trials/disk_log.py" 2 "$room/logged" "$room/example_c" "$room/logged" 0 1000 100 ||
            give_up "example_c does not sync what it writes in the right places"
        c_example commits.c "$room/commits"
        "$room/commits" >"$room/commits.out" || give_up "commits: status $?"
        compare commits.expected "$room/commits.out"
        for trial in accounts aside refused media media_in_row parts memory ports; do
            c_example "$trial.c" "$room/$trial"
            "$room/$trial" >"$room/$trial.out" || give_up "$trial: status $?"
            compare "$trial.expected" "$room/$trial.out"
        done
        c_example log.c "$room/log"
        "$room/log" "$room/log.medium" >"$room/log.out" || give_up "log: status $?"
        compare log.expected "$room/log.out"
        "$top/scripts/ch10.py" summary <"$room/log.medium" >"$room/log.summary" &&
            grep -qx 'channel 5: 3 messages were lost after its last one' "$room/log.summary" &&
            grep -qx 'clock of its times: .* says a clock without GPS' "$room/log.summary" || {
            cat "$room/log.summary" >&2
            give_up "ch10 summary does not read the log channel of ffi/log.c"
        }
        c_example port_load.c "$room/port_load"
        { "$room/port_load" feeds 20000 8 && "$room/port_load" slow 1; } >"$room/port_load.out" || give_up "port_load: status $?"
        c_example random.c "$room/random"
        "$room/random" 1 50000 >"$room/random.out" || give_up "random: status $?"
        beside_sim 1 5
        rows
        echo "ffi: the programs in C print what they are to"
        install_for "$room/installed" "$room/installed"
        under_threads "$room/installed/lib"
        if has g++ calls.c; then
            # as C++, over the shared library, found by pkg-config where that is there
            local words="-I$room/installed/include -L$room/installed/lib -lr10"
            if command -v pkg-config >/dev/null; then
                words=$(PKG_CONFIG_PATH=$room/installed/lib/pkgconfig pkg-config --cflags --libs r10) ||
                    give_up "pkg-config does not find r10"
            fi
            # shellcheck disable=SC2086
            g++ -std=c++17 -Wall -Wextra -Werror -O2 -x c++ "$top/ffi/calls.c" -o "$room/calls_cc" $words ||
                give_up "ffi/calls.c does not compile as C++"
            LD_LIBRARY_PATH=$room/installed/lib "$room/calls_cc" >"$room/calls_cc.out" || give_up "calls, as C++: status $?"
            compare calls.expected "$room/calls_cc.out"
            echo "ffi: as C++ over libr10.so they print the same"
        fi
        if has cargo example.rs; then
            rust_example "$room/example_rs" "$room/installed/lib"
            for kind in --tests --doc; do
                R10_LIB_DIR=$room/installed/lib R10_STATIC=1 CARGO_TARGET_DIR=$room/rust cargo test --offline --quiet --release \
                    --manifest-path "$top/ffi/rust/Cargo.toml" "$kind" >"$room/rust.out" 2>&1 || {
                    tail -n 40 "$room/rust.out" >&2
                    give_up "a test of ffi/rust failed ($kind)"
                }
            done
            # what is installed is used by a program elsewhere, and is what cargo packs
            rust_user "$room/installed" "$room/user" || give_up "a program over the installed crates does not run: see above"
            "$room/example_rs" 1000 100 >"$room/rs.out" || give_up "example_rs: status $?"
            compare example_rs.expected "$room/rs.out"
            "$room/example_rs" 1000 100 "$room/medium_rs" >"$room/rs.out" || give_up "example_rs over a file: status $?"
            { grep -v '^the disk' "$top/ffi/example_rs.expected" | diff - "$room/rs.out"; } >&2 ||
                give_up "what was printed over a file is not ffi/example_rs.expected"
            "$top/scripts/trials/disk_log.py" 2 "$room/logged_rs" "$room/example_rs" 1000 100 "$room/logged_rs" ||
                give_up "example_rs does not sync what it writes in the right places"
            "$top/scripts/tools/judge_image.py" check <"$room/medium_rs" >"$room/verdicts_rs.out"
            [ "$(cat "$room/verdicts_rs.out")" = "FLT1 strict" ] || give_up "what example_rs leaves is not strict"
            echo "ffi: the program in Rust prints what it is to"
        fi
    fi
}

# All lines but the last, and that one into a file.
but_the_last() {
    local line last='' is_first=1
    while IFS= read -r line || [ -n "$line" ]; do
        [ -n "$is_first" ] || printf '%s\n' "$last"
        is_first='' last=$line
    done
    printf '%s\n' "$last" >"$1"
}

# The program that `rt ci` proved makes what USING shows of the example of a flight. It and the library are installed and packaged,
# and tried where they were put.
installed() {
    local program=$top/crates/r10_cli/out/r10_cli
    if ! [ -x "$program" ] || ! is_proved; then
        echo "ffi: NOT TRIED: an installation: rt ci left no program or library"
        return
    fi
    "$top/scripts/rows/flight.sh" check "$program" || return 1
    "$top/scripts/trials/ch10_mend.py" check "$program" || return 1
    R10_BUILDS=$room/builds "$top/scripts/build/quick_build.py" --proved "$program" &&
        R10_BUILDS=$room/builds "$top/scripts/build/quick_build.py" --survey --proved "$top/crates/r10_surveyor/out/r10_surveyor" ||
        return 1
    over_builds install "installation and package of what was proved" &&
        over_builds program "readers and writers that fail, a long script, and a large medium" &&
        over_builds survey "lines and status of r10-survey" &&
        over_builds words "rows, help, and the lines that help shows" &&
        over_builds first_hour "odd folders, wrong inputs, outputs that take nothing"
}

# Keeps the program that this gate proved, so that ./r10 runs it, where its sources are those of the gate's beginning.
keep_proved() {
    "$top/scripts/build/quick_build.py" --proved "$top/crates/r10_cli/out/r10_cli" --of "$1" --since "$2" &&
        "$top/scripts/build/quick_build.py" --survey --proved "$top/crates/r10_surveyor/out/r10_surveyor" --of "$3" --since "$2" &&
        echo "ffi: ./r10 runs the program that was proved"
}

# Runs a test of the folder over the builds that were proved, and says how many checks there were.
over_builds() {
    local fault=
    [ ! -x "$room/first_fault" ] || fault=$room/first_fault
    R10_BUILDS=$room/builds R10_FIRST_FAULT=$fault "$top/scripts/tests/$1.sh" >"$room/$1.out" 2>&1 || {
        grep -v '^ok: ' "$room/$1.out" >&2
        return 1
    }
    grep '^NOT TRIED' "$room/$1.out"
    echo "ffi: $2: $(grep -c '^ok: ' "$room/$1.out") checks pass"
}

# Hands on what `rt ci` prints. When it has proved the library's crate, and there is memory beside its provers, the library is made
# at the same time as the rest is proved. It is waited for at the end.
make_meanwhile() {
    local line making=''
    while IFS= read -r line || [ -n "$line" ]; do
        printf '%s\n' "$line"
        if [[ -z $making && $line == 'rt: r10_ffi '@(proved|'is kept: '*) ]] && [ "$spare" -ge "${RT_JOBS:-1}" ]; then
            (build over-ci) >"$room/made" 2>&1 &
            making=$!
        fi
    done
    [ -z "$making" ] || wait "$making" || :
}

# The run's last line and status are those of `rt ci`. A program that does not print what it is to is one more that failed, and so
# are sessions of the program that do not end, or whose accounts do not add up. So is an edit of the gate that its clause does not
# refuse: these are tried over the same libraries, beside the programs.
behind_ci() {
    local status last spare made service edits began of of_survey
    began=$(date +%s.%N)
    of=$("$top/scripts/build/quick_build.py" --named) || of=
    of_survey=$("$top/scripts/build/quick_build.py" --survey --named) || of_survey=
    spare=$("$top/scripts/build/provers.py" --beside 3000000000)
    (cd "$top" && exec rt ci) | make_meanwhile | but_the_last "$room/last"
    status=${PIPESTATUS[0]}
    last=$(cat "$room/last")
    if [ "$status" = 0 ]; then
        (build over-ci)
        made=$?
        # the service is tried beside the programs
        R10=$top/crates/r10_cli/out/r10_cli "$top/scripts/recorder.sh" check >"$room/service" 2>&1 &
        service=$!
        "$top/scripts/proofs/slips.py" --gate --behind-ci --lanes "${RT_JOBS:-1}" >"$room/edits" 2>&1 &
        edits=$!
        case $made in
        0) (check) || status=1 ;;
        3) echo "ffi: NOT TRIED: rt ci left no libraries to make r10_ffi over" ;;
        *) status=1 ;;
        esac
        wait "$service" || status=1
        cat "$room/service"
        wait "$edits" || status=1
        grep -v '^refused: \|^refused by \|^#' "$room/edits"
        installed || status=1
        "$top/scripts/trials/hammer.py" --gate || status=1
        "$top/scripts/trials/refuse_memory.py" || status=1
        [ "$status" != 0 ] || keep_proved "$of" "$began" "$of_survey"
        [ "$status" = 0 ] || last=$(sed 's/^\([0-9]* passed, \)[0-9]* failed/\11 failed/' "$room/last")
    fi
    printf '%s\n' "$last"
    return "$status"
}

must=1
room=$(mktemp -d 2>/dev/null) || give_up "no folder can be made in ${TMPDIR:-/tmp}; TMPDIR names another"
trap 'rm -rf "$room"' EXIT
case ${1:-} in
build)
    build
    if [ "${2:-}" = --shared ]; then
        share "$(dirname "$library")"
    fi
    echo "$library"
    ;;
kept)
    is_proved || quick=yes
    build
    echo "$library"
    ;;
proved)
    is_proved && echo "$library"
    ;;
install)
    [[ ${2:-} = /* ]] || give_up "below which folder? scripts/ffi.sh install /PREFIX [DESTDIR]"
    if ! is_proved && [ -z "${R10_FFI_LIBRARY:-}" ]; then
        quick=yes
        echo "(the library that is installed is not proved: scripts/ffi.sh build makes the proved one)" >&2
    fi
    build
    install_for "${2%/}" "${3:-}${2%/}"
    ;;
examples)
    [ -d "${2:-}" ] || give_up "into which folder? scripts/ffi.sh examples FOLDER"
    has cc example.c
    build
    c_example example.c "$2/example_c"
    if has cargo example.rs; then
        share "$room"
        rust_example "$2/example_rs" "$room"
    fi
    ;;
random)
    [[ ${2:-} =~ ^[1-9][0-9]*$ ]] || give_up "how many? scripts/ffi.sh random CALLS [SEED]"
    build
    random "$2" "${3:-1}"
    ;;
check)
    build
    check
    ;;
behind-ci)
    must=
    behind_ci
    ;;
*)
    sed -n '2,/^[^#]/s/^# \{0,1\}//p' "${BASH_SOURCE[0]}" >&2
    exit 2
    ;;
esac
