#!/usr/bin/env bash
# Tests of what a stranger meets first: odd folders, a machine that lacks something, inputs that are no scripts, outputs that take
# nothing. Each is one clear line, and no program's own trace. With a stand-in for the toolchain, and over the build that is kept;
# some twenty seconds. Status 1 where one fails.
set -u
# shellcheck disable=SC2016,SC2154,SC2317 source=scripts/tests/kit.sh
. "$(dirname "$(readlink -f "${BASH_SOURCE[0]}")")/kit.sh"
sources=$top
kit="$room/a kit"
make_kit "$kit"
with=$kit/bin:$PATH
builds=${R10_BUILDS:-$top/out/builds}
unset R10_BUILDS R10_LANES

# Runs a command; what it prints goes to $said, to $errors, and its status to $status.
run() {
    said=$("$@" 2>"$room/errors" </dev/null)
    status=$?
    errors=$(cat "$room/errors")
}
lines() { if [ -z "$1" ]; then echo 0; else wc -l <<<"$1"; fi; }
# One line on standard error, with these words in it, and this status.
one_line() {
    check "$1: one line" is "$(lines "$errors") $status" "1 $2"
    check "$1: that says what is wrong" says "$errors" "$3"
}

# ---- where the sources lie, and in which language

for folder in "a f\xc3\xb6lder" "a f\xf6lder" "it's (a) \$folder"; do
    at=$room/$(printf %b "$folder")
    make_checkout "$at"
    for locale in "LANG=C LC_ALL=" "LC_ALL=C.UTF-8"; do
        rm -rf "$at/out"
        # shellcheck disable=SC2086
        run env -u HOME PATH="$with" $locale "$at/r10" a
        check "in a folder named '$folder', $locale: it builds and runs" is "$status $said" "0 first: a"
        # shellcheck disable=SC2086
        run env -u HOME PATH="$with" $locale "$at/r10" b
        check "the second call says nothing" is "$said$errors" "first: b"
        # shellcheck disable=SC2086
        run env PATH="$with" $locale "$at/scripts/build/quick_build.py"
        check "it says where the build is" test -x "$said"
    done
    git init -q "$at"
    run env PATH="$with" LC_ALL=C "$at/scripts/build.sh" 1
    check "in a folder named '$folder' it proves" is "$status$errors" "0"
    check "and runs what was proved" is "$(PATH=$with "$at/r10" 2>&1)" "proved"
    rm -rf "$at"
done

at="$room/a folder"
make_checkout "$at"
cp -r "$sources/VERSION" "$sources/ffi" "$sources/ch10" "$at"
mkdir "$room/by name"
run env -C "$at" PATH="$with" R10_BUILDS="../by name" ./r10 a
check "R10_BUILDS may be a name from here" is "$status $said" "0 first: a"
check "where the build is then" is "$(find "$room/by name" -name 'quick-*' | wc -l)" 1

# ---- what a machine lacks

mkdir "$room/all" "$room/old"
ln -s /usr/bin/* "$room/all" 2>/dev/null
ln -sf /bin/* "$room/all" 2>/dev/null
rm -f "$room/all"/python3* "$room/all"/rt
# shellcheck disable=SC2016
printf '#!/bin/sh\n[ "$1" != --version ] || { echo "Python 3.6.9"; exit; }\nexit 1\n' >"$room/old/python3"
chmod +x "$room/old/python3"
for call in r10 scripts/build.sh "scripts/ffi.sh build --quick" "scripts/install.sh $room/nowhere" "scripts/deb.sh $room"; do
    read -ra words <<<"$call"
    rm -rf "$at/out"
    run env PATH="$kit/bin:$room/all" "$at/${words[0]}" "${words[@]:1}"
    one_line "${words[0]} without python3" 3 "there is no python3"
    run env PATH="$kit/bin:$room/old:$room/all" "$at/${words[0]}" "${words[@]:1}"
    one_line "${words[0]} with a Python of 3.6" 3 "Python 3.7 or newer; here is Python 3.6.9"
done
run env PATH="$room/all" "$at/scripts/ffi.sh" build --quick
one_line "scripts/ffi.sh without rt" 1 "there is no rt"
run env PATH="$room/all" "$at/scripts/ch10.py" --version
one_line "scripts/ch10.py without python3" 3 "there is no python3"

# The gate, the linters and the tests of the scripts, in a checkout with stand-ins for most of what they call.
gate=$room/gate
mkdir -p "$gate/.ci"
cp "$sources/.ci/run" "$gate/.ci"
take_scripts "$gate" build/{wants,side_by_side}.sh lint/lint.sh tests/{all,kit}.sh
for it in tests/one.sh build/{packages,count_untried}.sh ffi.sh; do
    printf '#!/usr/bin/env bash\npython3 - <<<pass || python3 - <<<pass\n' >"$gate/scripts/$it"
    chmod +x "$gate/scripts/$it"
done
for call in .ci/run scripts/lint/lint.sh scripts/tests/all.sh; do
    run env -u CI PATH="$kit/bin:$room/all" "$gate/$call"
    one_line "$call without python3" 3 "there is no python3"
    run env -u CI PATH="$kit/bin:$room/old:$room/all" "$gate/$call"
    one_line "$call with a Python of 3.6" 3 "checks are made by Python 3.7 or newer; here is Python 3.6.9"
done
ln -s "$(command -v python3)" "$room/all/python3"
run env -u CI PATH="$room/all" "$gate/.ci/run"
one_line ".ci/run without rt" 3 "there is no rt on the path"
rm "$room/all/python3"
for tool in cc ld objcopy; do
    rm -rf "$room/fewer"
    cp -rP "$room/all" "$room/fewer"
    ln -s "$(command -v python3)" "$room/fewer/python3"
    rm -f "$room/fewer/$tool"
    run env PATH="$kit/bin:$room/fewer" "$at/scripts/install.sh" "$room/nowhere"
    one_line "scripts/install.sh without $tool" 3 "there is no $tool: install a C compiler"
    check "and nothing is changed" test ! -e "$room/nowhere"
done
rm -f "$room/fewer/gcc" "$room/fewer/dpkg-architecture"
run env PATH="$kit/bin:$room/fewer" "$at/scripts/deb.sh" "$room"
one_line "scripts/deb.sh without gcc" 3 "there is no gcc: install a C compiler"
run env PATH="$room/fewer" "$at/scripts/ch10.py" --version
check "the filters run without rt and without cc" is "$status $said" "0 ch10 $(cat "$at/VERSION")"
run env PATH="$with" TMPDIR="$room/nowhere" "$at/scripts/ffi.sh" kept
one_line "scripts/ffi.sh without a folder for what is in between" 1 "TMPDIR names another"

# What runs for a user is Python 3.7: its grammar, and no call that came later.
cat >"$room/grammar.py" <<'PY'
import ast, re, sys
LATER = re.compile(r'missing_ok|\.remove(prefix|suffix)\(|functools\.cache\b|math\.(prod|dist|isqrt|lcm)\b|zip\([^)]*strict=')
for path in sys.argv[1:]:
    text = open(path, encoding='utf-8').read()
    ast.parse(text, path, feature_version=(3, 7))
    for number, line in enumerate(text.split('\n'), 1):
        if LATER.search(line):
            sys.exit('%s:%d: %s' % (path, number, line.strip()))
PY
check "what a user runs is Python 3.7" python3 "$room/grammar.py" "$sources"/ch10/*.py \
    "$sources"/scripts/ch10.py "$sources"/scripts/tools/*.py "$sources"/scripts/build/{quick_build,build,rt_once}.py \
    "$sources"/scripts/rows/{play_cases,check_cases,made_kinds}.py

check "what Python keeps beside them is no change of the repository" grep -qx '__pycache__/' "$sources/.gitignore"

# One of that name would be taken in place of Python's: a driver of PostgreSQL met `numbers`. (Python has the list from 3.10 on.)
cat >"$room/names.py" <<'PY'
import pathlib, sys
names = getattr(sys, 'stdlib_module_names', ())
sys.exit(', '.join(it.name for it in pathlib.Path(sys.argv[1]).glob('*.py') if it.stem in names) or 0)
PY
for folder in scripts $(cd "$sources" && printf "%s " scripts/*/) recorder/tests; do
    check "no script of $folder has the name of a module of Python" python3 "$room/names.py" "$sources/$folder"
done

# ---- folders that take nothing

if [ "$(id -u)" = 0 ] && mkdir "$room/shut" && mount -t tmpfs tmpfs "$room/shut" 2>/dev/null; then
    make_checkout "$room/shut/top"
    git init -q "$room/shut/top"
    mount -o remount,ro "$room/shut"
    run env PATH="$with" "$room/shut/top/r10"
    one_line "./r10 in a folder that is read-only" 3 "R10_BUILDS names another folder"
    run env PATH="$with" R10_BUILDS="$room/elsewhere" "$room/shut/top/r10" a
    check "with R10_BUILDS it builds and runs" is "$status $said" "0 first: a"
    run env PATH="$with" "$room/shut/top/scripts/build.sh" 1
    one_line "scripts/build.sh in a folder that is read-only" 3 "Read-only file system"
    umount "$room/shut"
    mount -t tmpfs -o size=200k tmpfs "$room/shut"
    run env PATH="$with" R10_LANES="$room/shut/lanes" "$at/scripts/build.sh" 1
    [ "$status" = 0 ] || one_line "scripts/build.sh on a full disk" 3 "No space left"
    umount "$room/shut"
else
    echo "NOT TRIED: folders that take nothing (no mount here)"
fi

# ---- outputs that take nothing, of the scripts

rm -rf "$at/out"
PATH=$with "$at/scripts/build/quick_build.py" >/dev/full 2>"$room/errors"
status=$? errors=$(tail -n 1 "$room/errors")
one_line "scripts/build/quick_build.py onto a full disk" 3 "cannot write: No space left on device"
PATH=$with "$at/scripts/build/quick_build.py" >&- 2>"$room/errors"
status=$? errors=$(cat "$room/errors")
one_line "scripts/build/quick_build.py without standard output" 3 "cannot write: standard output is closed"
rm -rf "$at/out"
PATH=$with "$at/r10" a >"$room/said" 2>/dev/full
check "where standard error takes nothing, it builds all the same" is "$? $(cat "$room/said")" "0 first: a"
git init -q "$at"
rm -rf "$at/out" "$at"/crates/*/out
PATH=$with "$at/scripts/build.sh" 1 >/dev/full 2>"$room/errors"
status=$? errors=$(cat "$room/errors")
one_line "scripts/build.sh onto a full disk" 3 "cannot write: No space left on device"
PATH=$with "$at/scripts/build.sh" 1 2>"$room/errors" | true
check "scripts/build.sh, where nobody reads, ends without a word" is "$(cat "$room/errors")" ""

# ---- the program and the filters, over the build that is kept

program=${1:-$(R10_BUILDS=$builds "$sources/scripts/build/quick_build.py" --current)} || {
    no_build "the program"
    exit "$failed"
}
first=$sources/examples/first.toml
"$program" sim --image <"$first" >"$room/medium.img"
head -c 100000 /dev/urandom >"$room/binary"
: >"$room/empty"
# Runs a command on an input.
on() {
    said=$("${@:2}" 2>"$room/errors" <"$1")
    status=$?
    errors=$(cat "$room/errors")
}
on "$room/empty" "$program"
one_line "r10 on an empty script" 2 "the script is empty"
on "$room/binary" "$program"
one_line "r10 on a script of random bytes" 2 "r10: "
check "which has no odd byte" is "$(tr -d '[:print:]\n' <"$room/errors")" ""
for command in "" files play check run; do
    # shellcheck disable=SC2086
    on / "$program" $command
    one_line "r10 $command on a folder" 3 "cannot read: "
    # shellcheck disable=SC2086
    on "$first" "$program" $command --image-of
    one_line "r10 $command with an unknown option" 2 "unexpected argument '--image-of' found"
done
"$program" <"$first" >/dev/full 2>"$room/errors"
status=$? errors=$(cat "$room/errors")
one_line "r10 onto a full disk" 3 "cannot write: "
"$program" <"$first" >&- 2>"$room/errors"
status=$? errors=$(cat "$room/errors")
one_line "r10 without standard output" 3 "cannot write: "
"$program" <&- 2>"$room/errors" >/dev/null
status=$? errors=$(cat "$room/errors")
one_line "r10 without standard input" 3 "cannot read: "
on "$first" "$program" --image
one_line "r10 --image" 2 "r10 sim --image < SCRIPT"
on "$first" "$program" --channel 5
one_line "r10 --channel" 2 "r10 play --channel"
check "no line of help has more than 80 columns" is "$(for command in "" sim run format files play check; do
    # shellcheck disable=SC2086
    "$program" $command --help
done | awk 'length > 80')" ""

ch10=$sources/scripts/ch10.py
for command in summary csv "file FLT1"; do
    # shellcheck disable=SC2086
    {
        on "$room/empty" env LC_ALL=C "$ch10" $command
        one_line "ch10 $command of nothing" 1 "ch10: "
        on "$room/binary" env LC_ALL=C "$ch10" $command
        one_line "ch10 $command of random bytes" 1 "ch10: "
        "$ch10" $command <"$room/medium.img" >/dev/full 2>"$room/errors"
        status=$? errors=$(cat "$room/errors")
        one_line "ch10 $command onto a full disk" 3 "No space left on device"
        "$ch10" $command <"$room/medium.img" >&- 2>"$room/errors"
        status=$? errors=$(cat "$room/errors")
        one_line "ch10 $command without standard output" 3 "standard output is closed"
        "$ch10" $command <&- >/dev/null 2>"$room/errors"
        status=$? errors=$(cat "$room/errors")
        one_line "ch10 $command without standard input" 3 "standard input is closed"
    }
done

# Of a judge a status 1 is a judgement, and nothing else is one.
for judge in judge_recording.py "judge_image.py files" read_chapter10.py; do
    read -ra words <<<"$judge"
    words[0]=$sources/scripts/tools/${words[0]}
    "${words[@]}" <"$room/medium.img" >/dev/full 2>"$room/errors"
    status=$? errors=$(cat "$room/errors")
    one_line "$judge onto a full disk" 3 "No space left on device"
    "${words[@]}" <"$room/medium.img" >&- 2>"$room/errors"
    status=$? errors=$(cat "$room/errors")
    one_line "$judge without standard output" 3 "standard output is closed"
    "${words[@]}" <&- >/dev/null 2>"$room/errors"
    status=$? errors=$(cat "$room/errors")
    one_line "$judge without standard input" 3 "standard input is closed"
    # (once what was written first has been read, the rest is written)
    found=$(python3 - "$room/medium.img" "${words[@]}" <<'PY'
import contextlib, fcntl, os, subprocess, sys, termios, time
reader, writer = os.pipe()
os.set_blocking(reader, False)
child = subprocess.Popen(sys.argv[2:], stdin=reader, stdout=subprocess.PIPE, stderr=subprocess.STDOUT)
data = open(sys.argv[1], 'rb').read()
os.write(writer, data[:2000])
while fcntl.ioctl(reader, termios.FIONREAD, bytes(4)) != bytes(4):
    time.sleep(0.01)
os.close(reader)
with contextlib.suppress(BrokenPipeError), open(writer, 'wb') as it:
    it.write(data[2000:])
sys.stdout.buffer.write(child.communicate()[0])
PY
    )
    check "$judge reads an input to its end that is set not to wait" is "$found" "$("${words[@]}" <"$room/medium.img" 2>&1)"
    mkfifo "$room/nothing"
    # (a shell that is not one of a terminal has what runs beside it ignore an interrupt)
    status=$(python3 - "${words[@]}" 3<>"$room/nothing" 2>"$room/errors" <<'PY'
import fcntl, os, signal, subprocess, sys, termios, time
signal.signal(signal.SIGINT, signal.SIG_DFL)
child = subprocess.Popen(sys.argv[1:], stdin=3, stdout=subprocess.DEVNULL)
os.write(3, b'%')
while fcntl.ioctl(3, termios.FIONREAD, bytes(4)) != bytes(4) and child.poll() is None:
    time.sleep(0.01)
child.send_signal(signal.SIGINT)
print(child.wait())
PY
)
    check "$judge that is interrupted says nothing" is "$status $(cat "$room/errors")" "130 "
    rm "$room/nothing"
done
for wrong in "play --file x" "play --file -1" "play --file" "play --chan 5" "mount x"; do
    # shellcheck disable=SC2086
    on "$room/medium.img" "$sources/scripts/tools/judge_image.py" $wrong
    one_line "judge_image.py $wrong" 2 "judge_image: "
done
on "$room/medium.img" "$sources/scripts/tools/read_chapter10.py" --file 9
one_line "read_chapter10.py of a file that is not there" 1 "the image has no file 9; it has 1"
"$sources/scripts/tools/tour.py" "$program" 2>"$room/errors" | head -n 1 >/dev/null
check "a tour that nobody reads ends without a word" is "$(cat "$room/errors")" ""
"$sources/scripts/tools/tour.py" "$program" >/dev/full 2>"$room/errors"
status=$? errors=$(cat "$room/errors")
one_line "a tour onto a full disk" 3 "cannot write: No space left on device"
printf '#!/bin/sh\necho >"%s"\nexec sleep 60\n' "$room/began" >"$room/slow"
chmod +x "$room/slow"
status=$(python3 - "$sources/scripts/tools/tour.py" "$room/slow" "$room/began" 2>"$room/errors" <<'PY'
import os, signal, subprocess, sys, time
signal.signal(signal.SIGINT, signal.SIG_DFL)
child = subprocess.Popen(sys.argv[1:3], stdout=subprocess.DEVNULL, start_new_session=True)
while not os.path.exists(sys.argv[3]) and child.poll() is None:
    time.sleep(0.01)
os.killpg(child.pid, signal.SIGINT)
print(child.wait())
PY
)
check "a tour that is interrupted ends without a word" is "$status $(cat "$room/errors")" "130 "
exit "$failed"
