# shellcheck shell=bash disable=SC2154
# What a build says of itself: a line, and the same line as a note in its file. Sourced; $top is the folder of the sources.
#
# The note is of the form that ELF gives notes, in the section .note.r10, and no part of what is loaded. `readelf -p .note.r10 FILE`
# prints it. It is put into files after they are linked, so that nothing is proved again for another commit.

# The commit of the sources, and whether a file was changed since; "not known" where they are in no repository of their own.
commit_of() {
    local at
    at=$(git -C "$top" rev-parse --show-toplevel 2>/dev/null) && [ "$at" -ef "$top" ] || {
        echo "not known"
        return
    }
    git -C "$top" describe --always --abbrev=40 --exclude='*' --dirty=' with changes' 2>/dev/null || echo "not known"
}

# When that commit was made, in seconds since 1970; SOURCE_DATE_EPOCH names another time; 0 where neither is known.
time_of() {
    [ -z "${SOURCE_DATE_EPOCH:-}" ] || {
        echo "$SOURCE_DATE_EPOCH"
        return
    }
    [ "$(commit_of)" != "not known" ] && git -C "$top" log -1 --format=%ct || echo 0
}

# The line about a build: about NAME PROVED TOOLCHAIN, where PROVED is `proved` or `not proved`.
about() {
    echo "$1 $(cat "$top/VERSION") ($2), commit $(commit_of), toolchain $3"
}

# Puts a line into files as their note, in place of the one that they have: put_note LINE FILE..
put_note() {
    local note status
    note=$(mktemp) || return
    python3 - "$1" >"$note" <<'PY' &&
import struct, sys
text = sys.argv[1].encode('utf-8', 'surrogateescape') + b'\0'
sys.stdout.buffer.write(struct.pack('<III', 4, len(text), 1) + b'r10\0' + text + bytes(-len(text) % 4))
PY
        put_section "$note" "${@:2}"
    status=$?
    rm -f "$note"
    return "$status"
}

put_section() {
    local file
    for file in "${@:2}"; do
        objcopy -D --remove-section .note.r10 --add-section ".note.r10=$1" "$file" || return
    done
}
