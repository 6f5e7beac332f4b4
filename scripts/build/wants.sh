# shellcheck shell=bash
# What the scripts beside this one want of a machine, each with the line for a machine that lacks it. Sourced.

# Ends with one line, and status 3, if there is no Python that runs the scripts here. The word is the name with which the line
# begins. A text after it says what Python does there.
want_python() {
    local made=${2:-a build is made by it}
    command -v python3 >/dev/null || {
        echo "$1: there is no python3, and $made: install Python 3.7 or newer" >&2
        exit 3
    }
    python3 -c 'import sys; sys.exit(sys.version_info < (3, 7))' 2>/dev/null || {
        echo "$1: ${made% it} Python 3.7 or newer; here is $(python3 --version 2>&1 | head -n 1)" >&2
        exit 3
    }
}

# The same for the toolchain.
want_rt() {
    command -v rt >/dev/null || {
        echo "$1: there is no rt on the path: install the toolchain, and put its folder bin on the PATH" >&2
        exit 3
    }
}

# The same for commands that a library is linked with.
want_commands() {
    local name=$1 it
    shift
    for it in "$@"; do
        command -v "$it" >/dev/null || {
            echo "$name: there is no $it: install a C compiler with its binutils (on Debian: apt-get install gcc libc6-dev)" >&2
            exit 3
        }
    done
}

# A text as it stands in the second part of a command of sed whose parts | separates.
for_sed() {
    sed 's/[|&\\]/\\&/g' <<<"$1"
}
