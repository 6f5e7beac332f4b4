#!/usr/bin/env bash
# The packages of Debian that the gate wants beside the toolchain, a C compiler, Python and cargo.
#
#     scripts/build/packages.sh             # a line for each that is not installed
#     scripts/build/packages.sh service     # those of the service's crates, in one line
#     scripts/build/packages.sh install     # installs what is not installed, by apt-get, as root, with a network; a minute, and
#                                           # more than ten on a machine that has much else to do
#
# The gate calls `install` where CI is set, since a machine of its own may be new. What can't be installed is NOT TRIED there.
# Status 1, and a line, where something could not be installed.
set -u

readonly SERVICE="librust-clap-dev librust-nix-dev librust-sd-notify-dev librust-serde-dev librust-serde-derive-dev \
librust-serde-json-dev librust-sha2-dev librust-signal-hook-dev librust-time-dev librust-toml-dev librust-hex-dev \
librust-httparse-dev librust-prometheus-dev"
readonly LINTERS="clang-format mypy pyflakes3 shellcheck"
readonly TRIALS="chromium ffmpeg lintian pkg-config postgresql prometheus python3-coverage python3-h5py python3-numpy \
python3-pandas python3-pip python3-psycopg2 python3-setuptools python3-venv python3-wheel tshark valgrind zsh"

readonly SECONDS_OF_NETWORK=600

missing() {
    local it
    for it in $LINTERS $TRIALS $SERVICE; do
        [ "$(dpkg-query -W -f '${Status}' "$it" 2>/dev/null)" = "install ok installed" ] || echo "$it"
    done
}

case ${1:-} in
"") missing ;;
service) echo "$SERVICE" ;;
install)
    mapfile -t wanted < <(missing)
    [ "${#wanted[@]}" -gt 0 ] || exit 0
    if ! command -v apt-get >/dev/null || [ "$(id -u)" != 0 ]; then
        echo "packages: not installed, as there is no apt-get or no root here: ${wanted[*]}" >&2
        exit 1
    fi
    log=$(mktemp) && trap 'rm -f "$log"' EXIT || exit 1
    export DEBIAN_FRONTEND=noninteractive
    get() { "${@:2}" apt-get -qq -y --no-install-recommends $1 "${wanted[@]}"; }
    # A network that hangs is given up. What unpacks is not, however slow the machine: dpkg that is ended there leaves packages half
    # installed, and takes no other one before `dpkg --configure -a`. So a call that was ended there is mended first.
    {
        dpkg --configure -a
        timeout "$SECONDS_OF_NETWORK" apt-get -qq update &&
            get "install --download-only" timeout "$SECONDS_OF_NETWORK" && get install env
    } >"$log" 2>&1 </dev/null
    status=$?
    if [ "$status" = 0 ]; then
        echo "packages: installed ${wanted[*]}"
        exit
    fi
    why=$(grep -v '^$' "$log" | tail -n 1)
    [ "$status" != 124 ] || why="not fetched in $SECONDS_OF_NETWORK seconds"
    echo "packages: not installed: ${wanted[*]}: $why" >&2
    exit 1
    ;;
*)
    sed -n '/^#     scripts/s/^#     //p' "$0" >&2
    exit 2
    ;;
esac
