#!/usr/bin/env bash
# Tests of scripts/build/packages.sh with stand-ins for dpkg, dpkg-query, apt-get, timeout and id. A second; status 1 where one
# fails.
set -u
# shellcheck disable=SC2016,SC2317 source=scripts/tests/kit.sh
. "$(dirname "$(readlink -f "${BASH_SOURCE[0]}")")/kit.sh"
mkdir "$room/bin"
for it in bash sed grep tail mktemp rm env; do ln -s "$(command -v "$it")" "$room/bin/$it"; done
# All are installed but those that the file `lacks` names.
cat >"$room/bin/dpkg-query" <<'IT'
#!/usr/bin/env bash
grep -qx "${*: -1}" "${0%/*}/../lacks" || printf 'install ok installed'
IT
cat >"$room/bin/apt-get" <<'IT'
#!/usr/bin/env bash
echo "${BOUND:+bound: }apt-get $*" >>"${0%/*}/../calls"
[ ! -e "${0%/*}/../fails" ] || { echo "E: no network" >&2; exit 100; }
IT
cat >"$room/bin/timeout" <<'IT'
#!/usr/bin/env bash
[ ! -e "${0%/*}/../hangs" ] || exit 124
BOUND=yes "${@:2}"
IT
cat >"$room/bin/dpkg" <<'IT'
#!/usr/bin/env bash
echo "${BOUND:+bound: }dpkg $*" >>"${0%/*}/../calls"
IT
printf '#!/usr/bin/env bash\ncat "${0%%/*}/../user"\n' >"$room/bin/id"
ln -s "$(command -v cat)" "$room/bin/cat"
chmod +x "$room/bin"/*
packages() { PATH="$room/bin" "$BASH" "$top/scripts/build/packages.sh" "$@" 2>&1; }

echo 0 >"$room/user"
: >"$room/lacks"
check "nothing is missing" is "$(packages)" ""
check "then nothing is installed" is "$(packages install; echo "$?")" "0"
check "and apt-get is not called" test ! -e "$room/calls"
printf 'zsh\nlibrust-toml-dev\n' >"$room/lacks"
check "what is missing, a line each" is "$(packages | tr '\n' ' ')" "zsh librust-toml-dev "
check "that alone is installed" is "$(packages install; echo "$?")" $'packages: installed zsh librust-toml-dev\n0'
options="-qq -y --no-install-recommends"
check "what was cut off before is mended, the network has a bound, and what unpacks has none" is "$(cat "$room/calls")" \
    "dpkg --configure -a
bound: apt-get -qq update
bound: apt-get $options install --download-only zsh librust-toml-dev
apt-get $options install zsh librust-toml-dev"
: >"$room/hangs"
check "a network that hangs is a line" is "$(packages install; echo "$?")" \
    $'packages: not installed: zsh librust-toml-dev: not fetched in 600 seconds\n1'
rm "$room/hangs"
: >"$room/fails"
check "without a network it is a line, and status 1" is "$(packages install; echo "$?")" \
    $'packages: not installed: zsh librust-toml-dev: E: no network\n1'
echo 1000 >"$room/user"
check "without root too" is "$(packages install; echo "$?")" \
    $'packages: not installed, as there is no apt-get or no root here: zsh librust-toml-dev\n1'
mkdir "$room/none"
for it in bash sed grep; do ln -s "$(command -v "$it")" "$room/none/$it"; done
printf '#!/usr/bin/env bash\nexit 1\n' >"$room/none/dpkg-query"
chmod +x "$room/none/dpkg-query"
all=$(PATH="$room/none" "$BASH" "$top/scripts/build/packages.sh" | tr '\n' ' ')
check "PostgreSQL with a driver, and a browser, are among them" is "$(for it in postgresql python3-psycopg2 chromium; do
    [[ " $all" = *" $it "* ]] || echo "$it"
done)" ""
check "the crates of the service in one line" says "$(packages service)" "librust-clap-dev librust-nix-dev"
check "recorder.sh names them" grep -q 'packages.sh" service' "$top/scripts/recorder.sh"
check "other words are refused" is "$(packages all >/dev/null; echo "$?")" "2"
# shellcheck disable=SC2154
exit "$failed"
