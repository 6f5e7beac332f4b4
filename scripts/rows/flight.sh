#!/usr/bin/env bash
# The example of a flight, examples/flight.toml, and what the documents show of it.
#
#     scripts/rows/flight.sh make [PROGRAM]     draws docs/flight.svg, and prints the summary that docs/USING.md shows
#     scripts/rows/flight.sh check [PROGRAM]    sees that the setup is examples/flight.tmt, and that replies, summary and picture
#                                               are what the files have
#
# Without PROGRAM it takes the build that ./r10 would; where there is none, `check` looks at the setup alone, and says so.
set -eu

top=$(cd "$(dirname "$(readlink -f "${BASH_SOURCE[0]}")")/../.." && pwd)
script=$top/examples/flight.toml
text=$top/examples/flight.tmt

give_up() {
    echo "flight: $1" >&2
    exit 1
}

what=${1:-}
[ "$what" = make ] || [ "$what" = check ] || {
    sed -n '2,/^[^#]/s/^# \{0,1\}//p' "${BASH_SOURCE[0]}" >&2
    exit 2
}
made=$(mktemp -d)
trap 'rm -rf "$made"' EXIT

hex=$(python3 -c 'import sys; print(open(sys.argv[1], "rb").read().hex())' "$text")
[ "$(grep -c 'setup = "' "$script")" = "$(grep -c "setup = \"$hex\"" "$script")" ] ||
    give_up "a setup of examples/flight.toml is not examples/flight.tmt"

if ! program=${2:-$("$top/scripts/build/quick_build.py" --current)}; then
    # (behind `rt ci` the gate calls this with the program that was proved)
    [ -n "${R10_LATER:-}" ] || echo "flight: NOT TRIED: replies, summary and picture (no build of the program is kept)"
    exit
fi
"$program" sim --image <"$script" >"$made/flight.img"
"$top/scripts/ch10.py" svg --file 1 <"$made/flight.img" >"$made/flight.svg"
# (its first three paragraphs: the volume, the file, and what each channel has)
"$top/scripts/ch10.py" summary --file 1 <"$made/flight.img" | awk -v RS= -v ORS='\n\n' 'NR <= 3' >"$made/summary"
sed 's/^\(.\)/    \1/' "$made/summary" >"$made/shown"

if [ "$what" = make ]; then
    cp "$made/flight.svg" "$top/docs/flight.svg"
    cat "$made/shown"
    exit
fi
"$program" <"$script" | cmp - "$top/examples/flight.expected" || give_up "the replies are not examples/flight.expected"
"$top/scripts/ch10.py" setup --file 1 <"$made/flight.img" | cmp - "$text" ||
    give_up "the setup that is recorded is not examples/flight.tmt"
cmp "$made/flight.svg" "$top/docs/flight.svg" || give_up "docs/flight.svg is another picture: scripts/rows/flight.sh make"
python3 - "$made/shown" "$top/docs/USING.md" <<'PY' || give_up "docs/USING.md shows another summary: scripts/rows/flight.sh make"
import sys
shown, page = (open(it, encoding='utf-8').read() for it in sys.argv[1:])
sys.exit(shown.strip('\n') not in page)
PY
echo "flight: setup, replies, summary and picture are those of the files"
