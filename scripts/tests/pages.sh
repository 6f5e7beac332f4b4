#!/usr/bin/env bash
# Tests of scripts/tools/pages.py: which documents an installation has, and that each of their links leads somewhere in it. In no
# time; status 1 where one fails.
set -u
# shellcheck disable=SC2154,SC2317 source=scripts/tests/kit.sh
. "$(dirname "$(readlink -f "${BASH_SOURCE[0]}")")/kit.sh"
to=$room/doc
"$top/scripts/tools/pages.py" "$to"
check "its status" is "$?" 0
check "the documents are those for users" is "$(cd "$to" && find . -name '*.md' | sort | tr '\n' ' ')" \
    "./README.md $(printf './docs/%s.md ' FORMAT LIBRARY MODEL RANGE RECORDER UNPROVED USING)"
check "the pictures of README are there" test -s "$to/docs/flight.svg" -a -s "$to/docs/pictures/data.svg"
check "so are the examples" test -s "$to/examples/first.toml"
# (links, and headings by the names that links.py gives them)
dead() {
    python3 - "$top" "$1" <<'PY'
import re, sys
from pathlib import Path
sys.dont_write_bytecode = True
sys.path.insert(0, sys.argv[1] + '/scripts/lint')
import links
for page in sorted(Path(sys.argv[2]).glob('**/*.md')):
    for to in links.LINK.findall(page.read_text(encoding='utf-8')):
        file, _, anchor = to.partition('#')
        target = page.parent / file if file else page
        if not re.match('[a-z]+:', to) and (not target.exists() or anchor and anchor not in links.anchors(target)):
            print(page.name, to)
PY
}
check "no link leads nowhere" is "$(dead "$to")" ""
check "what is left out keeps its name" is "$(grep -c ' SUPPORT: what it was tried on' "$to/README.md")" 1
check "and a line says where it is" says "$(tail -n 1 "$to/docs/UNPROVED.md")" "is part of the sources"
check "a link within the page stays" says "$(cat "$to/docs/USING.md")" "(#statuses)"
check "a wrong call" is "$("$top/scripts/tools/pages.py" 2>/dev/null; echo "$?")" 2
check "a folder that cannot be made" is "$("$top/scripts/tools/pages.py" "$to/README.md" 2>&1 | cut -c 1-7)" "pages: "
exit "$failed"
