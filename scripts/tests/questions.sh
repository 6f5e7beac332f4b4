#!/usr/bin/env bash
# Twenty questions of strangers, and whether the page that answers each still does: a page to which README leads by a link, with
# these words in it. A page that is written anew may answer in others: change them here. In no time; status 1 where one fails.
set -u
# shellcheck disable=SC2016,SC2317 source=scripts/tests/kit.sh
. "$(dirname "$(readlink -f "${BASH_SOURCE[0]}")")/kit.sh"

# answers TREE PAGE WORDS: README of that tree has a link to the page, and the page has these words, however its lines are broken.
answers() {
    local flat
    grep -qF -e "($2)" -e "($2#" "$1/README.md" || { echo "    README.md has no link to $2"; return 1; }
    flat=$(tr -s '[:space:]' ' ' <"$1/$2")
    [[ $flat == *"$3"* ]] || { echo "    $2 does not have: $3"; return 1; }
}

asked=0
while IFS=';' read -r who question page words; do
    check "$who: $question" answers "$top" "$page" "$words"
    asked=$((asked + 1))
done <<'QUESTIONS'
crew;The page shows FULL: what do I do?;docs/RECORDER.md;copy the medium, `.ERASE`, `.RECORD`
crew;The power failed: what is lost, and does it go on?;docs/RECORDER.md;The next start closes the cut-off file and begins another
crew;How do I take a recording out?;docs/RECORDER.md;`ch10 file FLT1 < medium > FLT1.ch10`, also while it records
crew;Which channel lost messages, when and why?;docs/RECORDER.md;While it records: the column *lost* of `watch`
engineer;Does it take PCM or video?;docs/RECORDER.md;Does it take PCM, video or Ethernet frames? | No
engineer;How far may a time be off, and who knows it?;docs/RECORDER.md;the most that times are off, in nanoseconds
engineer;How many messages a second, and how late on the disk?;docs/PERFORMANCE.md;Delays are from sent to durable
engineer;Has it flown, and with which cards?;docs/SUPPORT.md;No card of a bus was ever attached
engineer;May the disk have sectors of 4,096 bytes?;docs/FAILURES.md;7, 15, 23 or 63 blocks no file shares a sector
programmer;A write answered EIO: what do I call?;docs/LIBRARY.md;Close the recorder and the disk (`r10_close`, `r10_disk_close`)
programmer;Which calls may two threads make at the same time?;docs/LIBRARY.md;Use each handle in one call at a time
programmer;When is a message durable?;docs/LIBRARY.md;a commit or a stop that answered 0 is durable
analyst;Which recordings of last year lost 1553 messages?;docs/RANGE.md;find --db range.sqlite --type 1553 --losses 1
analyst;check prints lenient 3: is it damaged?;docs/USING.md;N packets are opaque: counted, not read
analyst;How do I get a heading in degrees?;docs/USING.md;HEADING,1553,7,5,T,3,2
analyst;Why are entries older than their file?;docs/FORMAT.md;first entries may be older than the file's first time
maintainer;What do I run for a change of one crate?;CONTRIBUTING.md;`scripts/fast.sh CRATE`
maintainer;Which files change with a new refusal?;docs/ARCHITECTURE.md;**A refusal**. `r10_body`
prover;Is it proved that memory is refused only where it lacks?;docs/UNPROVED.md;That OutOfMemory is not answered if there is memory
prover;Three tries at a goal failed: what now?;docs/PROVING.md;Three failed tries at a goal: give the code another form
QUESTIONS
check "they are twenty" is "$asked" 20

# A page that does not answer any more is seen, and so is one to which README does not lead.
mkdir "$room/docs"
echo '[a](docs/ONE.md#here)' >"$room/README.md"
printf 'It has\nan answer.\n' | tee "$room/docs/ONE.md" >"$room/docs/TWO.md"
check "words on two lines" answers "$room" docs/ONE.md 'has an answer'
check "an answer that is gone" is "$(answers "$room" docs/ONE.md 'has no answer')" '    docs/ONE.md does not have: has no answer'
check "a page without a way to it" is "$(answers "$room" docs/TWO.md 'has an answer')" '    README.md has no link to docs/TWO.md'
exit "$failed"
