#!/usr/bin/env bash
# Tests of scripts/proofs/slips.py and scripts/proofs/mutants.py over a small tree of two crates, with a stand-in for the prover.
# Some seconds; status 1 where one fails.
set -u
# shellcheck disable=SC2016,SC2317 source=scripts/tests/kit.sh
. "$(dirname "$(readlink -f "${BASH_SOURCE[0]}")")/kit.sh"
tree="$room/tree" low="$room/tree/crates/r10_low" high="$room/tree/crates/r10_high"
export PATH="$room/kit/bin:$PATH" GIT_AUTHOR_NAME=a GIT_AUTHOR_EMAIL=a@a GIT_COMMITTER_NAME=a GIT_COMMITTER_EMAIL=a@a

# (it refuses a body with `wrong` in it, or by a name one with `renamed`; of one with `broken` it reads nothing)
mkdir -p "$room/kit/bin"
cat >"$room/kit/bin/rt" <<'RT'
#!/usr/bin/env bash
echo "${PWD##*/} $*" >>"$(dirname "$0")/calls"
awk -v words="$*" '
    BEGIN { all = split(words, word, " "); for (i = 1; i < all; i++) if (word[i] == "--only") { asked[word[i + 1]] = 1; n++ } }
    /^pub fn / { name = $3; sub(/\(.*/, "", name) }
    /broken/ { print "src/lib.rt:" NR ":5: error: this is no body"; unread = 1 }
    /false_/ && (!n || name in asked) { it = $0; sub(/.*false_/, "", it); sub(/[^a-z].*/, "", it)
        print "proofs/" name "/Answers.antt:3:1: error: no proof of `returns-in-Ok-clause-" it "`"; bad++ }
    /untrue_/ && (!n || name in asked) { it = $0; sub(/.*untrue_/, "", it); sub(/[^a-z].*/, "", it)
        print "proofs/" name "/Answers.antt:3:1: error: `x` is not in scope"
        print "note: src/lib.rt:" NR ":5: it is not proved that the function keeps its word (`returns-clause-" it "`)"; bad++ }
    /wrong/ && (!n || name in asked) { print "proofs/" name "/Answers.antt:3:1: error: no proof of `ensures-it`"; bad++ }
    /renamed/ && (!n || name in asked) { print "proofs/" name "/Answers.antt:3:1: error: `x` is not in scope"; bad++ }
    /nowhere/ { print "this is no body"; unread = 1 }
    END { if (!unread) print "only=" n " proved=" n - bad; exit unread || bad > 0 }' src/lib.rt
RT
printf 'def crates_below(top):\n    return []\n\n\nclass Crate:\n    def stamp(self):\n        return ""\n' \
    >"$room/kit/bin/rtlib.py"
chmod +x "$room/kit/bin/rt"

mkdir -p "$tree/docs" "$low/src" "$low/specs" "$high/src" "$high/slips" "$high/must-fail" "$high/guards"
take_scripts "$tree" proofs/{slips,mutants,wrong_bodies}.py build/{rt_once,share_libraries,toolchain}.py
sed '/^Made by/,/^## /{/^|/d}; s/^| `[0-9a-f]\{8\}`.*//' "$top/docs/SLIPS.md" >"$tree/docs/SLIPS.md"
printf 'r10_low:\nr10_high: r10_low\n' >"$tree/crates.txt"
printf '__pycache__/\n' >"$tree/.gitignore"
printf 'pub fn low(a: u32) -> u32 {\n    a\n}\n' >"$low/src/lib.rt"
for name in one two three four five; do
    printf '/// It is %s.\npub fn %s(a: u32) -> u32\n    ensures it {\n        result ≡ a }\n{\n    a + 1 < %s\n}\n\n' \
        "$name" "$name" "$name"
done >"$high/src/lib.rt"
printf 'file: src/lib.rt\nold: < one\nnew: wrong\nold: < two\nnew: renamed\nold: < three\nnew: broken\n' >"$high/slips/a.edit"
printf 'file: src/lib.rt\nold: < four\nnew: < four + 0\nold: < five\nnew: wrong five\nold: wrong five\nnew: < five\n' \
    >"$high/slips/b.edit"
commit() { git -C "$tree" add -A && git -C "$tree" commit -qm "$1"; }
git init -q "$tree"
touch "$tree/scripts/proofs/slips.txt" "$tree/scripts/proofs/mutants.txt"
echo 0 >"$tree/scripts/proofs/slips_stale.txt"
commit first

slips() {
    : >"$room/kit/bin/calls"
    said=$("$tree/scripts/proofs/slips.py" --lanes 1 "$@" 2>&1)
    status=$?
}
ends() { [ "$status" = "$1" ] && [[ $said == *"$2"* ]] || { echo "    status $status: $said"; false; }; }
verdict() { grep -c " $1 [0-9]* [0-9a-f]* 20[0-9T:-]* $2" "$tree/scripts/proofs/slips.txt"; }
key() { grep " $1 .* $2: " "$tree/scripts/proofs/slips.txt" | head -1 | cut -d ' ' -f 3; }
column() { "$tree/scripts/proofs/slips.py" --crates | grep '^| `r10_high`' | cut -d '|' -f "$1" | tr -d ' '; }

slips --together
check "what shares a check is tried, and what has to be tried alone is left" ends 1 "4 tried, 2 left"
check "it is tried later" is "$(verdict passed '')" 0
rm "$tree/scripts/proofs/slips.txt" && touch "$tree/scripts/proofs/slips.txt"
slips --list
check "all are listed, with what is known" ends 0 "r10_high src/lib.rt b (never tried): < four -> < four + 0"
check "how many" ends 0 "6 slips"
slips
check "a slip that is let through: status 1" ends 1 "6 tried, 0 left"
check "a goal refuses it" is "$(verdict refused ensures-it)" 2
check "a name refuses it" is "$(verdict names x)" 1
check "it does not compile" is "$(verdict unread 'this is no body')" 1
check "two are let through, one of them two changes of one function" is "$(verdict passed '')" 2
check "a note names what is let through" is "$(verdict passed 'four: < four -> < four + 0')" 1
check "the crate itself, a round, the same without what is no body, and two alone" is \
    "$(sed 's/.*--jobs 1//; s/ --only//g' "$room/kit/bin/calls" | tr '\n' ';')" \
    " five four one three two; five four one three two; five four one two; four; five;"
check "lines are sorted" is "$(LC_ALL=C sort "$tree/scripts/proofs/slips.txt")" "$(cat "$tree/scripts/proofs/slips.txt")"
slips
check "what has a verdict is not tried again" ends 0 "0 tried, 0 left"
check "nor is anything checked" is "$(wc -l <"$room/kit/bin/calls")" 0

slips --check
check "a page that has no table" ends 1 'docs/SLIPS.md, "Slips", is not what scripts/proofs/slips.py --table writes'
slips --table
check "the table is written" ends 0 ""
check "in all, refused, by names, let through, not compiled" is "$(for n in 3 4 5 7 9; do column $n; done | tr '\n' ' ')" \
    "6 2 1 2 1 "
slips --check
check "what is let through has to be explained" ends 1 "docs/SLIPS.md does not explain $(key passed four), which is let through"
sed -i "s/^| Sum |.*/&\n|---|---|---|---|---|\n| \`$(key passed four)\` | a | b | c | Equal body: the sum |/" "$tree/docs/SLIPS.md"
sed -i "s/^| Sum |.*/&\n|---|---|---|---|---|\n| \`$(key passed five)\` | a | b | c | A test: \`t\` |/" "$tree/docs/SLIPS.md"
slips --table
slips --check
check "it is, and one is an equal body" ends 0 ""
check "the table says so" is "$(column 7) $(column 8)" "1 1"

sed -i 's,^/// It is one,/// It is the one,' "$high/src/lib.rt"
slips
check "what is changed is to be committed first" ends 1 "commit what is changed below crates/ first"
commit comment
slips --new
check "a comment makes nothing stale" ends 0 "0 tried, 0 left"
sed -i 's/b: u32/c: u32/; s/^    a$/    a + 0/' "$low/src/lib.rt"
commit below
slips --table
check "a crate below is another" is "$(column 11) $(column 12)" " 6"
slips --check
check "that fails no gate" ends 0 ""
slips --new
check "nor is it tried where only new ones are" ends 0 "0 tried, 0 left"
printf 'pub fn six(a: u32) -> u32 {\n    a\n}\n' >>"$high/src/lib.rt"
printf 'file: src/lib.rt\nold: < one\nnew: wrong one\n' >>"$high/slips/b.edit"
commit more
slips --table
check "the crate is another, and there is a slip more" is "$(column 3) $(column 10) $(column 11) $(column 12)" "7 1 6 "
slips --check
check "no more slips may be stale than a file says" ends 1 \
    "7 slips of r10_high were tried over other sources, or never; scripts/proofs/slips_stale.txt allows 0:"
echo 7 >"$tree/scripts/proofs/slips_stale.txt"
slips --check
check "with that number it passes" ends 0 ""
slips --gate
check "the gate tries stale slips, and fails where one is let through" ends 1 \
    "of 7 stale slips 3 are refused by a goal over these sources"
check "and keeps no verdict of them in the tree" is "$(git -C "$tree" status --porcelain scripts/proofs/slips.txt)" ""
slips --new
check "only the new one is tried" ends 0 "1 tried, 0 left"
slips
check "the stale ones are tried again" ends 1 "6 tried, 0 left"
slips --table
check "nothing is stale" is "$(column 10) $(column 11) $(column 12)" "  "
check "and the file says so, as nobody raises its number" is "$(cat "$tree/scripts/proofs/slips_stale.txt")" 0
slips --check
check "the table of what the gate tries is as it is written" ends 0 ""

line=$(grep -m 1 ' refused ' "$tree/scripts/proofs/slips.txt")
sed 's/ refused / limit /; s/ 20[0-9]*-/ 2099-/' <<<"$line" >>"$tree/scripts/proofs/slips.txt"
slips --check
check "two files that were joined" ends 1 "scripts/proofs/slips.txt is not sorted, or has two lines of one change"
slips --table
check "the later line holds" is "$(wc -l <"$tree/scripts/proofs/slips.txt") $(column 6)" "7 1"
printf 'file: src/lib.rt\n' >"$high/slips/c.edit"
printf 'old: < %s\nnew: %s\n' one nowhere two 'wrong two' four 'wrong four' >>"$high/slips/c.edit"
commit nowhere
slips --new --together
check "where nothing says which one is no body, the rest is tried all the same" ends 0 "2 tried, 1 left"
rm "$high/slips/c.edit"
commit none
slips --table
sed -i '/wrong one/d; /^old: < one/d' "$high/slips/b.edit"
slips --check
check "a line of no slip" ends 1 "1 lines of scripts/proofs/slips.txt are of no slip"
slips --table
check "it goes" is "$(wc -l <"$tree/scripts/proofs/slips.txt")" 6
echo "r10_high a b" >>"$tree/scripts/proofs/slips.txt"
slips --check
check "what is no line" ends 1 "this is no line of results: r10_high a b"
git -C "$tree" checkout -q scripts/proofs/slips.txt

# An edit of the gate: what has to refuse it, what is put into the body of `seven`, and the text that it is put in the place of.
guard() {
    git -C "$tree" checkout -q scripts
    printf 'says: It is wrong.\nrefused: %s\nfile: src/lib.rt\n%sold: %s\nnew: %s\n' "$1" "${4:+in: $4
}" "${3:-< seven}" "$2" >"$high/guards/g.edit"
    commit guard
    slips --gate
}
mkdir "$room/away" && mv "$high"/slips/* "$room/away"
printf '%s\n' 'pub fn seven(a: u32) -> u32' '    ensures it { result ≡ a }' '    ensures other { result ≡ result }' '{' \
    '    a + 1 < seven' '}' '' >>"$high/src/lib.rt"
guard 'seven it' '< false_it'
check "an edit of the gate is refused by its clause" ends 0 \
    "refused: r10_high seven, clause it: It is wrong. (returns-in-Ok-clause-it)"
check "the gate counts them" ends 0 "1 edits of the gate are refused by the clause that each names, 0 are not"
slips --gate
check "what was refused so is kept" is "$(grep -c seven "$room/kit/bin/calls")" 0
guard 'seven other' '< false_it'
check "an edit that another clause refuses fails" ends 1 \
    "NOT REFUSED by its clause: r10_high seven, clause other: It is wrong.: refused by returns-in-Ok-clause-it"
guard 'seven it' '< untrue_it'
check "an edit that names alone refuse fails" ends 1 "clause it: It is wrong.: refused by names by returns-clause-it"
guard 'seven it' '< seven + 0'
check "an edit that is let through fails" ends 1 "clause it: It is wrong.: LET THROUGH"
guard 'seven it' '< broken'
check "an edit that does not compile fails" ends 1 "clause it: It is wrong.: does not compile"
guard 'eight it' '< false_it'
check "it stands in the function that it names" ends 1 'it stands in seven, and says "refused: eight it"'
guard 'seven them' '< false_it'
check "and names a clause of it" ends 1 "seven has no clause them: it has it, other"
guard 'seven' '< false_it'
check "or it fails" ends 1 "seven has no clause : it has it, other"
guard 'one it' 'a + 1 < wrong one' 'a + 1 < one'
check "of the only clause of a function a goal may have any name" ends 1 "refused by ensures-it"
guard 'one it' 'false_it' '{'
check "a text has to stand once" ends 1 "this does not stand once in src/lib.rt: {"
guard 'seven it' 'false_it' '1 <' seven
check "or once in the function that a line names" ends 0 "1 edits of the gate are refused"
slips --check
check "the page lists what the gate tries" ends 1 \
    'docs/SLIPS.md, "Edits of the gate", is not what scripts/proofs/slips.py --table writes'
slips --table
check "with the clause of each" is "$(grep -c '^- `r10_high`: `seven.it`$' "$tree/docs/SLIPS.md")" 1
slips --edits
check "and what is wrong is printed" ends 0 'r10_high seven, clause it: It is wrong'
git -C "$tree" checkout -q scripts docs
mkdir -p "$high/slips" && mv "$room/away"/* "$high/slips"
rm "$high/guards/g.edit" && sed -i '/^pub fn seven/,$d' "$high/src/lib.rt" && commit back

mutants() {
    : >"$room/kit/bin/calls"
    said=$("$tree/scripts/proofs/mutants.py" --lanes 1 --count 8 "$@" 2>&1)
    status=$?
}
commit tests
mutants --list
check "mutants are drawn" ends 0 " mutants"
drawn=$said
sed -i 's/< two/< two - 1/' "$high/src/lib.rt" && commit two
sed -i 's/old: < two/old: < two - 1/' "$high/slips/a.edit" && commit edit
mutants --list
check "a change leaves those of other functions as they are" is \
    "$(grep -v ' two:\|mutants' <<<"$drawn")" "$(grep -v ' two:\|mutants' <<<"$said")"
mutants
check "all are let through" ends 1 "0 of 8 refused"
check "and stand in the results" is "$(grep -c ' passed ' "$tree/scripts/proofs/mutants.txt")" 8
mutants
check "none is tried again" is "$(wc -l <"$room/kit/bin/calls")" 0
mutants --check
check "they want a table and an explanation" ends 1 '"Mutants", is not what scripts/proofs/mutants.py --table writes'
mutants --table
check "the table is written" is "$(grep -c '^| all | 8 | | | | 8 ' "$tree/docs/SLIPS.md")" 1
mutants --crates
check "and a row for each crate is printed" ends 0 '| `r10_high` | 7 | | | | 7 '
sed -i 's/+ 1 < five/five/' "$high/src/lib.rt"
mutants --check
check "that others would be drawn of another body fails no gate" is "$(grep -c 'is not what' <<<"$said")" 0
kept=$(wc -l <"$tree/scripts/proofs/mutants.txt")
mutants --table
check "a change that no body has any more goes" is "$(($(wc -l <"$tree/scripts/proofs/mutants.txt") < kept)) $(grep -c ' five:' \
    "$tree/scripts/proofs/mutants.txt")" "1 0"

named=$(cd "$tree/scripts/proofs" && python3 -B -c '
import wrong_bodies
texts = {"src/kept.rt": "pub struct Kept<M> {\n}\n",
         "src/reading.rt": "impl<M> Kept<M> {\n    fn read(&self) -> u8 {\n        0\n    }\n}\n"}
homes = wrong_bodies.homes_of(texts)
print(*[it.said() for it in wrong_bodies.functions_of("src/reading.rt", texts["src/reading.rt"], homes)])')
check "a function has the module of its type in its name, whatever file it stands in" is "$named" "kept::Kept::read"

given=$(cd "$tree/scripts/proofs" && python3 -B -c '
import wrong_bodies
texts = {"src/kept.rt": "pub struct Kept<M> {\n}\n",
         "src/reading.rt": "impl<M: Medium<u8>> Kept<Block, M> {\n    fn read(&self) -> u8 {\n        0\n    }\n}\n\n"
                           "impl<M: Medium<u8>, L> Kept<M, L> {\n    fn find(&self) -> u8 {\n        0\n    }\n}\n"}
homes = wrong_bodies.homes_of(texts)
print(*[it.said() for it in wrong_bodies.functions_of("src/reading.rt", texts["src/reading.rt"], homes)])')
check "one for some arguments of its type has them there, and the module of its file" is "$given" \
    "reading::Kept+Block+M::read kept::Kept::find"

found=$(cd "$tree/scripts/proofs" && python3 -B -c '
import wrong_bodies
text = "const WORDS: &str =\n    \"one of: {,\\\n    \\\"two\";\n\nfn read() -> u8 {\n    0\n}\n"
print(*[it.said() + " " + str(text.count("\n", 0, it.start) + 1) for it in wrong_bodies.functions_of("src/lib.rt", text, {})])')
check "a text that goes on in the next line is no code" is "$found" "read 5"
exit "$failed"
