#!/usr/bin/env bash
# Tests that the crate r10-sys declares what r10.h does, and nothing else: numbers, structures and calls, by the same names and in
# the same order. Without a build, in no time. Status 1 where one fails.
set -u
# shellcheck disable=SC2317 source=scripts/tests/kit.sh
. "$(dirname "$(readlink -f "${BASH_SOURCE[0]}")")/kit.sh"

cat >"$room/declarations.py" <<'PY'
"""Prints the declarations of a header, or of the crate, each as a line."""
import re
import sys

TYPES = {'uint64_t': 'u64', 'uint32_t': 'u32', 'uint16_t': 'u16', 'uint8_t': 'u8', 'size_t': 'usize', 'bool': 'bool', 'void': 'u8'}


def in_rust(kind, star, void='u8'):
    """A type of C: bytes that are lent or given are `void` there too."""
    name = kind.replace('const ', '')
    name = void if name == 'void' else TYPES.get(name, name)
    return ('*const ' if 'const ' in kind else '*mut ') + name if star else name


def of_header(text):
    text = re.sub(r'/\*.*?\*/|\s+R10_CHECKED\(\w+\)(?=;)', '', text, flags=re.S).split('static inline')[0]
    for body in re.findall(r'enum \{(.*?)\};', text, re.S):
        yield from ('%s %s' % pair for pair in re.findall(r'(R10_\w+)\s*=\s*(\d+)', body))
    for name, body in re.findall(r'typedef struct (\w+) \{(.*?)\} \1;', text, re.S):
        yield 'struct ' + name
        for kind, names in re.findall(r'((?:const )?\w+) ([^;]*);', body):
            for one in re.split(r',\s*', names):
                yield '    %s: %s' % (one.lstrip('*'), in_rust(kind, one.startswith('*'), 'c_void'))
    for answer, name, words in re.findall(r'\b(uint32_t|uint64_t|void) (r10_\w+)\(([^)]*)\);', re.sub(r'\s+', ' ', text)):
        parts = [re.fullmatch(r'((?:const )?\w+) (\**)(\w+)', word).groups() for word in words.split(', ') if word != 'void']
        yield 'fn %s(%s)%s' % (name, ', '.join('%s: %s' % (part[2], in_rust(*part[:2])) for part in parts),
                               '' if answer == 'void' else ' -> ' + TYPES[answer])


def of_crate(text):
    text = re.sub(r'///?.*', '', text)
    numbers = re.findall(r'^pub const (R10_\w+): u\d+ = (\d+);', text, re.M)
    yield from ('%s %s' % pair for pair in numbers if pair[0] != 'R10_VERSION')
    for name, body in re.findall(r'pub struct (\w+) \{(.*?)\}', text, re.S):
        yield 'struct ' + name
        yield from ('    %s: %s' % pair for pair in re.findall(r'pub (\w+): ([^,]*),', body))
    for name, words, answer in re.findall(r'pub fn (\w+)\(([^)]*)\)( -> u(?:32|64))?;', re.sub(r'\s+', ' ', text)):
        yield 'fn %s(%s)%s' % (name, words.strip().rstrip(','), answer)


text = open(sys.argv[2], encoding='utf-8').read()
print('\n'.join(of_header(text) if sys.argv[1] == 'header' else of_crate(text)))
PY
header=$(python3 "$room/declarations.py" header "$top/ffi/r10.h")
crate=$(python3 "$room/declarations.py" crate "$top/ffi/rust/r10-sys/src/lib.rs")
check "there are numbers, structures and calls in the header" [ "$(wc -l <<<"$header")" -gt 180 ]
check "the crate r10-sys declares them all" is "$crate" "$header"
rest=$(sed '/^unsafe extern/,/^}/d' "$top/ffi/rust/r10-sys/src/lib.rs")
check "and it has nothing else" is \
    "$(grep -cE '^ *(pub )?(unsafe )?(fn|enum|trait|impl|mod|macro_rules!|static|type) ' <<<"$rest")" 0
of_map=$(sed -n 's/^ *\(r10_[a-z0-9_]*\);$/\1/p' "$top/ffi/r10.map" | sort)
check "each call has the version from which it is there" is "$of_map" \
    "$(sed -n 's/^fn \(r10_[a-z0-9_]*\)(.*/\1/p' <<<"$header" | sort)"
check "the number of features is how many there are" is \
    "$(sed -n 's/^#define R10_FEATURES //p' "$top/ffi/r10.h")" "$(wc -l <<<"$of_map")"
# shellcheck disable=SC2154
exit "$failed"
