#!/usr/bin/env python3
"""Writes the manual pages and the completions for shells, out of what the commands themselves say. scripts/install.sh calls it.

    scripts/tools/manual.py PROGRAM SURVEY FILTERS FOLDER [SERVICE]

PROGRAM is a build of r10, SURVEY one of r10-survey, FILTERS is scripts/ch10.py, and FOLDER gets man1/, man3/, bash/ and zsh/; with
SERVICE, a folder that has r10d and r10ctl, also man8/. The texts are those of `--help`, of ffi/r10.h and of docs/RECORDER.md:
nothing is said twice.
Where a text has another form than the one that is read here, that is one line, and status 1.
"""
from __future__ import annotations

import pathlib
import re
import subprocess
import sys
from collections.abc import Iterable

sys.dont_write_bytecode = True

TOP = pathlib.Path(__file__).resolve().parents[2]

STATUSES = """0: the command did its work.
1: an image is refused, a file of it is not strict, a recording is faulty, or an audit says no.
2: the command line or the script is wrong.
3: memory, reading or writing fails."""


class Wrong(Exception):
    """What is wrong with a text."""


def said(words: list[str]) -> str:
    """What a call prints."""
    done = subprocess.run(words, stdin=subprocess.DEVNULL, capture_output=True, text=True)
    if done.returncode or not done.stdout.strip():
        raise Wrong('%s says nothing: %s' % (' '.join(words), done.stderr.strip()))
    return done.stdout


def roff(text: str) -> str:
    """A text as the formatter takes it."""
    text = text.replace('\\', '\\e').replace('-', '\\-')
    return '\\&' + text if text.startswith(('.', "'")) else text


def body(lines: Iterable[str]) -> list[str]:
    """Paragraphs and examples: what is indented stays as it stands."""
    made, is_example = [], False
    for line in lines:
        if line.startswith('  ') != is_example and line.strip():
            is_example = not is_example
            made += ['.PP', '.RS 4', '.EX'] if is_example else ['.EE', '.RE', '.PP']
        if not line.strip():
            made.append('' if is_example else '.PP')
        else:
            made.append(roff(line if not is_example else line[2:]))
    while made and made[-1] in ('', '.PP'):
        made.pop()
    return made + (['.EE', '.RE'] if is_example else [])


class Help:
    """A help text by its parts."""

    def __init__(self, text: str) -> None:
        lines = text.rstrip().splitlines()
        usage = next((place for place, line in enumerate(lines) if re.match('(?i)usage: ', line)), None)
        if usage is None:
            raise Wrong('a help text has no line of usage:\n' + text)
        self.about = [line for line in lines[:usage] if line.strip()]
        self.usage = re.sub('(?i)^usage: ', '', lines[usage])
        while usage + 1 < len(lines) and lines[usage + 1].startswith('  '):  # a usage of several lines
            usage += 1
            self.usage += ' ' + lines[usage].strip()
        self.commands: list[tuple[str, str]] = []
        self.options: list[tuple[str, str]] = []
        self.more: list[str] = []
        part = self.more
        for line in lines[usage + 1:]:
            head = line.strip().lower()
            if head in ('commands:', 'words:'):
                part = self.commands
            elif head in ('options:', 'optional arguments:'):
                part = self.options
            elif head in ('positional arguments:', 'arguments:'):
                part = self.options
            elif part is not self.more and not line.strip():
                continue
            elif part is not self.more and line.startswith('  '):
                found = re.match(r'  +(\S.*?)(?:  +(\S.*))?$', line)
                if len(line) - len(line.lstrip()) > 12 and part:
                    part[-1] = (part[-1][0], (part[-1][1] + ' ' + line.strip()).strip())
                elif found:
                    part.append((found[1], found[2] or ''))
            else:
                part = self.more
                part.append(line)
        while self.more and not self.more[0].strip():
            self.more.pop(0)


def page(name: str, section: int, version: str, about: str, synopsis: list[str], parts: list[tuple[str, list[str]]],
         also: list[str]) -> str:
    """A manual page."""
    lines = ['.TH %s %d "" "r10 %s" "Flight recorder"' % (name.upper(), section, version), '.SH NAME',
             '%s \\- %s' % (roff(name), roff(about)), '.SH SYNOPSIS']
    for line in synopsis:
        lines += [roff(line), '.br']
    for title, text in parts:
        if text:
            lines += ['.SH ' + title] + text
    lines += ['.SH SEE ALSO', ', '.join(roff(it) for it in also)]
    return '\n'.join(lines) + '\n'


def listed(pairs: list[tuple[str, str]]) -> list[str]:
    """A list of words, each with what it does."""
    lines = []
    for word, text in pairs:
        lines += ['.TP', '.B ' + roff(word), roff(text or ' ')]
    return lines


def pages_of_program(program: str, version: str) -> dict[str, str]:
    """The pages of r10 and of its commands, by file."""
    whole = Help(said([program, '--help']))
    commands = [name for name, _ in whole.commands if name != 'help']
    if not commands:
        raise Wrong('r10 --help has no commands')
    statuses = ('EXIT STATUS', body(line for text in STATUSES.splitlines() for line in (text, '')))
    also = ['r10-%s(1)' % it for it in commands] + ['ch10(1)', 'r10.h(3)']
    made = {'man1/r10.1': page('r10', 1, version, whole.about[0], [whole.usage], [
        ('DESCRIPTION', body(whole.about + [''] + whole.more)), ('COMMANDS', listed(whole.commands)),
        ('OPTIONS', listed(whole.options)), statuses], also)}
    for name in commands:
        one = Help(said([program, name, '--help']))
        made['man1/r10-%s.1' % name] = page('r10-' + name, 1, version, one.about[0], [one.usage], [
            ('DESCRIPTION', body(one.about + [''] + one.more)), ('OPTIONS', listed(one.options)), statuses],
                                            ['r10(1)'] + [it for it in also if name not in it])
    return made


def page_of_survey(survey: str, version: str) -> tuple[dict[str, str], Help]:
    """The page of r10-survey, and its help."""
    one = Help(said([survey, '--help']))
    return {'man1/r10-survey.1': page('r10-survey', 1, version, one.about[0], [one.usage], [
        ('DESCRIPTION', body(one.about + [''] + one.more)), ('OPTIONS', listed(one.options))], ['r10(1)', 'ch10(1)'])}, one


def page_of_filters(filters: str, version: str) -> tuple[dict[str, str], dict[str, Help]]:
    """The page of ch10, and the help of each of its commands."""
    text = said([sys.executable, filters, '--help'])
    names = list(dict.fromkeys(re.findall(r'^ +ch10 (\w+) ', text, re.M)))
    if not names:
        raise Wrong('ch10 --help has no commands')
    lines = [line for line in text.splitlines() if not re.match('(?i)usage:', line)]
    lines = lines[:lines.index('options:')] if 'options:' in lines else lines
    parts = [('DESCRIPTION', body(lines))]
    helps = {}
    for name in names:
        helps[name] = one = Help(said([sys.executable, filters, name, '--help']))
        parts.append((name.upper(), body([one.usage, ''] + one.more) + listed(one.options)))
        for inner in next_words(one):
            one = Help(said([sys.executable, filters, name, inner, '--help']))
            parts.append((('%s %s' % (name, inner)).upper(), body([one.usage, ''] + one.more) + listed(one.options)))
    parts.append(('EXIT STATUS', body(['As of r10(1). What is wrong is one line on standard error that begins with "ch10: ".'])))
    return {'man1/ch10.1': page('ch10', 1, version, 'filters over recordings of IRIG 106 Chapter 10',
                                ['ch10 COMMAND [WORDS] < INPUT > OUTPUT'], parts, ['r10(1)'])}, helps


def page_of_header(header: pathlib.Path, version: str) -> dict[str, str]:
    """The page of the library, out of its header."""
    text = header.read_text(encoding='utf-8')
    first = re.match(r'/\* (.*?)\n \*/\n', text, re.S)
    if first is None:
        raise Wrong('%s does not begin with a comment' % header)
    lines = [re.sub(r'^ \* ?', '', line) for line in ('  * ' + first[1]).replace('  * ', ' * ', 1).splitlines()]
    about, _, rest = '\n'.join(lines).partition('\n\n')
    described = []
    shows = False
    for line in rest.splitlines():
        if line.startswith('    ') != shows:
            shows = not shows
            described.append('.EX' if shows else '.EE')
        if shows:
            described.append(roff(line))
        elif line.startswith(' - '):
            described += ['.IP \\(bu 2', roff(line[3:])]
        elif line.strip():
            described.append(roff(line.strip()))
        else:
            described.append('.PP')
    parts = [('DESCRIPTION', [roff(about.replace('\n', ' ')), '.PP'] + described)]
    declared = text[first.end():]
    declared = declared[declared.index('/* ----'):]
    for part in re.findall(r'/\* -{4} .*?(?=/\* -{4} |\Z)', declared, re.S):
        title = re.sub(r'^/\* -+ | \*/$', '', part.splitlines()[0]).partition('. ')[0]
        part = re.sub(r'\n#ifdef __cplusplus.*', '', part, flags=re.S)
        part = re.sub(r'\s+R10_CHECKED\(\w+\)(?=;)', '', part)
        shown = [roff(re.sub('^R10_CALL ', '', line)) for line in part.strip('\n').splitlines()]
        parts.append((roff(title.upper()), ['.EX'] + shown + ['.EE']))
    return {'man3/r10.h.3': page('r10.h', 3, version, 'a flight recorder as a library',
                                 ['#include <r10.h>', 'cc ... $(pkg-config --cflags --libs r10)'], parts, ['r10(1)'])}


def tables(page: pathlib.Path, heading: str) -> list[tuple[str, str]]:
    """The rows of the tables below a heading: what stands first, and the rest in a sentence."""
    text = re.search(r'^## %s\n(.*?)(?=^## |\Z)' % re.escape(heading), page.read_text(encoding='utf-8'), re.S | re.M)
    if text is None:
        raise Wrong('%s has no part "%s"' % (page, heading))
    rows, heads = [], []
    for line in text[1].splitlines():
        plain = re.sub(r'\*(\w+)\*', r'\1', re.sub(r'\[([^]]*)\]\([^)]*\)', r'\1', line).replace('`', ''))
        cells = [it.strip() for it in plain.strip('|').split('|')] if line.startswith('|') else []
        if not cells:
            heads = []
        elif not heads:
            heads = cells
        elif set(cells[0]) != {'-'}:
            more = [it.replace('needed', 'must be given') if it.startswith('needed') else '%s: %s' % (head.lower(), it)
                    for head, it in zip(heads[2:], cells[2:]) if it]
            rows.append((cells[0], '; '.join(it for it in [cells[1], *more] if it)))
    if not rows:
        raise Wrong('%s has no table in "%s"' % (page, heading))
    return rows


def pages_of_service(service: pathlib.Path, version: str) -> tuple[dict[str, str], dict[str, Help]]:
    """The pages of r10d and r10ctl, and the help of each."""
    about = TOP / 'docs' / 'RECORDER.md'
    daemon, control = (Help(said([str(service / name), '--help'])) for name in ('r10d', 'r10ctl'))
    if not control.commands:
        raise Wrong('r10ctl --help has no words')
    settings = ['It is TOML. Paths are taken from the folder of the file.', '.PP'] + listed(tables(about, 'Settings'))
    files = [
        ('/etc/r10/recorder.toml', 'the settings of the service that systemd runs (r10d.service)'),
        ('/var/lib/r10', 'its medium'),
        ('/run/r10/control', 'its control socket'),
    ]
    made = {
        'man8/r10d.8': page('r10d', 8, version, 'a flight recorder as a service', [daemon.usage], [
            ('DESCRIPTION', body(daemon.about + [''] + daemon.more)), ('OPTIONS', listed(daemon.options)), ('SETTINGS', settings),
            ('STATES', listed(tables(about, 'States, and what to do'))), ('FILES', listed(files))], ['r10ctl(1)', 'r10(1)']),
        'man1/r10ctl.1': page('r10ctl', 1, version, 'asks and controls a recorder', [control.usage], [
            ('DESCRIPTION', body(control.about + [''] + control.more)), ('WORDS', listed(control.commands)),
            ('OPTIONS', listed(control.options)), ('ANSWERS', listed(tables(about, 'Control')))], ['r10d(8)', 'r10(1)'])}
    return made, {'r10d': daemon, 'r10ctl': control}


def completions_of_service(helps: dict[str, Help]) -> dict[str, str]:
    """What bash and zsh complete after r10d and r10ctl."""
    words = {head.split()[0]: Help('%s\n\nUsage: %s\n' % (text, head)) for head, text in helps['r10ctl'].commands}
    made = completions('r10ctl', words, words_of(helps['r10ctl']))
    return made | options_of('r10d', helps['r10d'], " '1:settings:_files'")


def options_of(name: str, one: Help, more: str = '') -> dict[str, str]:
    """What bash and zsh complete after a program without commands."""
    bash = completions(name, {}, words_of(one))['bash/' + name]
    described = [(word, text) for head, text in one.options for word in re.findall(r'--[\w-]+', head)]
    options = ' '.join("'%s[%s]'" % (word, text.replace("'", "'\\''")) for word, text in described)
    zsh = '#compdef %s\n# completions for zsh: %s\n_arguments %s%s\n' % (name, name, options, more)
    return {'bash/' + name: bash, 'zsh/_' + name: zsh}


def words_of(one: Help) -> list[str]:
    """What a shell completes after a command: the words of which one comes next, and the options in their long forms."""
    return next_words(one) + [word for head, _ in one.options for word in re.findall(r'--[\w-]+', head)]


def next_words(one: Help) -> list[str]:
    """The words of which one comes after a command, as add|find|show."""
    return [word for head, _ in one.options if re.fullmatch(r'[a-z]+(\|[a-z]+)+', head) for word in head.split('|')]


def completions(name: str, commands: dict[str, Help], more: list[str]) -> dict[str, str]:
    """What bash and zsh complete after this name."""
    cases = ''.join('    %s) words="%s" ;;\n' % (it, ' '.join(words_of(one))) for it, one in commands.items())
    bash = '''# completions for bash: %s
_%s() {
    local words
    case ${COMP_WORDS[1]} in
%s    *) words="%s" ;;
    esac
    [ "$COMP_CWORD" != 1 ] || words="%s"
    COMPREPLY=($(compgen -W "$words" -- "${COMP_WORDS[COMP_CWORD]}"))
    # (after < and > stands a file)
    case ${COMP_WORDS[COMP_CWORD - 1]} in
    '<' | '>' | '>>') COMPREPLY=($(compgen -f -- "${COMP_WORDS[COMP_CWORD]}")) ;;
    esac
}
complete -o default -F _%s %s
''' % (name, name, cases, ' '.join(more), ' '.join([*commands, *more]), name, name)
    described = ''.join("        '%s:%s'\n" % (it, one.about[0].replace("'", "'\\''") if one.about else it)
                        for it, one in commands.items())
    options = ''
    for it, one in commands.items():
        found = []
        for head, text in one.options:
            text = re.sub(r'[\[\]:]', ' ', text).replace("'", "'\\''")
            for word in re.findall(r'--[\w-]+', head):
                takes = re.search(r'[A-Z<]', head.partition(word)[2]) is not None
                found.append("'%s[%s]%s'" % (word, text, ': :' if takes else ''))
        options += '    %s) _arguments %s ;;\n' % (it, ' '.join(found))
    zsh = '''#compdef %s
# completions for zsh: %s
local -a commands
if (( CURRENT == 2 )); then
    commands=(
%s    )
    _describe 'command' commands
    compadd -- %s
    return
fi
shift words
(( CURRENT -= 1 ))
case $words[1] in
%sesac
''' % (name, name, described, ' '.join(more), options)
    return {'bash/' + name: bash, 'zsh/_' + name: zsh}


def main(words: list[str]) -> int:
    """Writes all."""
    if len(words) not in (4, 5):
        print(__doc__, file=sys.stderr)
        return 2
    program, survey, filters, folder, service = words[0], words[1], words[2], pathlib.Path(words[3]), words[4:]
    version = (TOP / 'VERSION').read_text(encoding='utf-8').strip()
    try:
        made = pages_of_program(program, version)
        of_survey, survey_help = page_of_survey(survey, version)
        made |= of_survey | options_of('r10-survey', survey_help)
        of_filters, helps = page_of_filters(filters, version)
        made |= of_filters | page_of_header(TOP / 'ffi' / 'r10.h', version)
        commands = [name for name, _ in Help(said([program, '--help'])).commands]
        made |= completions('r10', {it: Help(said([program, it, '--help'])) for it in commands if it != 'help'},
                            ['help', '--help', '--version'])
        made |= completions('ch10', helps, ['--help', '--version'])
        for it in service:
            of_service, helps = pages_of_service(pathlib.Path(it), version)
            made |= of_service | completions_of_service(helps)
    except (Wrong, ValueError) as wrong:
        print('manual: %s' % wrong, file=sys.stderr)
        return 1
    for name, text in made.items():
        file = folder / name
        file.parent.mkdir(parents=True, exist_ok=True)
        file.write_text(text, encoding='utf-8')
    return 0


if __name__ == '__main__':
    sys.exit(main(sys.argv[1:]))
