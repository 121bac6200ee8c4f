#!/usr/bin/env python3
"""Makes the man page and the completions for bash, zsh and fish from what the program says of itself.

    completions/generate.py PROGRAM [FOLDER]

The program's `--version`, its `--help` and that of each command are all that is read. Written are docs/diacmd.1,
completions/diacmd.bash, completions/_diacmd and completions/diacmd.fish below FOLDER, the repository if none is given.
"""
import pathlib
import re
import subprocess
import sys

MADE = 'Made by completions/generate.py from the help of the program: change that, and make it anew.'
SECTION = re.compile(r'([A-Z][a-z]+):(?: (.*))?')
ROW = re.compile(r' {2,6}(\S.*?)(?: {2,}(\S.*))?')
OPTION = re.compile(r'(?:(-\w), )?(--[a-z-]+)(?: <([A-Z]+)>)?')
POSSIBLE = re.compile(r' \[possible values: ([^\]]+)\]')
# an argument of this kind may be @base
DICTIONARY = re.compile(r'@base')


class Option:
    def __init__(self, words, text):
        self.short, self.long, self.value = OPTION.fullmatch(words).groups()
        values = POSSIBLE.search(text)
        self.values = values[1].split(', ') if values else []
        self.words = words
        self.text = text
        # what stands in brackets is in the man page alone
        self.brief = re.sub(r' \[[^\]]*\]', '', text)


class Argument:
    def __init__(self, words, text):
        self.words = words
        self.name = re.sub(r'[^A-Z]', '', words)
        self.is_many = words.endswith('...')
        self.text = text
        self.is_command = self.name == 'COMMAND'
        self.is_dictionary = bool(DICTIONARY.search(text))


def printed_by(program, *words):
    """What the program prints under the name `diacmd`, whatever its file is called."""
    return subprocess.run(['diacmd', *words], executable=program, capture_output=True, encoding='utf-8', check=True).stdout


class Help:
    """A text of help: its sections, with the rows of each."""

    def __init__(self, program, *words):
        text = printed_by(program, *words, '--help')
        self.about, *rest = text.rstrip('\n').split('\n')
        self.usage, self.rows = '', {}
        rows = []
        for line in rest:
            section, row = SECTION.fullmatch(line), ROW.fullmatch(line)
            if section and section[2]:
                self.usage = section[2]
            elif section:
                rows = self.rows.setdefault(section[1], [])
            elif row:
                rows.append((row[1], row[2] or ''))
        self.options = [Option(*row) for row in self.rows.get('Options', [])]
        self.arguments = [Argument(*row) for row in self.rows.get('Arguments', [])]


class Program:
    def __init__(self, program):
        # without the commit and the kit
        self.version = ' '.join(printed_by(program, '--version').split()[:2])
        self.help = Help(program)
        self.briefs = dict(self.help.rows['Commands'])
        self.commands = {name: Help(program, name) for name in self.briefs if name != 'help'}


def roff(text):
    """A line of the man page: no sign of it is a request or an escape."""
    text = text.replace('\\', '\\e').replace('-', '\\-')
    return '\\&' + text if text[:1] in ("'", '.') else text


def bold(words):
    """An option or an argument, with its name in bold and its value in italics."""
    text = roff(words)
    text = re.sub(r'<([A-Z]+)>|\[([A-Z]+)\]', lambda name: f'\\fI{name[1]}\\fR' if name[1] else f'[\\fI{name[2]}\\fR]', text)
    return re.sub(r'(?<![\w\\])((?:\\-){1,2}[a-z](?:[a-z]|\\-)*)', r'\\fB\1\\fR', text)


def man_rows(rows):
    for words, text in rows:
        yield from ('.TP', bold(words), roff(text))


def man_page(program):
    """The man page, in the macros of man(7)."""
    yield from (f'.\\" {MADE}', f'.TH DIACMD 1 "" "{roff(program.version)}" ""')
    yield from ('.SH NAME', f'diacmd \\- {roff(program.help.about[0].lower() + program.help.about[1:])}')
    yield '.SH SYNOPSIS'
    for name, command in program.commands.items():
        rest = command.usage.removeprefix(f'diacmd {name} ').replace('[OPTIONS]', '[options]')
        yield from (f'\\fBdiacmd {name}\\fR {bold(rest)}', '.br')
    yield from ('\\fBdiacmd\\fR \\fB\\-\\-help\\fR | \\fB\\-\\-version\\fR | \\fBhelp\\fR \\fICOMMAND\\fR', '.SH COMMANDS')
    for name, command in program.commands.items():
        yield from (f'.SS {name}', roff(command.about) + '.')
        yield from man_rows([(argument.words, argument.text) for argument in command.arguments])
        yield from man_rows([(option.words, option.text) for option in command.options])
    yield '.SH EXIT STATUS'
    yield from man_rows(program.help.rows['Status'])
    yield from ('.SH FILES', '.TP', '\\fIPREFIX\\fR/share/diacmd', 'Dictionaries of RFCs and of 3GPP, in parts and put together.')
    yield from ('.SH SEE ALSO', 'The documents of the repository: README.md, docs/UPGRADING.md, docs/CAPTURES.md, '
                'docs/FAULTS.md, docs/FORMATS.md and dictionaries/README.md.')


def words_of(help_):
    return ' '.join(word for option in help_.options for word in (option.short, option.long) if word)


def bash(program):
    yield from (f'# {MADE}', '', '_diacmd() {',
                '    local word=${COMP_WORDS[COMP_CWORD]} before=${COMP_WORDS[COMP_CWORD - 1]} command=${COMP_WORDS[1]} words=',
                '    COMPREPLY=()', '    [ "$before" = = ] && before=${COMP_WORDS[COMP_CWORD - 2]}',
                '    [ "$word" = = ] && word=',
                '    case $COMP_CWORD:$command:$before in',
                f'        1:*) words=\'{" ".join(program.briefs)} {words_of(program.help)}\' ;;',
                f'        *:help:*) words=\'{" ".join(program.briefs)}\' ;;')
    for name, command in program.commands.items():
        for option in command.options:
            if option.value and option.values:
                yield f'        *:{name}:{option.long}) words=\'{" ".join(option.values)}\' ;;'
            elif option.value == 'N':
                yield f'        *:{name}:{option.long}) return ;;'
    yield '        *) case $command:$word in'
    for name, command in program.commands.items():
        yield f'            {name}:-*) words=\'{words_of(command)}\' ;;'
    # the sign @ parts words
    yield from ('        esac ;;', '    esac', '    if [ -n "$words" ]; then',
                '        mapfile -t COMPREPLY < <(compgen -W "$words" -- "$word")',
                '    elif [ "$before" = @ ] || [ "$word" = @ ]; then',
                '        mapfile -t COMPREPLY < <(compgen -W base -- "${word#@}")',
                '    else', '        compopt -o filenames 2> /dev/null',
                '        mapfile -t COMPREPLY < <(compgen -f -- "$word")', '    fi', '}', 'complete -F _diacmd diacmd')


def quoted(text):
    """Text within single quotes of zsh and fish."""
    return text.replace('\\', '\\\\').replace("'", "\\'")


def zsh_text(text):
    """Text of a description of _arguments, within single quotes."""
    text = re.sub(r'([\\:\[\]])', r'\\\1', text)
    return text.replace("'", "'\\''")


def zsh_options(options):
    for option in options:
        value = f':{option.value}:{zsh_values(option)}' if option.value else ''
        yield f'\'{option.long}[{zsh_text(option.brief)}]{value}\''
        if option.short:
            yield f'\'{option.short}[{zsh_text(option.brief)}]\''


def zsh_values(option):
    return f'({" ".join(option.values)})' if option.values else '_diacmd_dictionary' if option.value == 'D' else ' '


def zsh_argument(argument):
    place = '*' if argument.is_many else ''
    kind = ' ' if argument.is_command else '_diacmd_dictionary' if argument.is_dictionary else '_files'
    return f'\'{place}:{argument.name}:{kind}\''


def zsh(program):
    yield from ('#compdef diacmd', f'# {MADE}', '', '_diacmd_dictionary() {',
                "    _alternative 'files:file:_files' 'base:dictionary:(@base)'", '}', '',
                '_diacmd() {', '    local state line', '    local -a commands=(')
    for name, about in program.briefs.items():
        yield f'        \'{name}:{zsh_text(about)}\''
    yield from ('    )', f'    _arguments -C {" ".join(zsh_options(program.help.options))} \'1: :->command\' \'*:: :->words\'',
                '    case $state in', "        command) _describe 'command' commands ;;", '        words) case $words[1] in')
    for name, command in program.commands.items():
        words = [*zsh_options(command.options), *map(zsh_argument, command.arguments)]
        yield f'            {name}) _arguments ' + ' \\\n                '.join(words) + ' ;;'
    yield from ("            help) _describe 'command' commands ;;", '        esac ;;', '    esac', '}', '', '_diacmd "$@"')


def fish(program):
    yield from (f'# {MADE}', '', 'complete -c diacmd -f')
    for name, about in program.briefs.items():
        yield f'complete -c diacmd -n __fish_use_subcommand -a {name} -d \'{quoted(about)}\''
    for option in program.help.options:
        yield from fish_option('__fish_use_subcommand', option)
    for name, command in program.commands.items():
        seen = f"'__fish_seen_subcommand_from {name}'"
        yield f'complete -c diacmd -n {seen} -F'
        if any(argument.is_dictionary for argument in command.arguments):
            yield f'complete -c diacmd -n {seen} -a @base -d \'The built-in base dictionary\''
        for option in command.options:
            yield from fish_option(seen, option)
    yield f'complete -c diacmd -n \'__fish_seen_subcommand_from help\' -a \'{" ".join(program.briefs)}\''


def fish_option(condition, option):
    short = f' -s {option.short[1:]}' if option.short else ''
    value = '' if not option.value else ' -r -F' if option.value == 'D' else ' -x'
    if option.values:
        value += f' -a \'{" ".join(option.values)}\''
    yield f'complete -c diacmd -n {condition}{short} -l {option.long[2:]}{value} -d \'{quoted(option.brief)}\''


FILES = {'docs/diacmd.1': man_page, 'completions/diacmd.bash': bash, 'completions/_diacmd': zsh, 'completions/diacmd.fish': fish}


def main():
    if len(sys.argv) not in (2, 3) or sys.argv[1] in ('-h', '--help'):
        print(__doc__)
        return len(sys.argv) != 2
    program = Program(sys.argv[1])
    top = pathlib.Path(sys.argv[2] if len(sys.argv) == 3 else pathlib.Path(__file__).resolve().parent.parent)
    for name, make in FILES.items():
        path = top / name
        path.parent.mkdir(parents=True, exist_ok=True)
        path.write_text(''.join(line + '\n' for line in make(program)), encoding='utf-8')
    return 0


if __name__ == '__main__':
    sys.exit(main())
