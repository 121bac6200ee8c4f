"""What the converters of this folder share: the names, limits and lines of a dictionary text, what another text declares,
and the lines that name values."""
import argparse
import re
import sys

from format_rows import ROWS

FORMATS = {name: name for name, _, _ in ROWS}
# as the RFCs' tables and Erlang write them
FORMATS.update(DiamIdent='DiameterIdentity', DiamURI='DiameterURI')
NAME = re.compile(r'(?=.*[A-Za-z])[A-Za-z0-9][A-Za-z0-9-]*')
CLOSING = {'<': '>', '{': '}', '[': ']'}
WILDCARD = 'AVP'
GREATEST_NAME = 128
GREATEST_NUMBER = 2 ** 32 - 1
GREATEST_VALUE = 2 ** 31 - 1
DECLARED = re.compile(r'%avp\s+([A-Za-z0-9-]+)\s+(\d+)(?:\s+vendor\s+(\d+))?')
DEFINED = re.compile(r'<?\s*([A-Za-z0-9-]+)\s*>?\s*::=\s*<\s*Diameter')


class Beside:
    """What the dictionary texts declare and define that the result is put together with."""

    def __init__(self, paths=()):
        self.names = {}         # name of an AVP -> (code, vendor)
        self.keys = {}          # (code, vendor) -> name
        self.commands = set()
        self.shared = 0         # how many AVPs were left out, since they stand here
        for path in paths:
            with open(path, encoding='utf-8') as file:
                text = re.sub(r';.*', '', file.read())
            for name, code, vendor in DECLARED.findall(text):
                self.names[name] = (int(code), int(vendor or 0))
                self.keys[int(code), int(vendor or 0)] = name
            self.commands.update(DEFINED.findall(text))

    def has(self, name, key):
        """Whether the AVP stands here, and why it can't be declared besides if it doesn't."""
        if key in self.keys:
            self.shared += 1
            return True, None
        return False, 'another AVP has its name in a text of --beside' if name in self.names else None


def name_of(word):
    """A name of a dictionary text for a name of another form, with `-` for other signs, as `_`; None if there is none."""
    name = word if NAME.fullmatch(word) else re.sub(r'-*[^A-Za-z0-9-]+-*', '-', word).strip('-')
    return name if NAME.fullmatch(name) and len(name) <= GREATEST_NAME and name != WILDCARD else None


def renamed(word, name):
    """What is told of a name that the text writes in another way."""
    return f'{word}: written {name}: a name is of letters, digits and -'


def ranges(numbers):
    """A list of values as the text has it."""
    runs = []
    for number in sorted(set(numbers)):
        if runs and runs[-1][1] == number - 1:
            runs[-1][1] = number
        else:
            runs.append([number, number])
    return ' '.join(str(low) if low == high else f'{low}..{high}' for low, high in runs)


def declaration(name, code, vendor, kind, rule, numbers=()):
    owner, values = f'vendor {vendor} ' if vendor else '', ranges(numbers)
    return f'%avp {name} {code} {owner}{kind} {rule}' + (f' ( {values} )' if values else '')


def definition(name, head, rules):
    """The lines of a definition; a rule is (qualifier, opening bracket, name)."""
    yield f'<{name}> ::= < {head} >'
    for qualifier, opening, avp in rules:
        yield f'  {qualifier}{" " if qualifier else ""}{opening} {avp} {CLOSING[opening]}'


def open_group(name, code, vendor, members=()):
    """A group that accepts any AVPs, and names these members."""
    head = f'AVP Header: {code}{f" {vendor}" if vendor else ""}'
    return definition(name, head, [('*', '[', member) for member in (*members, WILDCARD)])


def write_values(path, values):
    """Lines `AVP-NAME NUMBER WORD`. A word has no blanks, and no # begins it."""
    with open(path, 'w', encoding='utf-8') as file:
        for avp, number, word in dict.fromkeys(values):
            word = re.sub(r'[^!-~]+', '_', word.strip()).lstrip('#')
            if word:
                file.write(f'{avp} {number} {word}\n')


def parser_of(script, what, has_values=True):
    """The words that all converters take. Their help is the script's own text."""
    parser = argparse.ArgumentParser(description=script, formatter_class=argparse.RawDescriptionHelpFormatter)
    parser.add_argument('file', metavar='FILE', help=what)
    parser.add_argument('--beside', metavar='MINE', action='append', default=[],
                        help='a dictionary text that the result is put together with: what it declares is left out')
    if has_values:
        parser.add_argument('--values', metavar='OUT', help='a file for the names of values, as lines AVP-NAME NUMBER WORD')
    return parser


def finish(lines, told, path, beside):
    """Writes the text to standard output, and what is told, (path, line) and what, to standard error. The status is 1 where the text
    has no AVP and no command, and it isn't --beside that has them all."""
    lines = list(lines)
    sys.stdout.write(''.join(line + '\n' for line in lines))
    for (where, line), what in sorted(told):
        print(f'{where}:{line}: {what}', file=sys.stderr)
    if beside.shared:
        print(f'{path}: left out, since the texts of --beside declare them: {beside.shared} of its AVPs', file=sys.stderr)
    elif all(line.startswith(';') for line in lines):
        sys.exit(f'{path}: no AVP and no command of it is in the text')
