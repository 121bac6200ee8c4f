#!/usr/bin/env python3
"""Writes a dictionary of go-diameter (XML with applications, commands and AVPs) as a dictionary text of diacmd.

What has no place in the text, and what the file doesn't say, is told on standard error, as FILE:LINE: WHAT.

- The command NAME is NAME-Request and NAME-Answer, with the application's id unless that is 0.
- A rule is { X } where required is true or min isn't 0, and else [ X ]; without max there is no greatest count.
- The file doesn't say which AVPs come first: no rule is < X >. Nor which commands are proxiable: PXY for all but the base's
  capabilities exchange, disconnection and watchdog (257, 282 and 280), told.
- A command or group without a rule for AVP takes no AVPs but those it lists; --open lets others in.
- M in must is the M rule `must`, in must-not `mustnot`, else `any`.
- A name has `-` for each run of other signs, as `_`, told.
- Of two AVPs with one code and vendor, or one name, the first is kept; the other is told if it differs.
"""
import re
import sys
from xml.parsers import expat

from dictionary_text import (FORMATS, GREATEST_NUMBER, GREATEST_VALUE, WILDCARD, Beside, declaration, definition, finish,
                             name_of, open_group, parser_of, renamed, write_values)

# commands of the base that no proxy forwards (RFC 6733 sections 5.3 to 5.5)
NOT_PROXIABLE = {257, 280, 282}
# the bytes of an address, without its family
BYTES = {'IPv4', 'IPv6'}


class Part:
    """An AVP, or a request or an answer: where it stands, its attributes, and its rules."""

    def __init__(self, place, attributes, application):
        self.place = place
        self.attributes = attributes
        self.application = application
        self.is_answer = False
        self.kind = None
        self.rules = []         # (place, attributes)
        self.items = []         # (place, code, word)


class File:
    """The AVPs and the commands of a file, in order."""

    def __init__(self, path):
        self.path = path
        self.avps, self.commands, self.told = [], [], []
        self.application, self.command, self.under_way = 0, None, None

    def start(self, line, tag, attributes):
        place = (self.path, line)
        if tag == 'application':
            self.application = int(attributes['id'])
        elif tag == 'command':
            self.command = attributes
        elif tag in ('request', 'answer') and self.command is not None:
            self.under_way = Part(place, self.command, self.application)
            self.under_way.is_answer = tag == 'answer'
            self.commands.append(self.under_way)
        elif tag == 'avp':
            self.under_way = Part(place, attributes, self.application)
            self.avps.append(self.under_way)
        elif self.under_way is None:
            return
        elif tag == 'data':
            self.under_way.kind = attributes.get('type')
        elif tag == 'rule':
            self.under_way.rules.append((place, attributes))
        elif tag == 'item':
            self.under_way.items.append((place, attributes.get('code', ''), attributes.get('name', '')))


def read(path):
    file, parser = File(path), expat.ParserCreate()
    parser.StartElementHandler = lambda tag, attributes: file.start(parser.CurrentLineNumber, tag, attributes)
    with open(path, 'rb') as source:
        parser.ParseFile(source)
    if not file.avps and not file.commands:
        raise ValueError('it has no commands and no AVPs')
    return file


class Text:
    """The lines of the result."""

    def __init__(self, beside, is_open):
        self.beside = beside
        self.is_open = is_open
        self.names, self.keys = {}, {}      # name -> (code, vendor), and back
        self.declarations, self.groups, self.commands = [], [], []
        self.values = []
        self.renames = {}                   # a name of the file -> that of a text of --beside
        self.rule_names = set()
        self.told = []
        self.closed = 0                     # how many commands and groups list no further AVPs

    def avp(self, avp):
        word, code = avp.attributes.get('name', ''), avp.attributes.get('code', '')
        vendor = int(avp.attributes.get('vendor-id') or 0)
        name = name_of(word)
        kind = 'OctetString' if avp.kind in BYTES else FORMATS.get(avp.kind)
        key = (int(code) if code.isdigit() else None, vendor)
        is_shared, reason = self.beside.has(name, key)
        if name is None:
            reason = 'no name of a dictionary text'
        elif key[0] is None or key[0] > GREATEST_NUMBER:
            reason = f'no code: {code}'
        elif kind is None:
            reason = f'no format of a dictionary text: {avp.kind}'
        elif key in self.keys or name in self.names:
            # an application may repeat what another declares
            is_shared, reason = self.keys.get(key) == name, 'its name, or its code and vendor, stand before'
        if is_shared:
            self.shared(avp.place, name, key)
            return
        if reason:
            self.tell(avp.place, f'{word}: left out: {reason}')
            return
        if word != name:
            self.tell(avp.place, renamed(word, name))
        if avp.kind in BYTES:
            self.tell(avp.place, f'{name}: OctetString: {avp.kind} is the bytes of an address alone')
        self.names[name], self.keys[key] = key, name
        self.declarations.append(declaration(name, *key, kind, rule_of_flags(avp.attributes), self.numbers(avp, name, kind)))

    def shared(self, place, name, key):
        """An AVP that stands elsewhere, maybe with another name."""
        mine = self.beside.keys.get(key, name)
        if mine != name:
            self.renames[name] = mine
            self.tell(place, f'{name}: {mine} in a text of --beside, and so in the rules')

    def numbers(self, avp, name, kind):
        """The numbers of an Enumerated's list. The words of any AVP are kept."""
        numbers = []
        for place, code, word in avp.items:
            if not re.fullmatch(r'-?\d+', code):
                self.tell(place, f'{name}: the value {word} {code} left out: no number')
                continue
            self.values.append((name, int(code), word))
            if kind == 'Enumerated' and 0 <= int(code) <= GREATEST_VALUE:
                numbers.append(int(code))
            elif kind == 'Enumerated':
                self.tell(place, f'{name}: the value {word} {code} left out: no number of a list')
        return numbers

    def group(self, avp):
        name = name_of(avp.attributes.get('name', ''))
        key = self.names.get(name)
        if avp.kind != 'Grouped' or key is None or key[0] != int(avp.attributes['code']):
            return
        if avp.rules:
            head = f'AVP Header: {key[0]}{f" {key[1]}" if key[1] else ""}'
            self.groups += definition(name, head, self.rules(avp))
        else:
            self.tell(avp.place, f'{name}: Grouped, and the file has no rules of its members: any AVPs')
            self.groups += open_group(name, *key)

    def command(self, command, prefix, taken):
        code, word = int(command.attributes['code']), command.attributes.get('name', '')
        name = name_of(f'{prefix}{word}-{"Answer" if command.is_answer else "Request"}')
        if name is None:
            self.tell(command.place, f'{word}: left out: no name of a dictionary text')
            return
        if name in taken or name in self.beside.commands:
            self.tell(command.place, f'{name}: the name of another command too: --prefix WORD begins the names of this file\'s')
        taken.add(name)
        flags = ['REQ'] * (not command.is_answer) + ['PXY'] * (code not in NOT_PROXIABLE)
        parts = [str(code), *flags] + [str(command.application)] * (command.application != 0)
        self.commands += definition(name, f'Diameter Header: {", ".join(parts)}', self.rules(command))

    def rules(self, part):
        rules = [rule for place, attributes in part.rules for rule in self.rule(place, attributes)]
        if all(name != WILDCARD for _, _, name in rules):
            self.closed += 1
            rules += [('*', '[', WILDCARD)] * self.is_open
        return rules

    def rule(self, place, attributes):
        word = attributes.get('avp', '')
        name = word if word == WILDCARD else name_of(word)
        if name is None:
            self.tell(place, f'{word}: its rule left out: no name of a dictionary text')
            return
        low, high = int(attributes.get('min') or 0), int(attributes.get('max') or 0)
        is_required = attributes.get('required', '').lower() in ('true', '1', 't') or low > 0
        low = max(low, 1) if is_required else 0
        name = self.renames.get(name, name)
        self.rule_names.add(name)
        yield qualifier_of(low, high, is_required), '{' if is_required else '[', name

    def tell(self, place, what):
        self.told.append((place, what))

    def tell_whole(self, path):
        """What is told of the file as a whole."""
        place = (path, 1)
        gone = sorted(self.rule_names - set(self.names) - set(self.beside.names) - {WILDCARD})
        if gone:
            self.tell(place, f'put the dictionaries before this one that declare {", ".join(gone)}')
        if self.commands:
            self.tell(place, 'the file doesn\'t say which commands are proxiable: PXY for all but the codes 257, 280 and 282')
        if self.closed and not self.is_open:
            self.tell(place, f'{self.closed} commands and groups take only the AVPs they list: --open lets others in')


def qualifier_of(low, high, is_required):
    """A qualifier in canonical form; without one it is one, or at most one."""
    if high == 1 and low == is_required:
        return ''
    return f'{low or ""}*{high or ""}'


def rule_of_flags(attributes):
    """The M rule; flags stand with or without commas between."""
    has = [re.findall('[A-Z]', attributes.get(name, '').upper()) for name in ('must', 'must-not')]
    return 'must' if 'M' in has[0] else 'mustnot' if 'M' in has[1] else 'any'


def main():
    parser = parser_of(__doc__, 'a dictionary of go-diameter')
    parser.add_argument('--prefix', metavar='WORD', default='', help='what the names of commands begin with, so that they '
                                                                    'can stand beside others of the same names')
    parser.add_argument('--open', action='store_true', help='lets AVPs that they don\'t list into all commands and groups')
    arguments = parser.parse_args()
    path = arguments.file
    try:
        beside = Beside(arguments.beside)
        file, text = read(path), Text(beside, arguments.open)
        for avp in file.avps:
            text.avp(avp)
        for avp in file.avps:
            text.group(avp)
        taken = set()
        for command in file.commands:
            text.command(command, arguments.prefix, taken)
    except (OSError, expat.ExpatError, ValueError, KeyError) as error:
        sys.exit(f'{path}: no dictionary of go-diameter: {error}')
    if arguments.values:
        write_values(arguments.values, text.values)
    text.tell_whole(path)
    finish(text.declarations + text.groups + text.commands, text.told, path, beside)


if __name__ == '__main__':
    main()
