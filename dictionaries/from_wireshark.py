#!/usr/bin/env python3
"""Writes a dictionary of wireshark (dictionary.xml, or one of the files beside it) as a dictionary text of diacmd.

What has no place in the text, and what the file doesn't say, is told on standard error, as FILE:LINE: WHAT.

- The file has the members of a group without counts: each group accepts any AVPs, and with --members it also names its members.
- The file has commands by name alone: each is a comment.
- The attribute mandatory is the M rule: must; mustnot; may and shouldnot are any. Without it the rule is any, told.
- The format IPAddress is an Address or the bytes of one alone: OctetString, told.
- A name has `-` for each run of other signs, as `_`, told.
- Of two AVPs with one code and vendor, or one name, the first is kept; the other is told.
"""
import os
import re
import sys
from xml.parsers import expat

from dictionary_text import (FORMATS, GREATEST_NUMBER, GREATEST_VALUE, Beside, declaration, finish, name_of, open_group,
                             parser_of, renamed, write_values)

# an address with its family, or the bytes of one alone: the file doesn't say which
EITHER = 'IPAddress'
RULES = {'must': 'must', 'mustnot': 'mustnot', 'may': 'any', 'shouldnot': 'any'}
# a document type, whose entities stand in brackets, if it has any
PROLOGUE = re.compile(r'<!--.*?-->|<\?.*?\?>|<!DOCTYPE[^\[>]*(?:\[.*?\]\s*)?>', re.DOTALL)


class Avp:
    """An AVP as the file has it."""

    def __init__(self, place, attributes):
        self.place = place
        self.attributes = attributes
        self.type = None
        self.values = []
        self.members = []       # (place, name)


class File:
    """What one file, and those that it takes in, have."""

    def __init__(self):
        self.avps = []
        self.commands = []      # (place, name, code)
        self.vendors = {'None': 0}
        self.parents = {}       # a format of the file -> the format that it is kept as
        self.told = []          # (place, what)
        self.elements = 0

    def start(self, place, tag, attributes):
        self.elements += 1
        if tag == 'avp':
            self.avps.append(Avp(place, attributes))
        elif tag == 'type' and self.avps:
            self.avps[-1].type = attributes.get('type-name')
        elif tag == 'grouped' and self.avps:
            self.avps[-1].type = 'Grouped'
        elif tag == 'gavp' and self.avps:
            self.avps[-1].members.append((place, attributes.get('name', '').strip()))
        elif tag == 'enum' and self.avps:
            self.avps[-1].values.append((place, attributes.get('name'), attributes.get('code', '')))
        elif tag == 'command':
            self.commands.append((place, attributes.get('name'), attributes.get('code')))
        elif tag == 'vendor':
            self.vendors[attributes.get('vendor-id')] = int(attributes['code'])
        elif tag == 'typedefn':
            self.parents[attributes.get('type-name')] = attributes.get('type-parent')


def read(path, into):
    """Reads a file, and where it names another as an entity, that one."""
    with open(path, encoding='utf-8') as file:
        text = file.read()
    entities = dict(re.findall(r'<!ENTITY\s+(\S+)\s+SYSTEM\s+"([^"]+)"\s*>', text))
    text = PROLOGUE.sub(lambda gone: '\n' * gone[0].count('\n'), text)
    text = re.sub(r'&(?!amp;|lt;|gt;|quot;|apos;|#)(\w+);', r'<entity name="\1"/>', text)
    parser = expat.ParserCreate()

    def start(tag, attributes):
        place = (path, parser.CurrentLineNumber)
        if tag not in ('all', 'entity'):
            into.start(place, tag, attributes)
        elif attributes.get('name') in entities:
            read(os.path.join(os.path.dirname(path), entities[attributes['name']]), into)
        elif tag == 'entity':
            into.told.append((place, f'&{attributes["name"]};: left out: the file has no such entity'))

    parser.StartElementHandler = start
    # a file that others take in may have several elements at its top
    parser.Parse(f'<all>{text}</all>', True)


def format_of(name, file):
    """The format of the text for one of the file, and None if there is none."""
    for _ in range(len(file.parents) + 1):
        if name in FORMATS:
            return name
        name = file.parents.get(name)
    return None


def values_of(avp, kind, name, told):
    """The numbers of an Enumerated's list."""
    if avp.values and kind != 'Enumerated':
        told.append((avp.place, f'{name}: its names of values left out: {kind} has no list'))
        return []
    numbers = []
    for place, label, code in avp.values:
        if re.fullmatch(r'\d+', code) and int(code) <= GREATEST_VALUE:
            numbers.append(int(code))
        else:
            told.append((place, f'{name}: the value {label} {code} left out: no number of a list'))
    return numbers


def convert(file, vendors, beside):
    """The AVPs that the text can have: (name, code, vendor, format, M rule, numbers). Tells of all others."""
    names, keys, kept = set(), set(), []
    for avp in file.avps:
        word, code = avp.attributes.get('name', ''), avp.attributes.get('code', '')
        name, vendor = name_of(word), vendors.get(avp.attributes.get('vendor-id', 'None'))
        key = (int(code) if code.isdigit() else None, vendor)
        kind = format_of(avp.type, file)
        is_shared, reason = beside.has(name, key)
        if is_shared:
            continue
        if name is None:
            reason = 'no name of a dictionary text'
        elif key[0] is None or key[0] > GREATEST_NUMBER:
            reason = f'no code: {code}'
        elif vendor is None:
            reason = f'its vendor is unknown: {avp.attributes["vendor-id"]}'
        elif kind is None:
            reason = f'no format of a dictionary text: {avp.type}'
        elif name in names or key in keys:
            reason = 'its name, or its code and vendor, stand before'
        if reason:
            file.told.append((avp.place, f'{word}: left out: {reason}'))
            continue
        if word != name:
            file.told.append((avp.place, renamed(word, name)))
        if avp.type == EITHER:
            file.told.append((avp.place, f'{name}: OctetString: {EITHER} is an Address, or the bytes of one alone'))
        rule = RULES.get(avp.attributes.get('mandatory'))
        if rule is None:
            file.told.append((avp.place, f'{name}: the file has no M rule for it: any'))
        names.add(name)
        keys.add(key)
        kept.append((name, key[0], vendor, kind, rule or 'any', values_of(avp, kind, name, file.told)))
    return kept


def key_of(avp, vendors):
    """The code and the vendor of an AVP of the file."""
    return int(avp.attributes['code']), vendors.get(avp.attributes.get('vendor-id', 'None'))


def found_as(keys, vendor):
    """Which of the AVPs of its name a member is: the one of the group's vendor, else of none, else the first."""
    of_vendor = [key for wanted in (vendor, 0) for key in keys if key[1] == wanted]
    return next(iter(of_vendor + keys), None)


def members_of(file, kept, beside):
    """The members of each group: the key of the group -> the names of its members. Reports those that aren't declared."""
    avps, names, members = {}, {**beside.keys, **{(code, vendor): name for name, code, vendor, _, _, _ in kept}}, {}
    with_codes = [avp for avp in file.avps if avp.attributes.get('code', '').isdigit()]
    for avp in with_codes:
        avps.setdefault(avp.attributes.get('name', '').strip(), []).append(key_of(avp, file.vendors))
    groups = {(code, vendor) for _, code, vendor, kind, _, _ in kept if kind == 'Grouped'}
    for avp in with_codes:
        key = key_of(avp, file.vendors)
        if key not in groups:
            continue
        of_group = members.setdefault(key, [])
        for place, word in avp.members:
            name = names.get(found_as(avps.get(word, []), key[1]))
            if name is None:
                file.told.append((place, f'{avp.attributes["name"]}: its member {word} left out: it isn\'t declared'))
            elif name not in of_group:
                of_group.append(name)
    return members


def words_of(file):
    """The words of all values: (AVP, number, word)."""
    return [(name_of(avp.attributes.get('name', '')), int(code), word) for avp in file.avps for _, word, code in avp.values
            if code.isdigit() and word and name_of(avp.attributes.get('name', ''))]


def lines_of(avps, commands, members):
    """The dictionary text, in canonical form but for its comments."""
    lines = [declaration(*avp) for avp in avps]
    for name, code, vendor, kind, _, _ in avps:
        if kind == 'Grouped':
            lines += open_group(name, code, vendor, members.get((code, vendor), ()))
    return lines + [f'; command {code} {name}: the file has no format of it' for _, name, code in commands]


def main():
    parser = parser_of(__doc__, 'dictionary.xml, or a file beside it')
    parser.add_argument('--base', metavar='XML', help='the dictionary.xml that has the vendors and formats of FILE, if FILE '
                                                      'is another')
    parser.add_argument('--members', action='store_true', help='write * [ NAME ] in a group for each member that the file has')
    arguments = parser.parse_args()
    file = File()
    try:
        beside = Beside(arguments.beside)
        if arguments.base:
            base = File()
            read(arguments.base, base)
            file.vendors, file.parents = base.vendors, base.parents
        read(arguments.file, file)
        if file.elements == 0:
            raise ValueError('it has no elements')
        avps = convert(file, file.vendors, beside)
        members = members_of(file, avps, beside) if arguments.members else {}
    except (OSError, expat.ExpatError, ValueError, KeyError) as error:
        sys.exit(f'{arguments.file}: no dictionary of wireshark: {error}')
    if arguments.values:
        write_values(arguments.values, words_of(file))
    told = file.told + [(place, f'the command {name}: a comment: the file has no format of it')
                        for place, name, _ in file.commands]
    finish(lines_of(avps, file.commands, members), told, arguments.file, beside)


if __name__ == '__main__':
    main()
