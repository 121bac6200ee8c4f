#!/usr/bin/env python3
"""Writes a dictionary of Erlang/OTP's diameter application (a .dia file) as a dictionary text of diacmd.

What has no place in the text, and what the file doesn't say, is told on standard error, as FILE:LINE: WHAT.

- A message has the file's @id as its Application-ID, unless that is 0.
- An AVP with the flag M has the M rule `must`. A file doesn't say whether one without it may have the flag: `any`, told.
- An AVP with the flag V has the vendor of @avp_vendor_id, or else that of @vendor.
- What @inherits names has to be put before the result, with `cat`: told.
- A name has `-` for each run of other signs, as `_`, told.
"""
import re
import sys

from dictionary_text import (CLOSING, FORMATS, GREATEST_VALUE, WILDCARD, Beside, declaration, definition, finish, name_of,
                             parser_of, renamed, write_values)

# where to find what @inherits names, for Erlang/OTP's own dictionaries
INHERITED = {
    'common': 'the base, as rfc6733.txt or rfc3588.txt', 'diameter_gen_base_rfc6733': 'rfc6733.txt',
    'diameter_gen_base_rfc3588': 'rfc3588.txt', 'rfc4005_nas': 'rfc4005-avps.txt', 'rfc4590_digest': 'rfc4590_digest.dia',
}
TOKEN = re.compile(r"'[^']*'|::=|[<>{}\[\]*,:]|@?[^\s<>{}\[\]*,:;']+")


class Dictionary:
    """What is read of a file, or put together for a text: every part has the line it began on."""

    def __init__(self):
        self.application = 0
        self.inherits = []      # (line, name)
        self.avps = []          # (line, name, code, vendor, format, M rule)
        self.values = {}        # name of an AVP -> numbers, in order
        self.words = []         # (name of an AVP, number, word)
        self.definitions = []   # (line, name, head, rules); a rule is (qualifier, opening bracket, name)
        self.told = []          # (line, what)

    def tell(self, line, what):
        self.told.append((line, what))


def number(word):
    """A number of the file: decimal, or hexadecimal with 0x."""
    return int(word, 16 if word.lower().startswith('0x') else 10)


def tokens(text):
    """Each section of the file: its line, keyword, and tokens with their lines."""
    sections = []
    for number, line in enumerate(text.split('\n'), 1):
        for token in TOKEN.findall(re.sub(r';.*', '', line)):
            if token.startswith('@'):
                sections.append((number, token, []))
            elif sections:
                sections[-1][2].append((number, token))
    ends = next((place for place, section in enumerate(sections) if section[1] == '@end'), len(sections))
    return sections[:ends]


def read_vendors(dictionary, sections):
    """The vendor of the file, and those of single AVPs."""
    vendor, single = None, {}
    for line, keyword, words in sections:
        numbers = [word for _, word in words]
        if keyword == '@vendor':
            vendor = number(numbers[0])
        elif keyword == '@avp_vendor_id':
            single.update((name, number(numbers[0])) for name in numbers[1:])
        elif keyword == '@id':
            dictionary.application = number(numbers[0])
        elif keyword == '@inherits':
            dictionary.inherits.append((line, numbers[0]))
    return vendor, single


def read_avps(dictionary, words, vendor, single):
    """The AVPs of @avp_types: four words each."""
    if len(words) % 4:
        dictionary.tell(words[-1][0], '@avp_types: an AVP has no four words: the last is left out')
    for place in range(0, len(words) - 3, 4):
        (line, word), (_, code), (_, kind), (_, flags) = words[place:place + 4]
        name = name_of(word)
        if name is None or kind not in FORMATS:
            dictionary.tell(line, f'{word}: left out: no name, or no format, of a dictionary text ({kind})')
            continue
        if name != word:
            dictionary.tell(line, renamed(word, name))
        own = single.get(word, vendor) if 'V' in flags else 0
        if own is None:
            dictionary.tell(line, f'{name}: left out: its vendor is unknown')
            continue
        if 'M' not in flags:
            dictionary.tell(line, f'{name}: the file has no M rule for it: any')
        dictionary.avps.append((line, name, number(code), own, FORMATS[kind], 'must' if 'M' in flags else 'any'))


def read_definitions(dictionary, words):
    """The definitions of @messages and @grouped: NAME ::= < HEAD > RULE.."""
    marks = [place for place, (_, word) in enumerate(words) if word == '::=']
    for mark, following in zip(marks, marks[1:] + [len(words) + 1]):
        line, name = words[mark - 1]
        body = [word for _, word in words[mark + 1:following - 1]]
        end = body.index('>') if '>' in body else len(body)
        rules, problem = read_rules(body[end + 1:])
        head = read_head(body[1:end], dictionary.application)
        if problem or head is None:
            dictionary.tell(line, f'{name}: left out: {problem or "its header has another form"}')
        else:
            dictionary.definitions.append((line, name_of(name) or name, head, rules))


def read_head(words, application):
    """A header as the text has it, or None."""
    if not words:
        return None
    numbers = [word for word in words if word.isdigit()]
    flags = {word.upper() for word in words}
    if words[0].upper() == 'AVP':
        return 'AVP Header: ' + ' '.join(numbers)
    if 'CODE' in flags and 'ERR' in flags:
        return 'Diameter Header: code, ERR' + (', PXY' if 'PXY' in flags and '[' not in words else '') \
            + (' [, PXY]' if 'PXY' in flags and '[' in words else '')
    if not numbers or 'ERR' in flags:
        return None
    parts = numbers[:1] + [flag for flag in ('REQ', 'PXY') if flag in flags]
    own = numbers[1:] or ([str(application)] if application else [])
    return 'Diameter Header: ' + ', '.join(parts + own)


def read_rules(words):
    """The rules, and what is wrong with the first that has another form."""
    rules, place = [], 0
    while place < len(words):
        start = place
        while place < len(words) and (words[place].isdigit() or words[place] == '*'):
            place += 1
        rule = words[place:place + 3]
        name = name_of(rule[1]) if rule[1:2] not in ([], [WILDCARD]) else WILDCARD
        if len(rule) < 3 or CLOSING.get(rule[0]) != rule[2] or name is None:
            return rules, f'a rule has another form, at {" ".join(words[start:place + 3])}'
        rules.append((''.join(words[start:place]), rule[0], name))
        place += 3
    return rules, None


def read_values(dictionary, line, words):
    """The list of values of @enum: the AVP's name, then a name and a number each."""
    name, numbers = name_of(words[0][1]) or words[0][1], []
    for (at, label), (_, value) in zip(words[1::2], words[2::2]):
        dictionary.words.append((name, number(value), label))
        if not 0 <= number(value) <= GREATEST_VALUE:
            dictionary.tell(at, f'{name}: the value {label} {value} left out: no number of a list')
        else:
            numbers.append(number(value))
    if name in {avp[1] for avp in dictionary.avps if avp[4] == 'Enumerated'}:
        dictionary.values.setdefault(name, []).extend(numbers)
    else:
        dictionary.tell(line, f'{name}: its list of values left out: the file declares no Enumerated of this name')


def read(text):
    """The dictionary of a .dia text."""
    dictionary, sections = Dictionary(), tokens(text)
    if not sections:
        raise ValueError('it has no line that begins with @')
    vendor, single = read_vendors(dictionary, sections)
    for line, keyword, words in sections:
        if keyword == '@avp_types':
            read_avps(dictionary, words, vendor, single)
        elif keyword in ('@messages', '@grouped'):
            read_definitions(dictionary, words)
        elif keyword in ('@define', '@codecs', '@custom_types', '@result_code'):
            what = ' '.join(word for _, word in words[:1])
            dictionary.tell(line, f'{keyword} {what}: left out: no place in a dictionary text')
            if keyword == '@define':
                dictionary.words += [(what, number(value), label) for (_, label), (_, value) in zip(words[1::2], words[2::2])]
    for line, keyword, words in sections:
        if keyword == '@enum':
            read_values(dictionary, line, words)
    dictionary.told += [(line, f'@inherits {name}: put that dictionary before this one: {file_of(name)}')
                        for line, name in dictionary.inherits]
    grouped = {name for _, name, head, _ in dictionary.definitions if head.startswith('AVP')}
    dictionary.told += [(avp[0], f'{avp[1]}: Grouped, and the file has no format of its members')
                        for avp in dictionary.avps if avp[4] == 'Grouped' and avp[1] not in grouped]
    dictionary.told.sort()
    return dictionary


def file_of(name):
    """Where what @inherits names is: in Erlang/OTP a module's name begins so, and its file's doesn't."""
    return INHERITED.get(name) or name.removeprefix('diameter_gen_') + '.dia'


def leave_out(dictionary, beside):
    """Leaves out what texts beside this one declare, with the groups of it, and takes their names in the rules."""
    renames, gone, kept = {}, set(), []
    for avp in dictionary.avps:
        line, name, *key = avp[:4]
        is_shared, reason = beside.has(name, tuple(key))
        if not is_shared and not reason:
            kept.append(avp)
            continue
        gone.add(name)
        mine = beside.keys.get(tuple(key), name)
        if reason:
            dictionary.tell(line, f'{name}: left out: {reason}')
        elif mine != name:
            renames[name] = mine
            dictionary.tell(line, f'{name}: {mine} in a text of --beside, and so in the rules')
    dictionary.avps = kept
    dictionary.definitions = [
        (line, name, head, [(qualifier, opening, renames.get(avp, avp)) for qualifier, opening, avp in rules])
        for line, name, head, rules in dictionary.definitions if not (head.startswith('AVP') and name in gone)]


def tell_commands(dictionary, beside, prefix):
    """Tells of the commands that have a name of a text beside this one."""
    for line, name, head, _ in dictionary.definitions:
        if not head.startswith('AVP') and prefix + name in beside.commands:
            dictionary.tell(line, f'{prefix}{name}: a text of --beside has a command of this name: '
                                  '--prefix WORD gives it another')


def write(dictionary, prefix=''):
    """The dictionary text, in canonical form. The names of commands begin with the prefix."""
    lines = [declaration(name, code, vendor, kind, rule, dictionary.values.get(name, ()))
             for _, name, code, vendor, kind, rule in dictionary.avps]
    groups_first = sorted(dictionary.definitions, key=lambda definition: not definition[2].startswith('AVP'))
    for _, name, head, rules in groups_first:
        lines += definition(name if head.startswith('AVP') else prefix + name, head, rules)
    return lines


def main():
    parser = parser_of(__doc__, 'a .dia file')
    parser.add_argument('--prefix', metavar='WORD', default='', help='what the names of commands begin with, so that they '
                                                                    'can stand beside others of the same names')
    arguments = parser.parse_args()
    path = arguments.file
    try:
        beside = Beside(arguments.beside)
        with open(path, encoding='utf-8') as file:
            dictionary = read(file.read())
    except (OSError, ValueError, IndexError) as error:
        sys.exit(f'{path}: no .dia file: {error}')
    leave_out(dictionary, beside)
    tell_commands(dictionary, beside, arguments.prefix)
    if arguments.values:
        write_values(arguments.values, dictionary.words)
    finish(write(dictionary, arguments.prefix), [((path, line), what) for line, what in dictionary.told], path, beside)


if __name__ == '__main__':
    main()
