#!/usr/bin/env python3
"""Compares the dictionaries of this folder with the RFCs and with those of three other programs, and prints each difference.

    dictionaries/check.py FOLDER

FOLDER has, at any depth, the files of these packages of Debian 12, of which each that is missing is named:

- erlang (source): lib/diameter with its *.dia         apt-get source erlang
- freediameter (source): dict_*.c, dict_dcca_3gpp.org, libfdproto.h    apt-get source freediameter
- libwireshark-data: dictionary.xml and beside it      apt-get download libwireshark-data, dpkg-deb -x
- doc-rfc-std-proposed, doc-rfc-old-std (non-free): rfcN.txt or rfcN.txt.gz, also apt-get download, dpkg-deb -x

Compared are name, code, vendor, format, M rule and list of values of each AVP; with the .dia files and the RFCs also each
rule of the commands and groups; and in the groups of 3GPP that each member of wireshark's is there, and each of freediameter's
with its counts. The RFCs' lists of values aren't compared. The words of values.txt are compared with those of the three programs,
but for case and for signs that are no letters or digits. differences.txt has the differences that are
explained, as they are printed, below their reasons. The status is 1 if a difference isn't there, or one of there doesn't
occur.
"""
import fnmatch
import os
import re
import sys

import check_values
import dictionary_text
import from_dia
import from_wireshark
import rfc_text

HERE = os.path.dirname(os.path.abspath(__file__))
# our files of an RFC -> the .dia files that have it
DIA = {
    'rfc6733.txt': ['base_rfc6733'], 'rfc3588.txt': ['base_rfc3588'], 'rfc4005-avps.txt': ['rfc4005_nas'],
    'rfc4005-commands.txt': ['rfc4005_nas'], 'rfc4006-avps.txt': ['rfc4006_cc'], 'rfc4006-commands.txt': ['rfc4006_cc'],
    'rfc4072.txt': ['rfc4072_eap'], 'rfc4740.txt': ['rfc4740_sip', 'rfc4590_digest'], 'rfc7683.txt': ['doic_rfc7683'],
}
# our files of an RFC -> freeDiameter's file that has it; those of 3GPP have one table
FREEDIAMETER = {
    'rfc6733.txt': 'dict_base_proto.c', 'rfc3588.txt': 'dict_base_proto.c', 'rfc4005-avps.txt': 'dict_nasreq.c',
    'rfc7155-avps.txt': 'dict_nasreq.c', 'rfc4006-avps.txt': 'dict_dcca.c', 'rfc8506-avps.txt': 'dict_dcca.c',
    'rfc4072.txt': 'dict_eap.c', 'rfc4740.txt': 'dict_sip.c', 'rfc5777.txt': 'dict_rfc5777.c',
}
TABLE = 'dict_dcca_3gpp.org'
RULES = 'dict_dcca_3gpp.c'
NUMBERS = 'libfdproto.h'
WIRESHARK = 'dictionary.xml'
# no dictionaries, or the same as another by intention
NOT_COMPARED = {'differences.txt', check_values.NAME, 'rfc6733-failed-avp-octets.txt'}
TEXT = re.compile(r'%avp|::=|\.\.|[<>{}\[\]()*,:]|[A-Za-z0-9-]+')


class Text:
    """A dictionary text in canonical form."""

    def __init__(self, text):
        self.avps = {}          # (code, vendor) -> (name, format, M rule, numbers)
        self.definitions = {}   # (code, class) of a command, (code, vendor) of a group -> (name, rules)
        rules = None
        for line in text.split('\n'):
            words = TEXT.findall(line.split(';')[0])
            if words[:1] == ['%avp']:
                self.declare(words)
            elif '::=' in words:
                rules = []
                self.definitions[key_of_head(words[words.index('::=') + 2:-1])] = (words[1], rules)
            elif words:
                rules.append(' '.join(words))

    def declare(self, words):
        name, code, rest = words[1], int(words[2]), words[3:]
        vendor = 0
        if rest[0] == 'vendor':
            vendor, rest = int(rest[1]), rest[2:]
        self.avps[code, vendor] = (name, rest[0], rest[1], numbers_of(rest[3:-1]))


def key_of_head(words):
    numbers = [int(word) for word in words if word.isdigit()]
    if words[0] == 'AVP':
        return 'group', numbers[0], (numbers + [0])[1]
    if 'ERR' in words:
        return 'error',
    return 'request' if 'REQ' in words else 'answer', numbers[0]


def numbers_of(words):
    """The numbers of a list of ranges."""
    numbers, place = set(), 0
    while place < len(words):
        wide = words[place + 1:place + 2] == ['..']
        numbers.update(range(int(words[place]), int(words[place + 2 if wide else place]) + 1))
        place += 3 if wide else 1
    return numbers


def files_below(folder):
    found = {name: os.path.join(path, name) for path, _, names in os.walk(folder) for name in names}
    # libwireshark-data has a dictionary.xml of another protocol too
    found.update({WIRESHARK: os.path.join(path, WIRESHARK) for path, _, names in os.walk(folder)
                  if WIRESHARK in names and os.path.basename(path) == 'diameter'})
    # freediameter has an older file of 3GPP among its contributions; the one of the table is beside it
    found.update({RULES: os.path.join(path, RULES) for path, _, names in os.walk(folder) if RULES in names and TABLE in names})
    return found


def of_dia(path):
    with open(path, encoding='utf-8') as file:
        return Text('\n'.join(from_dia.write(from_dia.read(file.read()))))


def of_wireshark(path):
    """(code, vendor) -> (name, format, M rule or None, numbers); a format is None if the file doesn't say it."""
    file = from_wireshark.File()
    from_wireshark.read(path, file)
    found = {}
    for avp in file.avps:
        vendor = file.vendors.get(avp.attributes.get('vendor-id', 'None'))
        kind = None if avp.type == from_wireshark.EITHER else from_wireshark.format_of(avp.type, file)
        rule = from_wireshark.RULES.get(avp.attributes.get('mandatory'))
        values = {int(code) for _, _, code in avp.values if code.isdigit()} if kind == 'Enumerated' else set()
        found.setdefault((int(avp.attributes['code']), vendor), (avp.attributes['name'], kind, rule, values))
    return found


def of_freediameter(path):
    """The AVPs that a dict_*.c makes: a struct dict_avp_data, and the type with which it is made."""
    with open(path, encoding='utf-8', errors='replace') as file:
        text = re.sub(r'/\*.*?\*/', '', file.read(), flags=re.DOTALL)
    # a code that has a name stands in the check of it, `#if AC_NAME != 281`
    codes = dict(re.findall(r'#if (AC_\w+) != (\d+)', text))
    text = re.sub(r'\bAC_\w+', lambda name: codes.get(name[0], name[0]), re.sub(r'^\s*#.*$', '', text, flags=re.MULTILINE))
    made = re.compile(
        r'struct\s+dict_avp_data\s+\w+\s*=\s*\{\s*(\w+)\s*,\s*(\w+)\s*,\s*"([^"]+)"\s*,([^,]*),([^,]*),\s*AVP_TYPE_(\w+)\s*\}\s*;'
        r'(.{0,4000}?)CHECK_dict_new\(\s*DICT_AVP\s*,\s*&\w+\s*,\s*(\w+)', re.DOTALL)
    vendors = {'0': 0, '10415': 10415}
    found = {}
    for code, vendor, name, fixed, values, base, _, kind in made.findall(text):
        if code.isdigit() and vendor in vendors:
            rule = ('must' if 'MANDATORY' in values else 'mustnot') if 'MANDATORY' in fixed else 'any'
            found[int(code), vendors[vendor]] = (name, format_of(base, kind), rule, set())
    return found


def format_of(base, kind):
    """freeDiameter's base format, and the name of its derived type."""
    named = re.fullmatch(r'([A-Za-z0-9]+)_type', kind)
    if named and named[1] in dictionary_text.FORMATS:
        return named[1]
    plain = {'GROUPED': 'Grouped', 'OCTETSTRING': 'OctetString', 'INTEGER32': 'Integer32', 'INTEGER64': 'Integer64',
             'UNSIGNED32': 'Unsigned32', 'UNSIGNED64': 'Unsigned64', 'FLOAT32': 'Float32', 'FLOAT64': 'Float64'}
    if base == 'INTEGER32' and kind != 'NULL':
        return 'Enumerated'
    # names of values stand with an Enumerated that is kept as Unsigned32, and with a plain Unsigned32
    return None if base == 'UNSIGNED32' and kind != 'NULL' else plain.get(base)


def of_table(path):
    """The table from which freeDiameter's file of 3GPP is made."""
    found, vendor = {}, 10415
    with open(path, encoding='utf-8') as file:
        for line in file:
            cells = [cell.strip() for cell in line.strip().strip('|').split('|')]
            if len(cells) >= 8 and '#' not in cells[0] and cells[1].isdigit() and cells[3] in dictionary_text.FORMATS:
                must = re.split('[,./]', cells[4])
                rule = 'must' if 'M' in must else 'mustnot' if 'M' in cells[7] else 'any'
                found[int(cells[1]), vendor if 'V' in must else 0] = (cells[0], cells[3], rule, set())
    return found


def members_of_wireshark(path):
    """(code, vendor) of a group -> (code, vendor) of each member -> its name, and no counts."""
    file = from_wireshark.File()
    from_wireshark.read(path, file)
    keys, members = {}, {}
    for avp in file.avps:
        keys.setdefault(avp.attributes['name'].strip(), []).append(from_wireshark.key_of(avp, file.vendors))
    for avp in file.avps:
        key = from_wireshark.key_of(avp, file.vendors)
        for _, word in avp.members:
            members.setdefault(key, {})[from_wireshark.found_as(keys.get(word, []), key[1])] = word, None
    return members


def members_of_freediameter(path, avps):
    """(code, vendor) of a group -> (code, vendor) of each member -> its name, and its counts, without a greatest one -1."""
    with open(path, encoding='utf-8', errors='replace') as file:
        text = file.read()
    keys = {(name, vendor): (code, vendor) for (code, vendor), (name, _, _, _) in avps.items()}
    of_group = re.compile(r'vpa\.avp_vendor = (\d+);\s*vpa\.avp_name = "([^"]+)";\s*CHECK_dict_search\(DICT_AVP'
                          r'.*?local_rules_definition rules\[\] =(.*?)PARSE_loc_rules', re.DOTALL)
    rule = re.compile(r'\.avp_vendor = (\d+), *\.avp_name = "([^"]+)" *\}, *RULE_(\w+), *-?\d+, *(-?\d+)')
    members = {}
    for vendor, group, rules in of_group.findall(text):
        for owner, name, place, most in rule.findall(rules):
            if (name, int(owner)) in keys and (group, int(vendor)) in keys:
                of_this = members.setdefault(keys[group, int(vendor)], {})
                of_this[keys[name, int(owner)]] = name, (int(place == 'REQUIRED'), int(most))
    return members


def counts_of(rule):
    """The least and the greatest count of a rule, without a greatest one -1."""
    words = rule.split(' ')
    front, opening = words[:-3], words[-3]
    least, most = (0 if opening == '[' else 1), 1
    if '*' in front:
        at = front.index('*')
        least = int(front[0]) if at else least
        most = int(front[at + 1]) if front[at + 1:] else -1
    return least, most


def shown(counts):
    return f'{counts[0]}..{"*" if counts[1] < 0 else counts[1]}'


def differences_of_members(title, ours, names, theirs, had):
    """What a program has in the groups of ours. The names are those of ours by code and vendor, of all files that it stands on."""
    keys = {name: key for key, name in names.items()}
    for (_, *key), (group, rules) in ours.definitions.items():
        members = {keys.get(rule.split(' ')[-2]): counts_of(rule) for rule in rules}
        for member, (word, counts) in theirs.get(tuple(key), {}).items():
            name = names.get(member, word)
            if member not in members:
                yield f'{title} {group}: lacks {name}'
                continue
            had.append(name)
            if counts and counts != members[member]:
                yield f'{title} {group}: {name}: {shown(members[member])}, {shown(counts)}'


def differences_of_avps(title, ours, theirs, has_lists, knows_any):
    elsewhere = {name: key for key, (name, _, _, _) in theirs.items() if key not in ours.avps}
    for key, (name, kind, rule, numbers) in ours.avps.items():
        if key not in theirs:
            if name in elsewhere:
                yield f'{title} {name}: its code and vendor: {key[0]} {key[1]}, {elsewhere[name][0]} {elsewhere[name][1]}'
            continue
        other, other_kind, other_rule, other_numbers = theirs[key]
        if name != other:
            yield f'{title} {name}: its name: {other}'
        if other_kind not in (None, kind):
            yield f'{title} {name}: its format: {kind}, {other_kind}'
        if other_rule is not None and rule != other_rule and (knows_any or 'must' in (rule, other_rule)):
            yield f'{title} {name}: its M rule: {rule}, {other_rule}'
        if has_lists and kind == other_kind == 'Enumerated' and numbers != other_numbers:
            mine, others = dictionary_text.ranges(numbers) or 'any', dictionary_text.ranges(other_numbers) or 'any'
            yield f'{title} {name}: its values: {mine}, {others}'


def differences_of_rules(title, ours, theirs):
    for key, (name, rules) in ours.definitions.items():
        if key in theirs.definitions and theirs.definitions[key][1] != rules:
            other = theirs.definitions[key][1]
            gone = [f'only ours {rule}' for rule in rules if rule not in other]
            more = [f'only theirs {rule}' for rule in other if rule not in rules]
            yield f'{title} {name}: its rules: {"; ".join(gone + more) or "another order"}'


def of_rfc(path, number):
    """The AVPs of an RFC's text, and its definitions as a Text has them."""
    avps, definitions = rfc_text.avps(path, number)
    text = Text('')
    for name, head, rules in definitions:
        if head[0] in ('AVP', 'Diameter') and not name.startswith('Example-'):
            text.definitions[key_of_head(head)] = (name, rules)
    return avps, text


def sources(name, files):
    """What one of our files is compared with: (source, AVPs, text or None, has lists, tells MAY from MUST NOT)."""
    number = name[3:7] if name.startswith('rfc') else None
    path = files.get(f'rfc{number}.txt.gz') or files.get(f'rfc{number}.txt')
    if path:
        avps, text = of_rfc(path, int(number))
        yield 'rfc', avps, text, False, True
    for dia in DIA.get(name, []):
        theirs = of_dia(files[dia + '.dia'])
        yield 'erlang', theirs.avps, theirs, True, False
    yield 'wireshark', of_wireshark(files[WIRESHARK]), None, True, True
    if name in FREEDIAMETER:
        yield 'freediameter', of_freediameter(files[FREEDIAMETER[name]]), None, False, True
    if name.startswith('ts'):
        yield 'freediameter', of_table(files[TABLE]), None, False, True


def compare(name, files):
    """Prints how much of one of our files each source has, and gives the differences."""
    with open(os.path.join(HERE, name), encoding='utf-8') as file:
        ours = Text(file.read())
    found, had = [], {}
    for source, avps, text, has_lists, knows_any in sources(name, files):
        found += differences_of_avps(f'{name} {source}', ours, avps, has_lists, knows_any)
        had.setdefault(source, set()).update(set(ours.avps) & set(avps))
        if text:
            found += differences_of_rules(f'{name} {source}', ours, text)
            had[source].update(set(ours.definitions) & set(text.definitions))
    counts = ', '.join(f'{source} {len(keys)}' for source, keys in had.items())
    print(f'{name}: {len(ours.avps)} AVPs, {len(ours.definitions)} commands and groups; of these {counts}')
    if name.startswith('ts'):
        found += compare_members(name, ours, files)
    return found


def compare_members(name, ours, files):
    """Prints how many members of the groups of one of our files each program has, and gives the differences."""
    with open(os.path.join(HERE, name), encoding='utf-8') as file:
        below = re.search(r'^; Stands on: (.*)\.$', file.read(), re.MULTILINE)[1]
    names = {}
    for text in [name, *re.findall(r'[a-z0-9-]+\.txt', below)]:
        with open(os.path.join(HERE, text), encoding='utf-8') as file:
            names.update({key: avp for key, (avp, _, _, _) in Text(file.read()).avps.items() if key not in names})
    programs = {'wireshark': members_of_wireshark(files[WIRESHARK]),
                'freediameter': members_of_freediameter(files[RULES], of_table(files[TABLE]) | of_bases(files))}
    found, counted = [], []
    for program, theirs in programs.items():
        had = []
        found += differences_of_members(f'{name} {program}', ours, names, theirs, had)
        counted.append(f'{program} {len(had)}')
    members = sum(len(rules) for key, (_, rules) in ours.definitions.items() if key[0] == 'group')
    print(f'    {members} rules in groups; of these {", ".join(counted)}')
    return found


def of_bases(files):
    """The AVPs of RFCs that freeDiameter has."""
    found = {}
    for name in sorted(set(FREEDIAMETER.values())):
        found.update(of_freediameter(files[name]))
    return found


def compare_values(names, files):
    """The differences of values.txt: with the other programs, and with the lists of our files."""
    lists, keys, texts = {}, {}, set()
    for name in names:
        with open(os.path.join(HERE, name), encoding='utf-8') as file:
            avps = Text(file.read()).avps
        for key, (avp, _, _, numbers) in avps.items():
            keys.setdefault(key, set()).add(avp)
            lists.setdefault(avp, set()).update(numbers)
        texts |= {avp for avp, _, _, _ in avps.values()}
    dia = [files[f'{name}.dia'] for of in DIA.values() for name in of]
    freediameter = [files[name] for name in sorted(set(FREEDIAMETER.values()))]
    yield from check_values.differences({avp: numbers for avp, numbers in lists.items() if numbers}, texts, [
        ('erlang', check_values.of_dia(dia)),
        ('wireshark', check_values.of_wireshark(files[WIRESHARK], keys)),
        ('freediameter', check_values.of_freediameter(freediameter, files[NUMBERS])),
    ])


def main():
    if len(sys.argv) != 2 or sys.argv[1] in ('-h', '--help'):
        print(__doc__)
        return len(sys.argv) != 2
    wanted = {WIRESHARK, TABLE, RULES, NUMBERS, *FREEDIAMETER.values(), *(f'{dia}.dia' for of in DIA.values() for dia in of)}
    have = set(files_below(sys.argv[1]))
    texts = {name[:7] for name in os.listdir(HERE) if re.fullmatch(r'rfc\d{4}.*\.txt', name)}
    missing = sorted(wanted - have) + sorted(f'{text}.txt' for text in texts if not have & {f'{text}.txt', f'{text}.txt.gz'})
    if missing:
        print('missing:', *missing)
        return 1
    with open(os.path.join(HERE, 'differences.txt'), encoding='utf-8') as file:
        explained = [line.rstrip('\n') for line in file if line.strip() and not line.startswith(';')]
    names = sorted(name for name in os.listdir(HERE) if name.endswith('.txt') and name not in NOT_COMPARED)
    files = files_below(sys.argv[1])
    found = list(dict.fromkeys(line for name in names for line in compare(name, files)))
    found += compare_values(names, files)
    new = [line for line in found if not any(fnmatch.fnmatchcase(line, pattern) for pattern in explained)]
    gone = [pattern for pattern in explained if not fnmatch.filter(found, pattern)]
    print(*new, *(f'explained, and not found: {line}' for line in gone), sep='\n', end='\n' if new or gone else '')
    print(f'{len(found)} differences, {len(found) - len(new)} explained; {len(gone)} explained and not found')
    return bool(new or gone)


if __name__ == '__main__':
    sys.exit(main())
