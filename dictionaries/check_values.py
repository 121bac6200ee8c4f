"""Compares the names of values of values.txt with those of other programs. check.py prints the differences."""
import os
import re

import from_dia
import from_wireshark

HERE = os.path.dirname(os.path.abspath(__file__))
NAME = 'values.txt'
LINE = re.compile(r'([A-Za-z0-9-]+) (-?\d+) ([!-~]+)')
# freeDiameter names the type of an AVP's values so, and then gives the values
TYPE = re.compile(r'"Enumerated\*?\(([A-Za-z0-9-]+)\)"')
VALUE = re.compile(r'\{\s*"([^"]+)",\s*\{\s*\.[iu]32\s*=\s*(\w+)\s*\}\s*\}')


def ours():
    """(AVP, number) -> word. A line that is none, or stands twice, raises ValueError."""
    found = {}
    with open(os.path.join(HERE, NAME), encoding='utf-8') as file:
        for line in file:
            if line.strip() and not line.startswith('#'):
                avp, number, word = LINE.fullmatch(line.rstrip('\n')).groups()
                if (avp, int(number)) in found:
                    raise ValueError(f'{NAME}: {avp} {number} stands twice')
                found[avp, int(number)] = word
    return found


def of_dia(paths):
    found = {}
    for path in paths:
        with open(path, encoding='utf-8') as file:
            for avp, number, word in from_dia.read(file.read()).words:
                found.setdefault((avp, number), word)
    return found


def of_wireshark(path, names):
    """The words of wireshark, by our names: names has those of each code and vendor."""
    file, found = from_wireshark.File(), {}
    from_wireshark.read(path, file)
    for avp in file.avps:
        key = int(avp.attributes['code']), file.vendors.get(avp.attributes.get('vendor-id', 'None'))
        for _, word, code in avp.values:
            if code.isdigit():
                for name in names.get(key, ()):
                    found.setdefault((name, int(code)), word)
    return found


def of_freediameter(paths, header):
    """The words of dict_*.c. A number that has a name is defined in the header."""
    with open(header, encoding='utf-8', errors='replace') as file:
        named = dict(re.findall(r'^#define\s+(\w+)\s+(\d+)\s*$', file.read(), re.MULTILINE))
    found = {}
    for path in paths:
        with open(path, encoding='utf-8', errors='replace') as file:
            text = re.sub(r'/\*.*?\*/', '', file.read(), flags=re.DOTALL)
        named.update(re.findall(r'#if (\w+) != (\d+)', text))
        parts = TYPE.split(text)
        for avp, part in zip(parts[1::2], parts[2::2]):
            for word, number in VALUE.findall(part):
                number = named.get(number, number)
                if number.isdigit():
                    found.setdefault((avp, int(number)), word)
    return found


def folded(word):
    """A word without what programs write in their own ways."""
    return re.sub(r'[^a-z0-9]', '', word.lower()).removeprefix('diameter')


def differences(lists, texts, sources):
    """Prints how many of our words each source has, and gives the differences. lists has the numbers of each AVP."""
    words = ours()
    had = []
    for source, theirs in sources:
        shared = set(words) & set(theirs)
        had.append(f'{source} {len(shared)}')
        for avp, number in sorted(shared):
            if folded(words[avp, number]) != folded(theirs[avp, number]):
                yield f'{NAME} {source} {avp} {number}: {words[avp, number]}, {theirs[avp, number]}'
    for avp in sorted({avp for avp, _ in words} - texts):
        yield f'{NAME}: {avp}: no AVP of this folder'
    for avp, numbers in sorted(lists.items()):
        named = {number for name, number in words if name == avp}
        if named and named != numbers:
            yield f'{NAME}: {avp}: {sorted(named ^ numbers)}: with a word and not in its list, or the other way round'
    print(f'{NAME}: {len(words)} words; of these {", ".join(had)}')
