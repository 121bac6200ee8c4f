"""Reads what the text of an RFC says of AVPs, commands and groups. check.py compares the dictionaries with it."""
import gzip
import re

import dictionary_text

# the places of the columns MUST and MUST NOT behind the first bar of an RFC's table of flags
FLAG_COLUMNS = {3588: (0, 3), 4005: (0, 3), 4006: (0, 3), 4740: (0, 3), 6733: (0, 1), 7155: (0, 1), 7683: (0, 1),
                7944: (0, 1), 8506: (0, 2), 8583: (0, 1)}
RULE = re.compile(r'(\d*)\s*(\*?)\s*(\d*)\s*([<{\[])\s*([A-Za-z0-9-]+)\s*[>}\]]')
HEAD = re.compile(r'^<?\s*([A-Za-z][A-Za-z0-9-]*)\s*>?\s*::=\s*<\s*(.*?)\s*>$')
# "The NAS-Port AVP (AVP Code 5) is of type Unsigned32"
DEFINED = re.compile(r'\((?:AVP [Cc]ode|AVP|Radius Attribute Type):? (\d+)\) (?:\[\w+\] )?is (?:of )?(?:the )?type (?:of )?(\w+)')
SECTION = re.compile(r'^(\d+(?:\.\d+)*)\.? {1,4}([A-Z0-9].*)$')
FLAGS = re.compile(r'[MPV, ]*')


def read(path):
    """The text without the ends and heads of pages."""
    opening = gzip.open if path.endswith('.gz') else open
    with opening(path, 'rt', encoding='utf-8', errors='replace') as file:
        text = re.sub(r'\n+[^\n]*\[Page \d+\]\n\f?\n*RFC \d+ [^\n]*\n+', '\n', file.read())
    return text.replace('\f', '')


def sections(lines):
    """The title and the lines of each section; those of the table of contents have none."""
    found = []
    for line in lines:
        title = SECTION.match(line)
        if title and '. .' not in line and '...' not in line:
            found.append((title[2].strip(), []))
        elif found:
            found[-1][1].append(line)
    return found


def types(lines):
    """code -> (name, format), where the text of a section says so."""
    found = {}
    for title, body in sections(lines):
        said = DEFINED.search(' '.join(' '.join(body).split()), 0, 700)
        if said and said[2] in dictionary_text.FORMATS:
            found[int(said[1])] = (re.sub(r' AVP.*$', '', title).replace(' ', '-'), said[2])
    return found


def flags(lines, columns):
    """name -> M rule, from the tables with bars. A name may go on in the next row, behind a hyphen."""
    must, must_not = columns
    found, name = {}, None
    for line in lines:
        cells = line.split('|')
        if len(cells) > 3 and not cells[0].strip() and re.search('[A-Za-z]', cells[1]):
            cells = cells[1:]
        words = cells[0].split()
        if len(cells) < must_not + 2 or not words or not re.fullmatch(r'-?[A-Za-z][A-Za-z0-9-]*', words[0]):
            name = None
            continue
        have = [cells[1 + must].strip(), cells[1 + must_not].strip()]
        if not all(map(FLAGS.fullmatch, have)):
            name = None
            continue
        if name and (name.endswith('-') or words[0].startswith('-')):
            before = found.pop(name)
            name, have = name + words[0], [old + new for old, new in zip(before, have)]
        else:
            name = words[0]
        found.setdefault(name, have)
    return {name.lower(): 'must' if 'M' in has else 'mustnot' if 'M' in has_not else 'any'
            for name, (has, has_not) in found.items()}


def definitions(lines):
    """(name, words of the head, rules) of each definition, in order."""
    found, place = [], 0
    while place < len(lines):
        line = lines[place].strip()
        place += 1
        if '::=' in line and '>' not in line.split('::=')[1] and place < len(lines):
            line, place = f'{line} {lines[place].strip()}', place + 1
        head = HEAD.match(line)
        if not head:
            continue
        rules = []
        while place < len(lines):
            text = lines[place].strip()
            rule = RULE.fullmatch(text)
            if rule:
                rules.append(rule_of(rule))
            elif text and not text.startswith(';'):
                break
            place += 1
        found.append((head[1], re.findall(r'[A-Za-z0-9]+', head[2]), rules))
    return found


def rule_of(rule):
    """A rule as check.py has it: its tokens, with a space between each two."""
    low, star, high, opening, name = rule.groups()
    return ' '.join(part for part in (low, star, high, opening, name, dictionary_text.CLOSING[opening]) if part)


def avps(path, number):
    """(code, vendor) -> (name, format, M rule or None, no numbers), and the definitions."""
    lines = read(path).split('\n')
    rules = flags(lines, FLAG_COLUMNS[number]) if number in FLAG_COLUMNS else {}
    found = {(code, 0): (name, kind, rules.get(name.lower()), set()) for code, (name, kind) in types(lines).items()}
    return found, definitions(lines)
