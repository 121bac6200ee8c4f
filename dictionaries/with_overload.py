#!/usr/bin/env python3
"""Writes dictionary texts as one, with the AVPs of overload, priority and load in the commands of their applications.

3GPP has these AVPs in its commands since Releases 12 to 14, and the files of this folder don't list them: wildcards accept them.
In each command with an Application-ID that ends in `* [ AVP ]`, before that rule:

- in requests and answers [ DRMP ] (RFC 7944) and [ OC-Supported-Features ] (RFC 7683);
- in answers also [ OC-OLR ] (RFC 7683) and * [ Load ] (RFC 8583).

A command that names one keeps its rule. The files of these RFCs follow, where FILE doesn't declare their AVPs. Commands without an
Application-ID, those of the base, stay as they are.
"""
import argparse
import pathlib
import re
import sys

from dictionary_text import Beside

FOLDER = pathlib.Path(__file__).resolve().parent
WILDCARD = '  * [ AVP ]'
HEAD = re.compile(r'<([A-Za-z0-9-]+)> ::= < Diameter Header: \d+([^>]*) >')
RULE = re.compile(r'[<{[] (\S+) []>}]')
# the code of each AVP, its file, how a rule has it, and whether it is in answers alone
ADDED = ((301, 'rfc7944.txt', '[ {} ]', False), (621, 'rfc7683.txt', '[ {} ]', False), (623, 'rfc7683.txt', '[ {} ]', True),
         (650, 'rfc8583.txt', '* [ {} ]', True))


def completed(text, names, commands):
    """The text with rules before the wildcards of its commands, and the names of the commands that have changed."""
    lines, changed = [], set()
    command, answers, listed = None, False, set()
    for line in text.split('\n'):
        bare = line.split(';')[0].rstrip()
        head = HEAD.match(bare)
        if '::=' in bare or bare.startswith('%'):
            has_application = head and re.search(r', \d+$', head[2])
            command = head[1] if has_application and (not commands or head[1] in commands) else None
            answers, listed = bool(head) and ', REQ' not in head[2], set()
        if command and bare == WILDCARD:
            rules = [f'  {rule.format(names[code])}' for code, _, rule, of_answers in ADDED
                     if names[code] not in listed and (answers or not of_answers)]
            lines += rules
            changed |= {command} if rules else set()
        listed.update(RULE.findall(bare))
        lines.append(line)
    return '\n'.join(lines), changed


def main():
    parser = argparse.ArgumentParser(description=__doc__, formatter_class=argparse.RawDescriptionHelpFormatter)
    parser.add_argument('files', metavar='FILE', nargs='+', help='a dictionary text in canonical form but for its comments')
    parser.add_argument('--command', metavar='NAME', action='append', default=[], help='change this command alone; also several times')
    arguments = parser.parse_args()
    try:
        text = ''.join(pathlib.Path(path).read_text(encoding='utf-8') for path in arguments.files)
        declared = Beside(arguments.files).keys
        more = {}
        for code, file, _, _ in ADDED:
            if (code, 0) not in declared:
                more.setdefault(FOLDER / file, (FOLDER / file).read_text(encoding='utf-8'))
        names = {code: name for (code, vendor), name in (Beside(more).keys | declared).items() if vendor == 0}
    except (OSError, UnicodeDecodeError) as error:
        sys.exit(f'with_overload.py: {error}')
    result, changed = completed(text, names, set(arguments.command))
    missing = sorted(set(arguments.command) - changed)
    if missing or not changed:
        sys.exit(f'with_overload.py: no command to change: {" ".join(missing) or "none has an Application-ID and ends in * [ AVP ]"}')
    sys.stdout.write(result + ''.join(more.values()))


if __name__ == '__main__':
    main()
