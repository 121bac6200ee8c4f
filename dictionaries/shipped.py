#!/usr/bin/env python3
"""Writes the list of the AVPs that the dictionaries of this folder declare, by which the program hints at a file for a name that
is undefined.

    dictionaries/shipped.py [--check]

The list is crates/dia_explain_inputs/src/dictionary/shipped.rt. With --check nothing is written, and the status is 1 where the
list isn't that of the folder. A name that several files declare is that of the first one, by ORDER and then by the file's name; a line with
the comment `as in FILE` is that of FILE."""

import pathlib
import re
import sys

FOLDER = pathlib.Path(__file__).resolve().parent
LIST = FOLDER.parent / "crates/dia_explain_inputs/src/dictionary/shipped.rt"
NO_DICTIONARIES = {"differences.txt", "values.txt"}
ORDER = ("rfc6733.txt", "rfc8506-avps.txt", "rfc7155-avps.txt")
"""The files of RFCs that replace others."""

WIDTH = 118

HEAD = '''//! The AVPs that the files of `dictionaries/` declare. `dictionaries/shipped.py` writes this file.

/// Files, each as `@FILE` followed by its AVPs, `NAME:LINE`.
static SHIPPED: &str = "\\
'''

TAIL = '''";

/// The file of `dictionaries/` that declares an AVP of this name, and the number of the line.
pub fn declared_in(name: &str) -> Option<(&'static str, &'static str)> {
    for part in SHIPPED.split('@') {
        if let Some((file, avps)) = part.split_once(' ') {
            if let Some(line) = line_of(avps, name) {
                return Some((file, line));
            }
        }
    }
    None
}

/// The number of the line of an AVP, among those of a file.
fn line_of(avps: &'static str, name: &str) -> Option<&'static str> {
    for word in avps.split(' ') {
        match word.split_once(':') {
            Some((declared, line)) if declared == name => return Some(line),
            _ => {}
        }
    }
    None
}
'''


def files():
    found = [file for file in sorted(FOLDER.glob("*.txt")) if file.name not in NO_DICTIONARIES]
    return sorted(found, key=lambda file: (ORDER.index(file.name) if file.name in ORDER else len(ORDER), file.stem))


def words():
    """The words of the list."""
    known = set()
    for file in files():
        named = re.compile(r"%avp (\S+) (?!.*; as in )")
        lines = [(named.match(line), number) for number, line in enumerate(file.read_text(encoding="utf-8").split("\n"), 1)]
        own = [(it.group(1), number) for it, number in lines if it and it.group(1) not in known]
        known.update(name for name, _ in own)
        if own:
            yield f"@{file.name}"
            yield from (f"{name}:{number}" for name, number in own)


def packed():
    """The words in lines of the source."""
    line = ""
    for word in words():
        if line and len(line) + 1 + len(word) > WIDTH:
            yield line + " \\"
            line = word
        else:
            line = f"{line} {word}" if line else word
    yield line + "\\"


def main():
    text = HEAD + "".join(f"    {line}\n" for line in packed()) + "    " + TAIL
    if sys.argv[1:] == ["--check"]:
        sys.exit(LIST.read_text(encoding="utf-8") != text)
    LIST.write_text(text, encoding="utf-8")


main()
