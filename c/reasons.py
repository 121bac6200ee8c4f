#!/usr/bin/env python3
"""Writes the numbers of the reasons of `check` into dia.h, out of the definition that the contracts cite, and compares the other
numbers of dia.h with their definitions: the version, the statuses, the kinds of a problem, and the states, the faults and the
reasons of a connection, the forms of answers, the formats, and the classes and flags of a dictionary.

    c/reasons.py [--check]

With --check it writes nothing, and says by status 1 where dia.h has others. Where a number that it only compares is another, the
status is 1, too."""

import pathlib
import re
import sys

C = pathlib.Path(__file__).resolve().parent
HEADER = C / "dia.h"
SPECS = C.parent / "crates/dia_c_calls/specs"
ROWS = C.parent / "crates/dia_check/specs/Reasons.antt"
LIST = re.compile(r"(?<=/\* The reasons of docs/FAULTS\.md\. \*/\nenum \{\n)[^}]*(?=\};)")
STATUSES = re.compile(r"typedef uint32_t dia_status;\nenum \{([^}]*)\};")
KINDS = re.compile(r"/\* Why a text is no dictionary: the kind of its first fault\. \*/\nenum \{([^}]*)\};")
PEERS = (("DIA_STATE_", "PeerSteps.antt", r"^state_number state\.(\w+) = (\d+)$"), ("DIA_WHY_", "PeerSteps.antt", r"^why_number why\.(\w+) = (\d+)$"),
         ("DIA_TIMER_", "PeerTimers.antt", r"^timer_number timer\.(\w+) = (\d+)$"),
         ("DIA_BAD_", "Peers.antt", r"^fault_number fault\.(\w+) = (\d+)$"), ("DIA_FORM_", "Replies.antt", r"^form_number form\.(\w+) = (\d+)$"),
         ("DIA_F_", "Avps.antt", r"^format_number name\.(\w+) = (\d+)$"), ("DIA_CLASS_", "DictParts.antt", r"^class_number class\.(\w+) = (\d+)$"),
         ("DIA_PROXY_", "DictParts.antt", r"^proxy_number pxy\.(\w+) = (\d+)$"),
         ("DIA_MANDATORY_", "DictParts.antt", r"^mandatory_number rule\.(\w+) = (\d+)$"))
"""The numbers of a connection, of forms of answers, of formats, and of classes and flags: how their words begin, and the file and the
lines of their definition."""
OTHERS = ("ARGUMENT", "UNKNOWN")
"""What is none of these numbers: a status, and the number of no format."""
OTHERWISE = {"LIMIT": "TOO_MANY_PARTS"}
"""Words of dia.h that aren't those of a definition."""


def listed():
    """The lines of the list of reasons, by the places and the words of the reasons."""
    rows = re.findall(r'^reason_row reason\.\w+ = \((\d+), .*codes "([a-z0-9-]+)"', ROWS.read_text(encoding="utf-8"), re.M)
    if [int(place) for place, _ in rows] != list(range(len(rows))) or not rows:
        sys.exit(f"{ROWS}: these are no rows in order, from 0")
    return ",\n".join(f"    DIA_R_{word.upper().replace('-', '_')} = {place}" for place, word in rows) + "\n"


def upper(word):
    return re.sub(r"(?<=[a-z])(?=[A-Z])", "_", word).upper()


def rows_of(name, *patterns):
    """The words and the numbers that these lines of a definition have."""
    text = (SPECS / name).read_text(encoding="utf-8")
    return [(upper(word), int(number)) for pattern in patterns for word, number in re.findall(pattern, text, re.M)]


def constants(text, place):
    """The words and the numbers of one enum of dia.h."""
    found = place.findall(text)
    if len(found) != 1:
        sys.exit(f"{HEADER}: there is no one enum like `{place.pattern[:40]}`")
    return re.findall(r"\bDIA_(\w+) = (\d+)", found[0])


def compare(what, header, specs):
    """Ends with status 1 where the header has other words or numbers than the definitions."""
    header = {word: int(number) for word, number in header}
    if header != dict(specs) or not specs:
        wrong = sorted(set(header.items()) ^ set(dict(specs).items()))
        sys.exit(f"{HEADER}: its {what} aren't those of {SPECS}: {wrong}")


def compare_numbers(text):
    statuses = rows_of("Statuses.antt", r"^(\w+) = (\d+)$")
    compare("version", re.findall(r"^#define DIA_(ABI_VERSION) (\d+)u$", text, re.M), [row for row in statuses if row[0] == "ABI_VERSION"])
    compare("statuses", constants(text, STATUSES), [row for row in statuses if row[0] != "ABI_VERSION"])
    wrong = rows_of("Openings.antt", r"^number_of kind\.(\w+) = (\d+)$")
    texts = rows_of("Openings.antt", r"^  (not_text) : .* problem (\d+) 0 0 ", r"^problem_of \(ccf\.(\w+) .*\) = problem (\d+) ")
    breaking = rows_of("Upgrades.antt", r"^  (no_commands?) : .* problem (\d+) ")
    for front, name, lines in PEERS:
        found = [row for row in re.findall(rf"^    {front}(\w+) = (\d+)", text, re.M) if row[0] not in OTHERS]
        compare(f"numbers of {front}..", found, [row for row in rows_of(name, lines) if row[0] != "NO_MEMORY"])
    compare("kinds", constants(text, KINDS), [(OTHERWISE.get(word, word), number) for word, number in wrong] + texts + breaking)


def main():
    text = HEADER.read_text(encoding="ascii")
    compare_numbers(text)
    made, count = LIST.subn(listed(), text)
    if count != 1:
        sys.exit(f"{HEADER}: there is no one list of reasons")
    if "--check" not in sys.argv:
        HEADER.write_text(made, encoding="ascii")
    elif made != text:
        sys.exit(f"{HEADER}: its reasons aren't those of {ROWS}: run c/reasons.py")


main()
