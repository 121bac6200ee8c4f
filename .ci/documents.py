"""Reads the documents: their indented blocks, their tables, and the faults of a message of docs/FAULTS.md."""

import collections
import pathlib
import re

DOCS = pathlib.Path(__file__).resolve().parent.parent / "docs"


def blocks(text):
    """The paragraphs and the indented blocks of a document, in order."""
    for part in re.split(r"\n\n+", text):
        lines = part.split("\n")
        is_block = all(line.startswith("    ") for line in lines)
        yield is_block, "\n".join(line[4:] for line in lines) + "\n" if is_block else " ".join(lines)


def rows(text, head):
    """The rows of the table whose head begins so, each as its cells, with code taken out of its quotes."""
    lines = text[text.index(f"| {head} |") :].split("\n\n")[0].split("\n")[2:]
    return [[cell.strip() for cell in re.split(r"(?<!\\)\|", line)[1:-1]] for line in lines if line]


def code(cell):
    return re.findall(r"`([^`]*)`", cell)


Fault = collections.namedtuple("Fault", "reason options message place line told")
"""A reason of `check`, the options and the message that have its fault, the fault's place and line, and what is explained of it."""


def faults_of_messages():
    """The dictionary of the examples, a message that is valid under it, and the examples of each reason."""
    text = (DOCS / "FAULTS.md").read_text()
    part = text[text.index("The dictionary, `faults.txt`") :]
    dictionary, valid = [block for is_block, block in blocks(part) if is_block][:2]
    told = collections.defaultdict(list)
    for reason, words, hint in rows(part, "Reason | In words | What to do"):
        told[code(reason)[0]].append((words, hint))
    faults = []
    for reason, wrong, message, line in rows(part, "Reason | What is wrong | Message | Line"):
        name, line = code(reason)[0], code(line)[0]
        options = re.findall(r"`(--levels \d+)`", wrong)
        words = told[name].pop(0) if told[name] else None
        faults.append(Fault(name, options, code(message)[0], int(line.split()[3]), line, words))
    return dictionary, valid, faults
