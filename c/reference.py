#!/usr/bin/env python3
"""Prints the reference of libdia, in Markdown, out of the comments and declarations of dia.h.

    c/reference.py > FILE

The status is 1 where dia.h has a call that the reference lacks.

A part of dia.h begins with a line `/* ---- TITLE ---- */`. In a part paragraphs are separated by empty lines: a comment, and the
declarations that it is about."""

import os
import pathlib
import re
import sys

C = pathlib.Path(__file__).resolve().parent
HEADER = C / "dia.h"
BEGIN = """# Reference of libdia

For programmers who call `libdia`: all calls, structs and numbers of `dia.h`, of which `c/reference.py` makes this page. In the sources \
LIBRARY.md shows how a program begins, and the clauses of `crates/dia_c/src` say exactly what each call does.
"""
PART = re.compile(r"^/\* ---- (.*) ---- \*/$", re.M)
COMMENT = re.compile(r"/\*(.*?)\*/", re.S)
CALL = re.compile(r"\b(dia_\w+)\(")
WORD = re.compile(r"(?<![`\w])(\*?\b(?:dia|DIA)_\w*(?:\.\.(?:_\w+)?)?|\*\w+\b|\b\w+\[\w+\])(?![`\w])")
FIRST_WORD = re.compile(r"^(DIA_\w+(?:\.\.)?):")


def prose(comment):
    """The text of a comment in paragraphs, of which some begin with a status."""
    lines = [re.sub(r"^ \* ?", "", line).strip() for line in comment.strip().split("\n")]
    paragraphs = [[]]
    for line in lines:
        if FIRST_WORD.match(line) and paragraphs[-1]:
            paragraphs.append([])
        paragraphs[-1].append(line)
    return [" ".join(paragraph) for paragraph in paragraphs]


def marked(text):
    """With words of C in code quotes."""
    return "".join(part if part.startswith("`") else WORD.sub(r"`\1`", part) for part in re.split(r"(`[^`]*`)", text))


def text_of(comment):
    return "\n".join(marked(paragraph) + "\n" for paragraph in prose(comment))


def rows(body, pattern):
    """The members of a struct or an enum, each with the comment after it."""
    found = []
    # a comment of several lines is one of one line
    for line in COMMENT.sub(lambda text: " ".join(re.sub(r"\n\s*\*? ?", " ", text[0]).split()), body).split("\n"):
        comment = " ".join(marked(text.strip()) for text in COMMENT.findall(line))
        members = re.findall(pattern, COMMENT.sub("", line))
        found += [(*member, comment) for member in members]
    return found


def table(head, lines):
    heads = "| " + " | ".join(head) + " |\n|" + "---|" * len(head) + "\n"
    return heads + "".join("| " + " | ".join(cell.replace("|", "\\|") for cell in line) + " |\n" for line in lines)


def enum_of(body):
    lines = rows(body, r"\b(DIA_\w+) = (\w+)")
    with_text = any(text for *_, text in lines)
    cells = [(f"`{name}`", value, text) for name, value, text in lines]
    return table(("Number", "Value", "Meaning"), cells) if with_text else table(("Number", "Value"), [cell[:2] for cell in cells])


def struct_of(name, body):
    lines = [(f"`{field}`", f"`{kind.strip()}{more}`", text) for kind, field, more, text in rows(body, r"(\w[\w ]*\*?) ?\b(\w+)((?:\[\w+\])?);")]
    if any("dia_private" in line[0] for line in lines):
        return f"`{name}` is an opaque handle.\n"
    return table((f"Field of `{name}`", "Type", "Meaning"), lines)


def declared(code):
    """What is declared, as tables and prototypes."""
    made = []
    for enum in re.findall(r"^enum \{(.*?)\};", code, re.S | re.M):
        made.append(enum_of(enum))
    for body, name in re.findall(r"^typedef struct \w+ \{(.*?)\} (\w+);", code, re.S | re.M):
        made.append(struct_of(name, body))
    defined = re.findall(r"^#define (DIA_\w+) (.*?)(?: */\* (.*?) \*/)?$", code, re.M)
    if defined:
        made.append(table(("Constant", "Value", "Meaning"), [(f"`{name}`", f"`{value}`", text) for name, value, text in defined]))
    prototypes = re.findall(r"^(?:dia_status|void|size_t|uint32_t|uint64_t) dia_\w+\([^;]*;", code, re.M)
    if prototypes:
        made.append("```c\n" + "\n".join(prototypes) + "\n```\n")
    return "\n".join(made)


def named(code):
    """What is declared, by its names: numbers of one enum by what their names have in common."""
    names = re.findall(r"^(?:typedef \w+|\}) (\w+);", code, re.M) + CALL.findall(code)
    names += [name for name in re.findall(r"^#define (DIA_\w+)", code, re.M) if not name.endswith("_INIT")]
    for body in [] if names else re.findall(r"^enum \{(.*?)\};", code, re.S | re.M):
        numbers = re.findall(r"\b(DIA_\w+) = ", body)
        common = os.path.commonprefix(numbers)
        names += [common + ".."] if len(numbers) > 1 and common.count("_") > 1 and common.endswith("_") else numbers[:4]
    return names


def paragraphs_of(part):
    """Each paragraph under its names: prototypes before their comment, and tables after it."""
    for paragraph in re.split(r"\n\n+", part.strip()):
        comment = re.match(r"/\*(.*?)\*/\n?", paragraph, re.S)
        code = paragraph[comment.end() :] if comment else paragraph
        names, shown = named(COMMENT.sub("", code)), declared(code)
        text = text_of(comment[1]) if comment else ""
        if names:
            yield "### " + ", ".join(f"`{name}`" for name in names) + "\n"
        yield from (it for it in ((shown, text) if shown.startswith("```") else (text, shown)) if it)


def rules_of(comment):
    """What a program owes, and what holds of all functions: the comment at the top of the header."""
    owes, holds = comment.split("WHAT HOLDS OF ALL FUNCTIONS")
    items = lambda text, sign: [marked(" ".join(item.replace("\n *", " ").split())) for item in re.split(sign, text)[1:]]
    numbered = "".join(f"{number}. {text}\n" for number, text in enumerate(items(owes.split("WHAT A PROGRAM OWES")[1], r"\n \*  \d\. "), 1))
    listed = "".join(f"- {text}\n" for text in items(holds, r"\n \*  - "))
    return f"## What a program owes\n\n{numbered}\n## What holds of all functions\n\n{listed}"


def reference(header):
    top, body = header.split("#ifndef DIA_H", 1)
    body = body.split('extern "C" {\n#endif\n', 1)[1].rsplit("#ifdef __cplusplus", 1)[0]
    first, *parts = PART.split(body)
    sections = [("versions and statuses", first), *zip(parts[::2], parts[1::2])]
    made = [BEGIN, rules_of(COMMENT.search(top)[1])]
    for title, part in sections:
        made += [f"## {title[0].upper()}{title[1:]}\n", *paragraphs_of(part)]
    return "\n".join(made)


def main():
    made = reference(HEADER.read_text(encoding="ascii"))
    calls = set(CALL.findall(COMMENT.sub("", HEADER.read_text(encoding="ascii"))))
    missing = [name for name in calls if f"### `{name}`" not in made and f", `{name}`" not in made]
    if missing:
        sys.exit(f"the reference lacks {', '.join(sorted(missing))}")
    print(made, end="")


main()
