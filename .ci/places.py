"""How standard error shows a position of a text (docs/FORMATS.md)."""

BEFORE, AFTER = 70, 50
"""How many characters of a line are shown before a position, and from it on."""


def excerpt(text, place):
    """The line of `LINE:COLUMN`, of a long one a part, and a caret below the position."""
    line, column = map(int, place.split(":"))
    start = column - 1
    shown = text.split("\n")[line - 1][max(0, start - BEFORE) : start + AFTER]
    shown = "".join(" " if character < " " else character for character in shown)
    return f"  {shown}\n  {' ' * min(start, BEFORE)}^\n"
