"""What becomes of messages between two dictionaries."""

from __future__ import annotations

import ctypes as c
from dataclasses import dataclass
from enum import IntEnum
from typing import Any, Iterable, Union

from . import _lib
from ._lib import Problem, Text, lib, lib_breaking, require, text_octets
from .dictionaries import Dictionary, kind_of, lines_columns


class Sends(IntEnum):
    """Which messages a side sends that follows its dictionary: with AVPs that it doesn't know, where a rule accepts any; with those
    that it knows; with those that a rule of their level lists; or with these, and where a wildcard is all that a level allows, those
    that it knows."""

    ANY, KNOWN, LISTED, FILLED = range(4)


@dataclass(frozen=True)
class Upgrade:
    """What breaks; true where nothing does, or nothing but what the list accepts."""

    safe: bool
    text: str
    """What `diacmd breaking` writes."""

    def __bool__(self) -> bool:
        return self.safe


@dataclass(frozen=True)
class Comparison:
    """Whether each message of a listed command stays valid; true where it does."""

    holds: bool
    line: str
    """The line of `diacmd compare`: yes, or the first pair that fails with its test."""

    def __bool__(self) -> bool:
        return self.holds


class InputError(ValueError):
    """A table, a list or a name is refused: its kind (docs/FAULTS.md), its line and its column, from 1. The line is 0 where the whole
    input is at fault; of names of commands it is the number of the name. The column is 0 but in a table."""

    def __init__(self, kind: str, line: int, column: int = 0):
        self.kind, self.line, self.column = kind, line, column
        super().__init__(f"{line}:{column}: {kind}" if column else f"line {line}: {kind}" if line else kind)

    def __reduce__(self) -> Any:
        return type(self), (self.kind, self.line, self.column)


def breaking(
    a: Dictionary,
    b: Dictionary,
    *,
    sends: Sends = Sends.ANY,
    refuse_unknown: bool = False,
    commands: Union[str, Iterable[str]] = (),
    accepted: str = "",
    messages: bool = False,
    once: bool = False,
    meaning: bool = False,
) -> Upgrade:
    """What breaks where the side of `a` sends and the side of `b` reads, as `diacmd breaking` lists it (docs/UPGRADING.md).

    `commands` are the names that are asked for, one or several, none for all; `accepted` is the text of a list of accepted lines.
    `messages` adds a message to each line, `once` leaves one line for each cause, and `meaning` adds the AVPs that are read in
    another format. Raises InputError, and MemoryError. Other threads go on meanwhile."""
    text, safe, problem = Text(), c.c_uint32(), Problem()
    options = 1 * bool(messages) + 2 * bool(once) + 4 * bool(meaning)
    asked = [commands] if isinstance(commands, str) else commands
    names, known = "".join(f"{name}\n" for name in asked).encode(), text_octets(accepted)
    with a.share() as first, b.share() as second:
        handles = (first._handle, second._handle, Sends(sends), bool(refuse_unknown), options)
        status = lib_breaking().dia_breaking(*handles, names, len(names), known, len(known), text._handle, safe, problem)
    _require_input(status, problem)
    return Upgrade(bool(safe.value), text.read())


def compare(a: Dictionary, b: Dictionary, table: str, *, refuse_unknown: bool = False) -> Comparison:
    """Compares two dictionaries by the text of a table of pairs, as `diacmd compare` does. Raises InputError, and MemoryError."""
    line, holds, problem, data = Text(), c.c_uint32(), Problem(), text_octets(table)
    with a.share() as first, b.share() as second:
        words = (first._handle, second._handle, bool(refuse_unknown), data, len(data))
        status = lib.dia_compare(*words, line._handle, holds, problem)
    if status == _lib.REFUSED and problem.line:
        place = lib.dia_table_place(data, len(data), problem.kind, problem.line)
        _, column = lines_columns(data, [place])[place]
        raise InputError(kind_of(problem.kind), problem.line, column)
    _require_input(status, problem)
    return Comparison(bool(holds.value), line.read().rstrip("\n"))


def _require_input(status: int, problem: Problem) -> None:
    if status == _lib.REFUSED:
        raise InputError(kind_of(problem.kind), problem.line)
    require(status)
