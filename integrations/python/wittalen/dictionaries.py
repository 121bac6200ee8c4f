"""Dictionaries, and checks of messages."""

from __future__ import annotations

import ctypes as c
import json
import os
from array import array
from dataclasses import dataclass
from enum import IntEnum
from functools import lru_cache
from itertools import accumulate
from struct import Struct
from typing import Any, Iterable, Iterator, NamedTuple, Optional, Union

from . import _lib
from ._lib import Owner, RawVerdict, Text, lib, octets, require, text_octets, u32

REASONS = (
    "version", "length", "bits", "command", "application", "proxiable", "avp-length", "unknown", "m-bit", "missing",
    "not-allowed", "too-many", "leaf-length", "leaf-value", "depth",
)  # fmt: skip
"""The reasons of docs/FAULTS.md, by their numbers in dia.h. A later library may have more."""
SUBJECTS = {0: None, 2: "AVP"}
"""The subjects of faults that are no AVP of one code and vendor: none, and the AVPs that no rule lists."""
STORED = 1024
"""How many verdicts of a dictionary are stored, to be returned again."""
SIZES = "Q" if c.sizeof(c.c_size_t) == 8 else "I"
"""The type code of an array of size_t."""
FORMATS = (
    "OctetString", "Integer32", "Integer64", "Unsigned32", "Unsigned64", "Float32", "Float64", "Grouped", "Address", "Time",
    "UTF8String", "DiameterIdentity", "DiameterURI", "Enumerated", "IPFilterRule", "QoSFilterRule",
)  # fmt: skip
"""The data formats of docs/FORMATS.md, from number 1 of dia.h on."""


WORDS = Struct(f"=8I{c.sizeof(RawVerdict) - 32}x")
"""The fields of a RawVerdict, which are all numbers of 32 bits, without those that are reserved."""


class Outcome(IntEnum):
    """What a check found. `TRUNCATED`: the message has more bytes; `TRAILING`: there are bytes after it."""

    VALID, FAULT, TRUNCATED, TRAILING = range(4)


class Verdict(NamedTuple):
    """The verdict on a message; true where it is valid. As text it is the line of `diacmd check --lines`.

    A valid message has `command`, the command's name. A fault has `code`, its Result-Code (RFC 6733 section 7.1); `offset`, in bytes
    from the message's first; `reason` (docs/FAULTS.md); and `avp`, the name of its AVP, CODE:VENDOR where the dictionary has none,
    or AVP for those that no rule lists. Other fields are None or 0."""

    outcome: Outcome
    command: Optional[str] = None
    code: int = 0
    offset: int = 0
    reason: Optional[str] = None
    avp: Optional[str] = None

    def __bool__(self) -> bool:
        return self.outcome is Outcome.VALID

    def __str__(self) -> str:
        if self.outcome is Outcome.FAULT:
            return f"fault {self.code} at {self.offset} {self.reason} {self.avp or '-'}"
        return f"valid {self.command}" if self else self.outcome.name.lower()


class Verdicts(dict[tuple[int, ...], Verdict]):
    """The verdicts of a dictionary by the fields of a RawVerdict."""

    def __init__(self, handle: _lib.Handle, names: dict[tuple[int, ...], str]):
        super().__init__()
        self._handle, self.names = handle, names

    def __missing__(self, words: tuple[int, ...]) -> Verdict:
        made = self._made(*words)
        if len(self) < STORED:
            self[words] = made
        return made

    def of(self, raw: RawVerdict) -> Verdict:
        return self[WORDS.unpack_from(raw)]

    def _made(
        self, outcome: int, command: int, code: int, offset: int, reason: int, subject: int, avp_code: int, avp_vendor: int
    ) -> Verdict:
        if outcome == Outcome.VALID:
            return Verdict(Outcome.VALID, self._name(lib.dia_command_name, (command,)))
        if outcome != Outcome.FAULT:
            return Verdict(Outcome(outcome))
        avp = SUBJECTS[subject] if subject in SUBJECTS else self._name(lib.dia_avp_name, (avp_code, avp_vendor))
        word = REASONS[reason] if reason < len(REASONS) else f"reason-{reason}"
        return Verdict(Outcome.FAULT, None, code, offset, word, avp)

    def _name(self, look_up: Any, key: tuple[int, ...]) -> str:
        name = self.names.get(key)
        if name is None:
            room, count = c.create_string_buffer(_lib.MAX_NAME), c.c_size_t()
            status = look_up(self._handle, *key, room, _lib.MAX_NAME, count)
            if status == _lib.NONE:
                return ":".join(map(str, key))
            require(status)
            name = self.names[key] = room.raw[: count.value].decode()
        return name


class Header(NamedTuple):
    """The header of a message (RFC 6733 section 3). `length` is Message Length, `flags` are the eight Command Flags, and `code` is the
    Command Code."""

    length: int
    flags: int
    code: int
    application: int
    hop_by_hop: int
    end_to_end: int

    @property
    def is_request(self) -> bool:
        return self.flags & 0x80 != 0

    @property
    def is_proxiable(self) -> bool:
        return self.flags & 0x40 != 0

    @property
    def is_error(self) -> bool:
        return self.flags & 0x20 != 0


class Form(IntEnum):
    """By which definition an answer is made: the command's own, the dictionary's error message, or that of RFC 6733."""

    OWN, ERROR, BASE = range(1, 4)


@dataclass(frozen=True)
class Answer:
    """The answer to a request that has a fault: a message, its form, and the verdict on the request."""

    message: bytes
    form: Form
    verdict: Verdict


@dataclass(frozen=True)
class Avp:
    """An AVP of a message (RFC 6733 section 4.1). `offset` is in bytes from the message's first, `depth` is how many groups are
    around it, and `length` is AVP Length. Without a Vendor-ID `vendor` is 0. `name` and `format` (docs/FORMATS.md) are None where
    the dictionary doesn't have the AVP."""

    offset: int
    depth: int
    length: int
    code: int
    vendor: int
    flags: int
    name: Optional[str]
    format: Optional[str]
    data: bytes


class Class(IntEnum):
    """The class of the messages of a command (RFC 6733 section 3)."""

    REQUEST, ANSWER, ERROR = range(3)


class Flag(IntEnum):
    """What a flag may be."""

    CLEAR, SET, EITHER = range(3)


@dataclass(frozen=True)
class Command:
    """A command of a dictionary (RFC 6733 section 3.2). `proxiable` is what its P flag may be. `code` is None for the error messages of
    all commands, and `application` where it is of all that no other command of its code and class names."""

    name: str
    code: Optional[int]
    kind: Class
    proxiable: Flag
    application: Optional[int]


@dataclass(frozen=True)
class Entry:
    """An AVP of a dictionary. Without a Vendor-ID `vendor` is 0. `mandatory` is what its M flag may be."""

    name: str
    code: int
    vendor: int
    format: str
    mandatory: Flag


@dataclass(frozen=True)
class Fault:
    """A fault of a dictionary's text. Lines and columns count from 1; they are None where the whole text is at fault."""

    kind: str
    line: Optional[int]
    column: Optional[int]
    name: str
    slot: str

    def __str__(self) -> str:
        place = f"{self.line}:{self.column}: " if self.line else ""
        return f"{place}{self.kind} {self.name} {self.slot}".rstrip()


class DictionaryError(ValueError):
    """The text isn't a dictionary. `faults` has all that is wrong with it, in the order of docs/FAULTS.md."""

    def __init__(self, faults: list[Fault]):
        self.faults = faults
        more = f"; and {len(faults) - 3} more" if len(faults) > 3 else ""
        super().__init__("; ".join(map(str, faults[:3])) + more)

    def __reduce__(self) -> Any:
        return type(self), (self.faults,)


class Dictionary(Owner):
    """A dictionary: of a text (docs/FORMATS.md), or the built-in one of RFC 6733.

    Raises DictionaryError where the text isn't one, and MemoryError."""

    _closing = "dia_dict_close"

    def __init__(self, text: Union[str, bytes, None] = None):
        super().__init__()
        self._verdicts = Verdicts(self._handle, {})
        if text is None:
            require(lib.dia_dict_open_base(self._handle))
            return
        data = text_octets(text)
        status = lib.dia_dict_open(data, len(data), self._handle, _lib.Problem())
        if status == _lib.REFUSED:
            raise DictionaryError(faults(data))
        require(status)

    @classmethod
    def open(cls, path: Union[str, os.PathLike[str]], *more: Union[str, os.PathLike[str]]) -> Dictionary:
        """The dictionary of the texts of these files, one after the other, each on lines of its own. Lines of its faults count
        through all of them."""
        joined = b""
        for each in (path, *more):
            with open(each, "rb") as file:
                joined += (b"\n" if joined and not joined.endswith(b"\n") else b"") + file.read()
        return cls(joined)

    def share(self) -> Dictionary:
        """The same dictionary with a handle of its own, which takes no time. It stays open when this one is closed."""
        other = Dictionary.__new__(Dictionary)
        other._handle = _lib.Handle()
        other._verdicts = Verdicts(other._handle, self._verdicts.names)
        require(lib.dia_dict_share(self._handle, other._handle))
        return other

    def __copy__(self) -> Dictionary:
        """As `share`: a dictionary doesn't change."""
        return self.share()

    def __deepcopy__(self, memo: Any) -> Dictionary:
        return self.share()

    def commands(self) -> list[Command]:
        """The commands, in the dictionary's order."""
        count, raw = c.c_size_t(), _lib.RawCommand()
        require(lib.dia_dict_commands(self._handle, count))
        found = []
        for index in range(count.value):
            require(lib.dia_dict_command(self._handle, index, raw))
            found.append(command_of(raw))
        return found

    def entries(self) -> list[Entry]:
        """The AVPs that the dictionary has: those that are declared, in their order, and then groups without a declaration."""
        count, raw = c.c_size_t(), _lib.RawEntry()
        require(lib.dia_dict_avps(self._handle, count))
        found = []
        for index in range(count.value):
            require(lib.dia_dict_avp(self._handle, index, raw))
            found.append(entry_of(raw))
        return found

    def check(self, message: bytes, *, refuse_unknown: bool = False, levels: Optional[int] = None) -> Verdict:
        """Checks one message. With `refuse_unknown` an AVP that the dictionary doesn't have is a fault, also with the M bit
        clear; `levels` is how many grouped AVPs may be open in one another (None: any number)."""
        raw, data = RawVerdict(), octets(message)
        require(lib.dia_check(self._handle, bool(refuse_unknown), levels_of(levels), data, len(data), raw))
        return self._verdicts.of(raw)

    def check_json(self, message: bytes, *, refuse_unknown: bool = False, levels: Optional[int] = None) -> dict[str, Any]:
        """The object that `diacmd check --json` writes (docs/JSON.md)."""
        line, data = Text(), octets(message)
        require(lib.dia_check_json(self._handle, bool(refuse_unknown), levels_of(levels), data, len(data), line._handle))
        found: dict[str, Any] = json.loads(line.read())
        return found

    def check_many(
        self, messages: Iterable[bytes], *, refuse_unknown: bool = False, levels: Optional[int] = None
    ) -> list[Verdict]:
        """The verdict of `check` on each of the messages, in their order. It takes less time than a call for each."""
        parts = all_octets(messages)
        ends, raws = array(SIZES, accumulate(map(len, parts))), (RawVerdict * len(parts))()
        data = b"".join(parts)
        policy = bool(refuse_unknown), levels_of(levels)
        places = (c.c_size_t * len(parts)).from_buffer(ends)
        require(lib.dia_check_many(self._handle, *policy, data, len(data), places, len(parts), raws, len(parts)))
        return list(map(self._verdicts.__getitem__, WORDS.iter_unpack(raws)))

    def answer(
        self, message: bytes, host: str, realm: str, *, refuse_unknown: bool = False, levels: Optional[int] = None
    ) -> Optional[Answer]:
        """The answer to a request that reports its first fault (RFC 6733 section 7); None where it gets none, as a valid one. `host`
        and `realm` are its Origin-Host and Origin-Realm: raises ValueError where one is no DiameterIdentity of at most 255 bytes."""
        text, form, raw, data = Text(), c.c_uint32(), RawVerdict(), octets(message)
        names = [part for name in (host, realm) for part in (text_octets(name), len(text_octets(name)))]
        policy = bool(refuse_unknown), levels_of(levels)
        status = lib.dia_answer(self._handle, *policy, *names, data, len(data), text._handle, form, raw)
        if status == _lib.NONE:
            return None
        if status == _lib.BAD_ARGUMENT:
            raise ValueError(f"no names of a node: {host!r}, {realm!r}")
        require(status)
        return Answer(text.read_bytes(), Form(form.value), self._verdicts.of(raw))

    def avps(self, message: bytes) -> list[Avp]:
        """The AVPs of a message, each group that the dictionary has followed by its members. An AVP Length that no AVP can have
        ends its own level. Raises ValueError where the bytes have no message's header and length."""
        count, end, raw, data = c.c_size_t(), c.c_size_t(), RawVerdict(), octets(message)
        room = 64
        while True:
            found = (_lib.RawAvp * room)()
            status = lib.dia_avps(self._handle, data, len(data), found, room, count, end, raw)
            if status != _lib.NO_ROOM:
                break
            room = count.value
        if status == _lib.REFUSED:
            raise ValueError(str(self._verdicts.of(raw)))
        require(status)
        return [avp_of(avp, data) for avp in found[: count.value]]

    def avps_at(self, message: bytes, offset: int) -> list[Avp]:
        """The AVPs that hold the byte at an offset, the outermost first: of a fault's offset the groups around its AVP, and this AVP.
        Raises ValueError as `avps`."""
        count, raw, data, room = c.c_size_t(), RawVerdict(), octets(message), 16
        if not 0 <= offset < 1 << 64:
            raise ValueError(f"offset: {offset} isn't one")
        while True:
            found = (_lib.RawAvp * room)()
            status = lib.dia_avps_at(self._handle, data, len(data), offset, found, room, count, raw)
            if status != _lib.NO_ROOM:
                break
            room = count.value
        if status == _lib.REFUSED:
            raise ValueError(str(self._verdicts.of(raw)))
        require(status)
        return [avp_of(avp, data) for avp in found[: count.value]]

    def find(self, message: bytes, code: int, vendor: int = 0) -> Optional[Avp]:
        """The first AVP of a message that has this code and this vendor, 0 for none, and is in no group. Raises ValueError as `avps`."""
        found, raw, data = _lib.RawAvp(), RawVerdict(), octets(message)
        key = u32(code, "code"), u32(vendor, "vendor")
        status = lib.dia_avp_find(self._handle, data, len(data), *key, found, raw)
        if status == _lib.NONE:
            return None
        if status == _lib.REFUSED:
            raise ValueError(str(self._verdicts.of(raw)))
        require(status)
        return avp_of(found, data)

    def show(self, message: bytes) -> str:
        """The lines that `diacmd show` writes, with the dictionary's names. Raises ValueError where the bytes have no message's
        header and length."""
        text, whole, raw, data = Text(), c.c_uint32(), RawVerdict(), octets(message)
        status = lib.dia_show(self._handle, data, len(data), text._handle, whole, raw)
        if status == _lib.REFUSED:
            raise ValueError(str(self._verdicts.of(raw)))
        require(status)
        return text.read()

    def stream(self, *, refuse_unknown: bool = False, levels: Optional[int] = None) -> Stream:
        """A message that comes in pieces, of which nothing came yet. The options are those of `check`."""
        return Stream(self, refuse_unknown, levels)


class Stream(Owner):
    """A message that comes in pieces, and after `again` the next one. `done` is whether it takes no more bytes. The dictionary may be
    closed meanwhile."""

    _closing = "dia_stream_close"

    def __init__(self, dictionary: Dictionary, refuse_unknown: bool = False, levels: Optional[int] = None):
        super().__init__()
        self._dictionary, self.done = dictionary.share(), False
        require(lib.dia_stream_open(dictionary._handle, bool(refuse_unknown), levels_of(levels), self._handle))

    def feed(self, piece: bytes) -> bytes:
        """Takes the bytes that belong to the message, and returns those after them."""
        fed, data = _lib.Fed(), octets(piece)
        require(lib.dia_stream_feed(self._handle, data, len(data), fed))
        self.done = bool(fed.done)
        return data[fed.taken :]

    def finish(self) -> Verdict:
        """The verdict on all bytes that came. It closes the stream."""
        raw = RawVerdict()
        require(lib.dia_stream_finish(self._handle, raw))
        return self._dictionary._verdicts.of(raw)

    def again(self) -> Verdict:
        """The verdict on all bytes that came. The stream stays open for the next message, also after MemoryError."""
        raw, self.done = RawVerdict(), False
        require(lib.dia_stream_again(self._handle, raw))
        return self._dictionary._verdicts.of(raw)


def faults(text: Union[str, bytes]) -> list[Fault]:
    """All that is wrong with a dictionary's text; nothing where it is a dictionary."""
    data, owner, count = text_octets(text), _Faults(), c.c_size_t()
    require(lib.dia_faults_open(data, len(data), owner._handle, count))
    raws = [_lib.RawFault() for _ in range(count.value)]
    for index, raw in enumerate(raws):
        require(lib.dia_faults_get(owner._handle, index, raw))
    positions = lines_columns(data, {raw.at for raw in raws})
    found = []
    for raw in raws:
        line, column = positions[raw.at] if raw.has_place else (None, None)
        names = (bytes(raw.name[: raw.name_count]).decode(), bytes(raw.slot[: raw.slot_count]).decode())
        found.append(Fault(kind_of(raw.kind), line, column, *names))
    return found


def render(text: Union[str, bytes]) -> str:
    """The text in canonical form, as `diacmd render` writes it. Raises DictionaryError where the grammar doesn't derive it."""
    data, rendered = text_octets(text), Text()
    status = lib.dia_render(data, len(data), rendered._handle, _lib.Problem())
    if status == _lib.REFUSED:
        raise DictionaryError(faults(data))
    require(status)
    return rendered.read()


def explain(
    text: Union[str, bytes], message: bytes, *, refuse_unknown: bool = False, levels: Optional[int] = None
) -> str:
    """What `diacmd check` writes on standard error for a message, with the dictionary of this text: for people. It is empty for a valid
    message. The options are those of `check`."""
    data, octets_of, note = text_octets(text), octets(message), Text()
    policy = bool(refuse_unknown), levels_of(levels)
    require(_lib.lib_breaking().dia_explain(data, len(data), *policy, octets_of, len(octets_of), note._handle))
    return note.read()


def message_length(header: bytes) -> Optional[int]:
    """How many bytes the message has that begins with these, at least 20 (RFC 6733 section 3); None where no message begins so."""
    length, data = c.c_uint32(), octets(header)
    status = lib.dia_message_length(data, len(data), length, RawVerdict())
    return length.value if status == _lib.OK else None


def header(data: bytes) -> Optional[Header]:
    """The header with which the bytes begin, at least 20; None where no message begins so, as of `message_length`."""
    raw, begin = _lib.RawHeader(), octets(data)
    if lib.dia_header(begin, len(begin), raw, RawVerdict()) != _lib.OK:
        return None
    return Header(raw.length, raw.flags, raw.code, raw.app, raw.hop, raw.e2e)


def split(data: bytes) -> Iterator[bytes]:
    """The messages that follow one another in the bytes, by their Message Length. Bytes that begin none are the last, as is a
    message that is cut."""
    data, at = octets(data), 0
    while at < len(data):
        length = message_length(data[at : at + 20])
        end = len(data) if length is None else at + length
        yield data[at:end]
        at = end


class _Faults(Owner):
    _closing = "dia_faults_close"


def all_octets(messages: Iterable[bytes]) -> list[bytes]:
    """The bytes of each of the messages."""
    parts = list(messages)
    return parts if set(map(type, parts)) <= {bytes} else [octets(part) for part in parts]


def avp_of(raw: _lib.RawAvp, data: bytes) -> Avp:
    name = bytes(raw.name[: raw.name_count]).decode() if raw.format else None
    format_of = FORMATS[raw.format - 1] if raw.format else None
    octets_of = data[raw.data_place : raw.data_place + raw.data_length]
    return Avp(raw.place, raw.depth, raw.length, raw.code, raw.vendor, raw.flags, name, format_of, octets_of)


def name_in(raw: Union[_lib.RawCommand, _lib.RawEntry]) -> str:
    return bytes(raw.name[: raw.name_count]).decode()


def command_of(raw: _lib.RawCommand) -> Command:
    kind = Class(raw.kind)
    code, application = None if kind is Class.ERROR else raw.code, raw.app if raw.has_app else None
    return Command(name_in(raw), code, kind, Flag(raw.proxy), application)


def entry_of(raw: _lib.RawEntry) -> Entry:
    flags = (Flag.EITHER, Flag.SET, Flag.CLEAR)
    return Entry(name_in(raw), raw.code, raw.vendor, FORMATS[raw.format - 1], flags[raw.mandatory])


@lru_cache(maxsize=None)
def kind_of(number: int) -> str:
    """The word of a kind of problem, as answers in JSON have it (docs/JSON.md)."""
    room, count = c.create_string_buffer(_lib.MAX_WORD), c.c_size_t()
    status = lib.dia_kind_word(number, room, _lib.MAX_WORD, count)
    return room.raw[: count.value].decode() if status == _lib.OK else f"kind {number}"


def levels_of(levels: Optional[int]) -> int:
    return _lib.ANY_LEVELS if levels is None else u32(levels, "levels")


def lines_columns(text: bytes, offsets: Iterable[int]) -> dict[int, tuple[int, int]]:
    """The line and the column of each offset, both from 1, in one pass over the text."""
    found, before, line, column = {}, 0, 1, 1
    more, right = c.c_size_t(), c.c_size_t()
    for offset in sorted(offsets):
        part = text[before:offset]
        lib.dia_line_column(part, len(part), len(part), more, right)
        column = right.value if more.value > 1 else column + right.value - 1
        line += more.value - 1
        found[offset], before = (line, column), offset
    return found
