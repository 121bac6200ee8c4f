"""The structs and calls of dia.h, by ctypes.

The calls hold Python's global lock, so one handle never has two at a time. Those of libdia-breaking don't: they may take long."""

from __future__ import annotations

import ctypes as c
import os
import pathlib
from typing import Any, Optional, TypeVar

ABI_VERSION = 1
OK, REFUSED, NONE, NO_MEMORY, NO_ROOM, IS_OPEN, IS_CLOSED, BAD_ARGUMENT, OUTPUTS_LEFT, SPENT = range(10)
MAX_NAME = 128
MAX_WORD = 24
ANY_LEVELS = 0xFFFFFFFF


class Handle(c.Structure):
    _fields_ = [("private", c.c_void_p), ("state", c.c_uint32)]


class Problem(c.Structure):
    _fields_ = [(name, c.c_uint32) for name in ("kind", "line", "token")]


class RawFault(c.Structure):
    _fields_ = (
        [(name, c.c_size_t) for name in ("at", "name_count", "slot_count")]
        + [(name, c.c_uint32) for name in ("kind", "token", "has_place")]
        + [(name, c.c_uint8 * MAX_NAME) for name in ("name", "slot")]
    )


class RawVerdict(c.Structure):
    _fields_ = [
        (name, c.c_uint32)
        for name in ("outcome", "command", "code", "place", "reason", "subject", "avp_code", "avp_vendor")
    ] + [("reserved", c.c_uint32 * 4)]


class Fed(c.Structure):
    _fields_ = [("taken", c.c_size_t), ("done", c.c_uint32)]


class RawHeader(c.Structure):
    _fields_ = [(name, c.c_uint32) for name in ("length", "flags", "code", "app", "hop", "e2e")]


class Ip(c.Structure):
    _fields_ = [("is_v6", c.c_uint32), ("bytes", c.c_uint8 * 16)]


class App(c.Structure):
    _fields_ = [(name, c.c_uint32) for name in ("is_acct", "id", "has_vendor", "vendor")]


class Numbers(c.Structure):
    _fields_ = [(name, c.c_uint32) for name in ("vendor", "has_state_id", "state_id", "hop", "e2e")]


class PeerOptions(c.Structure):
    _fields_ = [
        ("size", c.c_size_t),
        ("role", c.c_uint32),
        ("manner", c.c_uint32),
        ("host", c.c_char_p),
        ("host_len", c.c_size_t),
        ("realm", c.c_char_p),
        ("realm_len", c.c_size_t),
        ("product", c.c_char_p),
        ("product_len", c.c_size_t),
        ("addresses", c.POINTER(Ip)),
        ("address_count", c.c_size_t),
        ("apps", c.POINTER(App)),
        ("app_count", c.c_size_t),
        ("numbers", Numbers),
        ("reserved", c.c_uint64 * 8),
    ]


class RawAvp(c.Structure):
    _fields_ = (
        [(name, c.c_size_t) for name in ("place", "depth", "length", "data_place", "data_length", "name_count")]
        + [(name, c.c_uint32) for name in ("code", "vendor", "flags", "format")]
        + [("name", c.c_uint8 * MAX_NAME), ("reserved", c.c_uint64 * 4)]
    )


class RawCommand(c.Structure):
    _fields_ = (
        [("name_count", c.c_size_t)]
        + [(name, c.c_uint32) for name in ("command", "code", "kind", "proxy", "has_app", "app")]
        + [("name", c.c_uint8 * MAX_NAME)]
    )


class RawEntry(c.Structure):
    _fields_ = (
        [("name_count", c.c_size_t)]
        + [(name, c.c_uint32) for name in ("code", "vendor", "format", "mandatory")]
        + [("name", c.c_uint8 * MAX_NAME)]
    )


H, U, S, B = c.POINTER(Handle), c.c_uint32, c.c_size_t, c.c_char_p
NUMBER, SIZE, PROBLEM, VERDICT = c.POINTER(U), c.POINTER(S), c.POINTER(Problem), c.POINTER(RawVerdict)
CALLS: dict[str, tuple[Any, ...]] = {
    "abi_version": (),
    "dict_open": (B, S, H, PROBLEM),
    "dict_open_base": (H,),
    "dict_share": (H, H),
    "dict_close": (H,),
    "faults_open": (B, S, H, SIZE),
    "faults_get": (H, S, c.POINTER(RawFault)),
    "faults_close": (H,),
    "line_column": (B, S, S, SIZE, SIZE),
    "kind_word": (U, B, S, SIZE),
    "dict_commands": (H, SIZE),
    "dict_command": (H, S, c.POINTER(RawCommand)),
    "dict_avps": (H, SIZE),
    "dict_avp": (H, S, c.POINTER(RawEntry)),
    "command_name": (H, U, B, S, SIZE),
    "avp_name": (H, U, U, B, S, SIZE),
    "check": (H, U, U, B, S, VERDICT),
    "check_json": (H, U, U, B, S, H),
    "check_many": (H, U, U, B, S, SIZE, S, VERDICT, S),
    "message_length": (B, S, NUMBER, VERDICT),
    "header": (B, S, c.POINTER(RawHeader), VERDICT),
    "answer": (H, U, U, B, S, B, S, B, S, H, NUMBER, VERDICT),
    "avps": (H, B, S, c.POINTER(RawAvp), S, SIZE, SIZE, VERDICT),
    "avps_at": (H, B, S, S, c.POINTER(RawAvp), S, SIZE, VERDICT),
    "avp_find": (H, B, S, U, U, c.POINTER(RawAvp), VERDICT),
    "stream_open": (H, U, U, H),
    "stream_feed": (H, B, S, c.POINTER(Fed)),
    "stream_finish": (H, VERDICT),
    "stream_again": (H, VERDICT),
    "stream_close": (H,),
    "render": (B, S, H, PROBLEM),
    "show": (H, B, S, H, NUMBER, VERDICT),
    "text_read": (H, S, B, S, SIZE),
    "text_length": (H, SIZE),
    "text_close": (H,),
    "compare": (H, H, U, B, S, H, NUMBER, PROBLEM),
    "table_place": (B, S, U, U),
    "peer_open_with": (c.POINTER(PeerOptions), H, NUMBER),
    "peer_event": (H, U, B, S, U),
    "peer_output": (H, NUMBER, B, S, SIZE, NUMBER),
    "peer_state": (H, NUMBER),
    "peer_common": (H, S, c.POINTER(App)),
    "peer_serves": (H, U, NUMBER),
    "peer_identifiers": (H, NUMBER, NUMBER),
    "peer_heard": (H,),
    "peer_suspect": (H, NUMBER),
    "peer_value": (H, U, B, S, SIZE),
    "peer_timer": (U, U, U, NUMBER),
    "peer_close": (H,),
}
CALLS_OF_BREAKING: dict[str, tuple[Any, ...]] = {
    "breaking": (H, H, U, U, U, B, S, B, S, H, NUMBER, PROBLEM),
    "explain": (B, S, U, U, B, S, H),
}


def path_of(name: str) -> str:
    """In the folder that WITTALEN_LIBRARY names, or beside this file, or where the system looks for libraries."""
    folder = os.environ.get("WITTALEN_LIBRARY")
    beside = pathlib.Path(__file__).with_name(name)
    return str(pathlib.Path(folder) / name) if folder else str(beside) if beside.exists() else name


def declare(library: c.CDLL, calls: dict[str, tuple[Any, ...]]) -> c.CDLL:
    for name, types in calls.items():
        call = getattr(library, f"dia_{name}")
        call.argtypes = types
        call.restype = None if name.endswith("_close") or name == "line_column" else S if name == "table_place" else U
    return library


lib = declare(c.PyDLL(path_of("libdia.so.1")), CALLS)
if lib.dia_abi_version() != ABI_VERSION:
    raise ImportError(f"libdia has the ABI version {lib.dia_abi_version()}, and not {ABI_VERSION}")
_breaking: Optional[c.CDLL] = None


def lib_breaking() -> c.CDLL:
    """libdia-breaking, which is loaded when it is first used."""
    global _breaking
    if _breaking is None:
        _breaking = declare(c.CDLL(path_of("libdia-breaking.so.1")), CALLS_OF_BREAKING)
    return _breaking


def require(status: int) -> None:
    """Raises the exception of a status other than DIA_OK."""
    if status == NO_MEMORY:
        raise MemoryError
    if status == SPENT:
        raise MemoryError("memory was refused to this stream before")
    if status == IS_CLOSED:
        raise ValueError("it is closed")
    if status != OK:
        raise RuntimeError(f"libdia: status {status}")


def octets(data: Any) -> bytes:
    """The bytes of a bytes-like object. A pointer to anything else is never handed over."""
    if not isinstance(data, (bytes, bytearray, memoryview)):
        raise TypeError(f"bytes are wanted, and not {type(data).__name__}")
    return bytes(data)


def text_octets(text: Any) -> bytes:
    """The bytes of a text, or of bytes."""
    return text.encode() if isinstance(text, str) else octets(text)


def u32(number: int, what: str) -> int:
    """The number, which C would cut to 32 bits without a word."""
    if not 0 <= number <= 0xFFFFFFFF:
        raise ValueError(f"{what}: {number} isn't a number of 32 bits")
    return number


Owned = TypeVar("Owned", bound="Owner")


class Owner:
    """Owns a handle, and closes it. In a `with` statement, or by `close`; else when nothing refers to the object."""

    _closing = ""

    def __init__(self) -> None:
        self._handle = Handle()

    def close(self) -> None:
        getattr(lib, self._closing)(self._handle)

    def __enter__(self: Owned) -> Owned:
        return self

    def __exit__(self, *_: object) -> None:
        self.close()

    def __del__(self) -> None:
        if hasattr(self, "_handle"):
            self.close()

    def __copy__(self) -> Any:
        """A copy would own the same handle, and close it."""
        raise TypeError(f"a {type(self).__name__} can't be copied: it has a state of its own")

    def __deepcopy__(self, memo: Any) -> Any:
        return self.__copy__()

    def __reduce__(self) -> Any:
        raise TypeError(f"a {type(self).__name__} can't be pickled: pickle what it was made of")


class Text(Owner):
    """A text of the library."""

    _closing = "dia_text_close"

    def read(self) -> str:
        return self.read_bytes().decode()

    def read_bytes(self) -> bytes:
        count = c.c_size_t()
        require(lib.dia_text_length(self._handle, count))
        room = c.create_string_buffer(count.value + 1)
        require(lib.dia_text_read(self._handle, 0, room, count.value, count))
        return room.raw[: count.value]
