"""One end of a connection (RFC 6733 section 5; docs/CONNECTION.md), without socket and clock."""

from __future__ import annotations

import ctypes as c
import ipaddress
import random
import time
from dataclasses import dataclass
from enum import IntEnum
from typing import Iterable, Optional, Union

from . import _lib
from ._lib import App, Ip, Numbers, Owner, PeerOptions, lib, octets, require, u32

RELAY = 0xFFFFFFFF
"""The Application-ID of relays (RFC 6733 section 2.4)."""
MOST_ROOM = 35_408
"""The most bytes of a message of a peer, but an answer to an invalid request."""


class Role(IntEnum):
    """INITIATOR opened the transport connection, RESPONDER accepted it."""

    INITIATOR, RESPONDER = range(2)


class State(IntEnum):
    IDLE, WAIT_CEA, WAIT_CER, OPEN, WAIT_DPA, CLOSED = range(6)


class Cause(IntEnum):
    """The values of Disconnect-Cause (RFC 6733 section 5.4.3)."""

    REBOOTING, BUSY, DO_NOT_WANT_TO_TALK_TO_YOU = range(3)


class Why(IntEnum):
    """Why a peer closes the connection."""

    INVALID, NO_COMMON, REFUSED, WATCHDOG, TIMEOUT, PEER_STOPPED, STOPPED = range(7)


class Timer(IntEnum):
    """What the timer of a connection does after an event: OFF: no `tick` is due; QUIET: it begins anew, for the watchdog (RFC 3539
    section 3.4.1); REPLY: it begins anew, for an answer; KEEP: it runs on."""

    OFF, QUIET, REPLY, KEEP = range(4)


@dataclass(frozen=True)
class Application:
    """An application that is advertised: of an Acct-Application-Id or an Auth-Application-Id, alone or with its vendor's number in
    a Vendor-Specific-Application-Id."""

    id: int
    accounting: bool = False
    vendor: Optional[int] = None


Output = Union[bytes, Why]
"""A message to be sent; or why the connection is to be closed, after what was to be sent."""


class Peer(Owner):
    """An end of a connection. Each event returns what is to be done, in order.

    With `relays` the application RELAY stands for all. With `answers` a request that is no valid message is answered with its
    fault before the connection is closed. With `life` a watchdog without answer makes the connection `suspect`
    before it closes it (RFC 3539 section 3.4.1). With `values` it keeps what the other end says of itself: `host` and the
    properties after it. The Hop-by-Hop and End-to-End Identifiers begin at random (RFC 6733
    section 3), or at those of `identifiers`. Raises ValueError where a field is refused, and MemoryError."""

    _closing = "dia_peer_close"

    def __init__(
        self,
        role: Role,
        host: str,
        realm: str,
        applications: Iterable[Application],
        *,
        addresses: Iterable[str] = ("127.0.0.1",),
        product: str = "Wittalen",
        vendor: int = 0,
        state_id: Optional[int] = None,
        relays: bool = False,
        answers: bool = False,
        life: bool = False,
        values: bool = False,
        identifiers: Optional[tuple[int, int]] = None,
    ):
        super().__init__()
        self._waiting: list[Output] = []
        self._timer = Timer.OFF
        names = [name.encode() for name in (host, realm, product)]
        ips, apps = [_ip(address) for address in addresses], [_app(application) for application in applications]
        hop, e2e = identifiers or _identifiers()
        ids = [u32(it, "identifiers") for it in (hop, e2e)]
        options = PeerOptions(
            size=c.sizeof(PeerOptions),
            role=Role(role),
            manner=bool(relays) | bool(answers) << 1 | bool(life) << 2 | bool(values) << 3,
            host=names[0],
            host_len=len(names[0]),
            realm=names[1],
            realm_len=len(names[1]),
            product=names[2],
            product_len=len(names[2]),
            addresses=(Ip * len(ips))(*ips),
            address_count=len(ips),
            apps=(App * len(apps))(*apps),
            app_count=len(apps),
            numbers=Numbers(u32(vendor, "vendor"), state_id is not None, u32(state_id or 0, "state_id"), *ids),
        )
        fault = c.c_uint32()
        status = lib.dia_peer_open_with(options, self._handle, fault)
        if status == _lib.REFUSED:
            fields = ("", "host", "realm", "product", "addresses", "applications")
            raise ValueError(f"{fields[fault.value]}: refused")
        require(status)

    def start(self) -> list[Output]:
        """The transport connection is there."""
        return self._event(0)

    def receive(self, message: bytes) -> list[Output]:
        """One whole message came; `split` finds these in bytes."""
        return self._event(1, message)

    def tick(self) -> list[Output]:
        """A time has passed without an answer, or without any message."""
        return self._event(2)

    def stop(self, cause: Cause = Cause.REBOOTING) -> list[Output]:
        """The connection is to be given up."""
        return self._event(3, cause=Cause(cause))

    def lost(self) -> list[Output]:
        """The transport connection is gone."""
        return self._event(4)

    @property
    def state(self) -> State:
        state = c.c_uint32()
        require(lib.dia_peer_state(self._handle, state))
        return State(state.value)

    @property
    def common(self) -> list[Application]:
        """The applications that both ends have, once the connection was open: those for authentication first, by number."""
        app = App()
        found: list[Application] = []
        while (status := lib.dia_peer_common(self._handle, len(found), app)) == _lib.OK:
            found.append(Application(app.id, bool(app.is_acct)))
        if status != _lib.NONE:
            require(status)
        return found

    def serves(self, application: int) -> bool:
        """Whether messages of an application may go over this connection."""
        serves = c.c_uint32()
        require(lib.dia_peer_serves(self._handle, u32(application, "application"), serves))
        return bool(serves.value)

    @property
    def timer(self) -> Timer:
        """What the timer of the connection does after the last event."""
        return self._timer

    def take_identifiers(self) -> tuple[int, int]:
        """The next Hop-by-Hop and End-to-End Identifiers, for a request of the caller's own. The peer doesn't use them."""
        hop, e2e = c.c_uint32(), c.c_uint32()
        require(lib.dia_peer_identifiers(self._handle, hop, e2e))
        return hop.value, e2e.value

    def heard(self) -> None:
        """A message of an application came, which `receive` doesn't get: a sign of life."""
        require(lib.dia_peer_heard(self._handle))

    @property
    def suspect(self) -> bool:
        """Whether a watchdog waited at a `tick`, and nothing was heard since: new requests are better sent elsewhere."""
        suspect = c.c_uint32()
        require(lib.dia_peer_suspect(self._handle, suspect))
        return bool(suspect.value)

    @property
    def host(self) -> Optional[str]:
        """Origin-Host of the other end, out of its CER or its answer to one."""
        return self._text(0)

    @property
    def realm(self) -> Optional[str]:
        """Origin-Realm of the other end, as `host`."""
        return self._text(1)

    @property
    def product(self) -> Optional[str]:
        """Product-Name of the other end, as `host`."""
        return self._text(2)

    @property
    def result(self) -> Optional[int]:
        """The Result-Code of the answer to the CER of this end, also of a refusal."""
        return self._number(3)

    @property
    def cause(self) -> Optional[int]:
        """The Disconnect-Cause of the DPR of the other end."""
        return self._number(4)

    def _text(self, which: int) -> Optional[str]:
        value = self._value(which)
        return None if value is None else value.decode()

    def _number(self, which: int) -> Optional[int]:
        value = self._value(which)
        return None if value is None else int.from_bytes(value, "big")

    def _value(self, which: int) -> Optional[bytes]:
        room, count = c.create_string_buffer(64), c.c_size_t()
        while (status := lib.dia_peer_value(self._handle, which, room, len(room), count)) == _lib.NO_ROOM:
            room = c.create_string_buffer(count.value)
        if status == _lib.NONE:
            return None
        require(status)
        return room.raw[: count.value]

    def _event(self, event: int, message: bytes = b"", cause: int = 0) -> list[Output]:
        data = octets(message)
        # what an event left whose call was interrupted
        self._take_outputs()
        before, timer = self.state, c.c_uint32()
        require(lib.dia_peer_event(self._handle, event, data, len(data), cause))
        require(lib.dia_peer_timer(before, event, self.state, timer))
        self._timer = Timer(timer.value)
        self._take_outputs()
        done, self._waiting = self._waiting, []
        return done

    def _take_outputs(self) -> None:
        output, count, why = c.c_uint32(), c.c_size_t(), c.c_uint32()
        room = c.create_string_buffer(MOST_ROOM)
        while (status := lib.dia_peer_output(self._handle, output, room, len(room), count, why)) != _lib.NONE:
            if status == _lib.NO_ROOM:
                room = c.create_string_buffer(count.value)
                continue
            require(status)
            self._waiting.append(Why(why.value) if output.value else room.raw[: count.value])


def _ip(address: str) -> Ip:
    parsed = ipaddress.ip_address(address)
    return Ip(parsed.version == 6, (c.c_uint8 * 16)(*parsed.packed))


def _app(application: Application) -> App:
    vendor = application.vendor
    number = u32(application.id, "applications")
    return App(bool(application.accounting), number, vendor is not None, u32(vendor or 0, "vendor"))


def _identifiers() -> tuple[int, int]:
    """At random; the End-to-End Identifier begins with the time (RFC 6733 section 3)."""
    return random.getrandbits(32), (int(time.time()) & 0xFFF) << 20 | random.getrandbits(20)
