#!/usr/bin/env python3
"""A node that has Diameter connections over TCP, checks every message that comes, and answers requests of credit control.

    node.py [-l PORT] [-c ADDRESS:PORT] [--host HOST] [--realm REALM] [--application ID].. [--relays]
            [--watchdog SECONDS] [DICTIONARY..]

It opens connections, keeps them alive by watchdogs, and gives them up on SIGTERM or SIGINT (RFC 6733 section 5, RFC 3539). What it
sends and receives, with the verdict under the dictionaries (by itself those of RFC 6733), is a line each. A CCR (RFC 8506) is answered
with a CCA of the node's own, and a request that has a fault with its fault."""

import argparse
import asyncio
import random
import signal
import struct
from typing import Iterable, Optional, Union

from wittalen import Application, Dictionary, Header, Peer, Role, State, Timer, Why, header, message_length

LONGEST = 1 << 20
"""The most bytes of a message that is read."""
ANSWER_SECONDS = 10
"""How long an answer to a CER or a DPR may take."""
CONNECTION_COMMANDS = (257, 280, 282)
CREDIT_CONTROL = 272
PROXIABLE, ERROR, MANDATORY = 0x40, 0x20, 0x40
SUCCESS, COMMAND_UNSUPPORTED, APPLICATION_UNSUPPORTED = 2001, 3001, 3007
"""Result-Codes (RFC 6733 section 7.1)."""


def avp(code: int, data: bytes) -> bytes:
    """An AVP with the M flag and without a Vendor-ID, with its padding (RFC 6733 section 4.1)."""
    return struct.pack(">II", code, MANDATORY << 24 | 8 + len(data)) + data + bytes(-len(data) % 4)


def number(value: int) -> bytes:
    return struct.pack(">I", value)


def reply(request: Header, flags: int, *avps: bytes) -> bytes:
    """The answer to a request with these flags, beside the P flag of the request (RFC 6733 sections 3 and 6.2)."""
    body = b"".join(avps)
    first = 1 << 24 | 20 + len(body), (flags | request.flags & PROXIABLE) << 24 | request.code
    return struct.pack(">IIIII", *first, request.application, request.hop_by_hop, request.end_to_end) + body


class Connection:
    """A connection: its peer, the streams of its socket, and its timer."""

    def __init__(self, node: "Node", role: Role, reader: asyncio.StreamReader, writer: asyncio.StreamWriter):
        self.node, self.reader, self.writer = node, reader, writer
        self.peer = Peer(role, node.host, node.realm, node.applications, relays=node.relays, product="node.py", answers=True)
        self.state, self.is_over = State.IDLE, False
        self.timer: Optional[asyncio.TimerHandle] = None

    async def run(self) -> None:
        """Until either side gives the connection up."""
        self.do(self.peer.start())
        try:
            while not self.is_over:
                message, is_whole = await self.next_message()
                self.note("<-", message)
                # the header's Command Code (RFC 6733 section 3)
                is_for_peer = int.from_bytes(message[5:8], "big") in CONNECTION_COMMANDS
                if is_for_peer or not is_whole or self.state is not State.OPEN:
                    self.do(self.peer.receive(message))
                else:
                    # a sign of life (RFC 3539 section 3.4.1)
                    self.peer.heard()
                    self.set_timer(Timer.QUIET)
                    self.answer(message)
        except (asyncio.IncompleteReadError, ConnectionError, asyncio.CancelledError):
            self.do(self.peer.lost())
        finally:
            self.stop_timer()
            self.writer.close()

    async def next_message(self) -> "tuple[bytes, bool]":
        """The next message; or only its header, and False, where that has a bad version or length."""
        header = await self.reader.readexactly(20)
        length = message_length(header)
        if length is None or length > LONGEST:
            return header, False
        return header + await self.reader.readexactly(length - 20), True

    def answer(self, message: bytes) -> None:
        """Answers a message of an application, if it is a request."""
        head, fault = header(message), self.node.dictionary.answer(message, self.node.host, self.node.realm)
        if fault:
            self.send(fault.message)
        elif head and head.is_request and self.node.dictionary.check(message):
            self.send(self.node.answer(message, head, self.peer.serves(head.application)))

    def send(self, message: bytes) -> None:
        self.note("->", message)
        self.writer.write(message)

    def do(self, outputs: "Iterable[Union[bytes, Why]]") -> None:
        """Sends what the peer wants sent, and closes where it wants that."""
        for output in outputs:
            if isinstance(output, Why):
                self.node.say(f"closes: {output.name}")
                self.end()
            else:
                self.send(output)
        if self.peer.state is not self.state:
            self.state = self.peer.state
            self.node.say(f"{self.state.name} {' '.join(str(it.id) for it in self.peer.common)}".rstrip())
        self.set_timer(self.peer.timer)

    def end(self) -> None:
        """Ends the connection after what was written."""
        self.is_over = True
        if self.writer.can_write_eof():
            self.writer.write_eof()
        self.reader.feed_eof()

    def set_timer(self, action: Timer) -> None:
        """Tw with its jitter of two seconds, less for a short one (RFC 3539 section 3.4.1); a fixed time for an answer."""
        if action is not Timer.KEEP:
            self.stop_timer()
        if action in (Timer.QUIET, Timer.REPLY):
            jitter = min(2, self.node.watchdog / 3)
            watchdog = self.node.watchdog + random.uniform(-jitter, jitter)
            seconds = watchdog if action is Timer.QUIET else ANSWER_SECONDS
            self.timer = asyncio.get_running_loop().call_later(seconds, lambda: self.do(self.peer.tick()))

    def stop_timer(self) -> None:
        if self.timer:
            self.timer.cancel()

    def note(self, way: str, message: bytes) -> None:
        self.node.say(f"{way} {len(message)} bytes: {self.node.dictionary.check(message)}")


class Node:
    """What all connections of this node have in common."""

    def __init__(self, words: argparse.Namespace):
        self.host, self.realm, self.relays, self.watchdog = words.host, words.realm, words.relays, words.watchdog
        self.applications = [Application(number) for number in words.application or [4]]
        self.dictionary = Dictionary.open(*words.dictionary) if words.dictionary else Dictionary()
        self.connections: "set[Connection]" = set()

    def answer(self, request: bytes, head: Header, serves: bool) -> bytes:
        """The answer to a valid request of an application."""
        origin = avp(264, self.host.encode()) + avp(296, self.realm.encode())
        session = self.copied(request, 263)
        if not serves or head.code != CREDIT_CONTROL:
            # an error message (RFC 6733 section 7.2)
            code = COMMAND_UNSUPPORTED if serves else APPLICATION_UNSUPPORTED
            return reply(head, ERROR, session, origin, avp(268, number(code)))
        # a CCA (RFC 8506 section 3.2), with CC-Request-Type and CC-Request-Number of the request
        repeated = self.copied(request, 416) + self.copied(request, 415)
        return reply(head, 0, session, avp(268, number(SUCCESS)), origin, avp(258, number(head.application)), repeated)

    def copied(self, message: bytes, code: int) -> bytes:
        """The first AVP of a message that has this code, no vendor, and is in no group; nothing if there is none."""
        found = self.dictionary.find(message, code)
        return avp(code, found.data) if found else b""

    def say(self, line: str) -> None:
        print(f"{self.host}: {line}", flush=True)

    async def serve(self, role: Role, reader: asyncio.StreamReader, writer: asyncio.StreamWriter) -> None:
        connection = Connection(self, role, reader, writer)
        self.connections.add(connection)
        await connection.run()
        self.connections.discard(connection)

    def stop(self) -> None:
        for connection in self.connections:
            connection.do(connection.peer.stop())


async def run(words: argparse.Namespace) -> None:
    node, over = Node(words), asyncio.Event()

    def stop() -> None:
        node.stop()
        over.set()

    for number in (signal.SIGTERM, signal.SIGINT):
        asyncio.get_running_loop().add_signal_handler(number, stop)
    if words.listen is not None:
        accept = lambda reader, writer: node.serve(Role.RESPONDER, reader, writer)
        server = await asyncio.start_server(accept, "127.0.0.1", words.listen)
        node.say(f"listens on {server.sockets[0].getsockname()[1]}")
    if words.connect:
        address, _, port = words.connect.rpartition(":")
        await node.serve(Role.INITIATOR, *await asyncio.open_connection(address, int(port)))
    if words.listen is not None:
        await over.wait()
        server.close()
        while node.connections:
            await asyncio.sleep(0.05)


def main() -> None:
    parser = argparse.ArgumentParser(description=__doc__.splitlines()[0])
    parser.add_argument("-l", "--listen", type=int, metavar="PORT", help="accept connections on loopback; 0 takes any port")
    parser.add_argument("-c", "--connect", metavar="ADDRESS:PORT", help="open a connection")
    parser.add_argument("--host", default="node.example.com", help="Origin-Host")
    parser.add_argument("--realm", default="example.com", help="Origin-Realm")
    parser.add_argument("--application", type=int, action="append", metavar="ID", help="an Auth-Application-Id; 4 where none is given")
    parser.add_argument("--relays", action="store_true", help="4294967295 stands for all applications")
    parser.add_argument("--watchdog", type=float, default=30, metavar="SECONDS", help="Tw, 30 by itself")
    parser.add_argument("dictionary", nargs="*", help="texts of one dictionary")
    words = parser.parse_args()
    if words.listen is None and not words.connect:
        parser.error("--listen or --connect is wanted")
    asyncio.run(run(words))


main()
