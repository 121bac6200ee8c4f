"""Tests of examples/node.py over loopback."""

import pathlib
import re
import signal
import socket
import subprocess
import sys
import unittest

from wittalen import Application, Peer, Role

NODE = pathlib.Path(__file__).resolve().parent.parent / "examples/node.py"


class Running:
    """A node as a process, with the lines that it writes."""

    def __init__(self, *words: str):
        self.process = subprocess.Popen([sys.executable, NODE, *words], stdout=subprocess.PIPE, text=True)
        self.lines: list = []

    def wait_for(self, pattern: str) -> "re.Match":
        """Reads lines up to the first that has the pattern."""
        for line in self.process.stdout:
            self.lines.append(line.rstrip("\n").partition(": ")[2])
            if found := re.search(pattern, line):
                return found
        raise AssertionError(f"no line has {pattern}: {self.lines}")

    def end(self) -> int:
        self.lines += [line.rstrip("\n").partition(": ")[2] for line in self.process.stdout]
        self.process.stdout.close()
        return self.process.wait(20)

    def kill(self) -> None:
        """Ends it where a test failed."""
        if self.process.poll() is None:
            self.process.kill()
            self.end()


class Nodes(unittest.TestCase):
    @classmethod
    def setUpClass(cls):
        try:
            with socket.create_server(("127.0.0.1", 0)) as server:
                socket.create_connection(server.getsockname(), 20).close()
        except OSError as error:
            raise unittest.SkipTest(f"there is no loopback: {error}") from error

    def node(self, *words: str) -> Running:
        found = Running(*words)
        self.addCleanup(found.kill)
        return found

    def listening(self, *words: str) -> "tuple[Running, int]":
        node = self.node("--listen", "0", *words)
        return node, int(node.wait_for(r"listens on (\d+)").group(1))

    def connected(self, port: int) -> "tuple[socket.socket, Peer]":
        """The other end by hand: the peer of this process, over a socket."""
        end = socket.create_connection(("127.0.0.1", port), 20)
        self.addCleanup(end.close)
        return end, Peer(Role.INITIATOR, "hand.example.com", "example.com", [Application(4)])

    def test_two_nodes(self):
        listening, port = self.listening("--host", "b.example.com")
        connecting = self.node("--connect", f"127.0.0.1:{port}", "--host", "a.example.com", "--watchdog", "1")
        connecting.wait_for("OPEN 4")
        connecting.wait_for("<- .* valid DWA")
        connecting.process.send_signal(signal.SIGTERM)
        self.assertEqual(connecting.end(), 0)
        self.assertEqual(connecting.lines[-2:], ["closes: STOPPED", "CLOSED 4"])
        listening.wait_for("CLOSED 4")
        self.assertEqual(listening.lines[-2], "closes: PEER_STOPPED")
        listening.process.send_signal(signal.SIGTERM)
        self.assertEqual(listening.end(), 0)

    def test_nothing_in_common(self):
        _, port = self.listening("--application", "1")
        connecting = self.node("--connect", f"127.0.0.1:{port}", "--application", "4")
        connecting.wait_for("closes: (NO_COMMON|REFUSED)")
        self.assertEqual(connecting.end(), 0)

    def test_frozen(self):
        node, port = self.listening("--watchdog", "0.3")
        end, peer = self.connected(port)
        (cer,) = peer.start()
        end.sendall(cer)
        node.wait_for("OPEN 4")
        node.wait_for("-> .* valid DWR")
        node.wait_for("closes: WATCHDOG")

    def test_no_message(self):
        node, port = self.listening()
        end, peer = self.connected(port)
        (cer,) = peer.start()
        end.sendall(cer + b"\2" * 20)
        node.wait_for("OPEN 4")
        node.wait_for("<- 20 bytes: fault 5011 at 0 version -")
        node.wait_for("closes: INVALID")


if __name__ == "__main__":
    unittest.main()
