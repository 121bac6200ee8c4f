"""Other ends of connections over loopback: programs with the lines that they write, sockets that speak Diameter, and freeDiameterd."""

import fcntl
import pathlib
import re
import shutil
import socket
import struct
import subprocess
import threading
import time
import traceback

from outside import avp, avps, number

SIOCGIFADDR = 0x8915
PATIENCE = 45
"""How long a line may take to come, in seconds, on a busy machine."""


class Failed(Exception):
    """What was found in place of what was wanted."""


class Process:
    """A program that runs, with the lines that it writes."""

    running = []

    def __init__(self, *words, cwd=None):
        how = {"stdin": subprocess.PIPE, "stdout": subprocess.PIPE, "stderr": subprocess.STDOUT, "cwd": cwd, "errors": "replace"}
        self.process = subprocess.Popen([str(word) for word in words], text=True, **how)
        self.lines, self.seen, self.came = [], 0, threading.Condition()
        Process.running.append(self)
        self.reader = threading.Thread(target=self.read, daemon=True)
        self.reader.start()

    def read(self):
        for line in self.process.stdout:
            with self.came:
                self.lines.append(line.rstrip("\n"))
                self.came.notify_all()
        with self.came:
            self.lines.append("(it ended)")
            self.came.notify_all()

    def wait_for(self, pattern, seconds=PATIENCE):
        """The next line that has the pattern, after the one that was waited for before."""
        until = time.monotonic() + seconds
        with self.came:
            while True:
                while self.seen < len(self.lines):
                    self.seen += 1
                    if found := re.search(pattern, self.lines[self.seen - 1]):
                        return found
                if (self.lines and self.lines[-1] == "(it ended)") or not self.came.wait(max(0, until - time.monotonic())):
                    raise Failed(f"no line has {pattern}:\n" + "\n".join(self.lines[-40:]))

    def send(self, number):
        self.process.send_signal(number)

    def order(self, line):
        self.process.stdin.write(line + "\n")
        self.process.stdin.flush()

    def ends(self, status=0, seconds=PATIENCE):
        try:
            found = self.process.wait(seconds)
        except subprocess.TimeoutExpired as error:
            raise Failed("it doesn't end:\n" + "\n".join(self.lines[-40:])) from error
        if found != status:
            raise Failed(f"status {found}:\n" + "\n".join(self.lines[-40:]))

    def kill(self):
        if self.process.poll() is None:
            self.process.kill()
            self.process.wait()


def origin(host):
    """Origin-Host and Origin-Realm."""
    return avp(264, host.encode()) + avp(296, b"example.com")


def capabilities(application, kind=258):
    """What a CER and a CEA have beside (RFC 6733 section 5.3): Host-IP-Address 127.0.0.1, Vendor-Id, Product-Name, and an application,
    by itself in an Auth-Application-Id."""
    return avp(257, b"\0\1\x7f\0\0\1") + avp(266, number(0)) + avp(269, b"hand", 0) + avp(kind, number(application))


class Hand:
    """The other end by hand: a socket that sends and reads messages."""

    def __init__(self, port=None, accepted=None):
        self.socket = accepted or socket.create_connection(("127.0.0.1", port), PATIENCE)

    def send(self, data):
        self.socket.sendall(data)

    def read(self):
        """The next message, or nothing where the connection is closed."""
        head = self.read_all(20)
        return head and head + self.read_all(int.from_bytes(head[1:4], "big") - 20)

    def read_all(self, count):
        found = b""
        while len(found) < count:
            piece = self.socket.recv(count - len(found))
            if not piece:
                break
            found += piece
        return found

    def open(self, cer):
        self.send(cer)
        wants("the Result-Code of the CEA", result(self.read()), 2001)

    def close(self):
        self.socket.close()


def result(answer):
    return next((int.from_bytes(data, "big") for code, data in avps(answer) if code == 268), None)


def failed_avp(answer):
    """The codes of the AVPs in Failed-AVP."""
    return [code for group, data in avps(answer) if group == 279 for code, _ in avps(data, 0)]


def wants(what, found, wanted):
    if found != wanted:
        raise Failed(f"{what}: {found!r} in place of {wanted!r}")


def free_port():
    """A port that the kernel has free. Others might take it before it is used: the kernel gives each to one after the other."""
    with socket.socket() as found:
        found.bind(("127.0.0.1", 0))
        return found.getsockname()[1]


def address_of(interface):
    """The IPv4 address of an interface, or None."""
    with socket.socket(socket.AF_INET, socket.SOCK_DGRAM) as asked:
        try:
            found = fcntl.ioctl(asked, SIOCGIFADDR, struct.pack("256s", interface.encode()))
        except OSError:
            return None
    return socket.inet_ntoa(found[20:24])


def has_interface(what):
    """Whether there is an interface beside loopback: without its address freeDiameterd has none for its CER, and ends."""
    addresses = filter(None, (address_of(name) for _, name in socket.if_nameindex()))
    found = any(not address.startswith("127.") for address in addresses)
    if not found:
        print(f"skipped: {what}: freeDiameterd wants an interface with an IPv4 address beside loopback")
    return found


def wait_until_listening(port):
    """Until the kernel has a socket that listens on the port: one that connects to see would be seen."""
    until = time.monotonic() + PATIENCE
    pattern = re.compile(rf":{port:04X} [0-9A-F]+:0000 0A ")
    while not any(pattern.search(pathlib.Path(file).read_text(encoding="ascii")) for file in ("/proc/net/tcp", "/proc/net/tcp6")):
        if time.monotonic() > until:
            raise Failed(f"nothing listens on port {port}")
        time.sleep(0.05)


def make_certificate(room, host):
    """freeDiameterd wants one, also where nothing is encrypted."""
    words = ("openssl", "req", "-x509", "-newkey", "rsa:2048", "-nodes", "-subj", f"/CN={host}", "-days", "2")
    subprocess.run((*words, "-keyout", room / "key.pem", "-out", room / "cert.pem"), check=True, capture_output=True)


DAEMON = """Identity = "%s";
Realm = "example.com";
Port = %d; SecPort = 0; No_SCTP; No_IPv6;
ListenOn = "127.0.0.1";
TLS_Cred = "cert.pem", "key.pem";
TLS_CA = "cert.pem";
TwTimer = 6; TcTimer = 6;
LoadExtension = "acl_wl.fdx" : "acl.conf";
"""
PEER = 'ConnectPeer = "%s" { No_TLS; No_SCTP; ConnectTo = "127.0.0.1"; Port = %d; };\n'


def daemon(room, folder, identity, peers, to=None, more=""):
    """freeDiameterd in a folder of its own, with its port. It lets these peers in, connects to one if `to` is its name and its port,
    and reads more lines of its configuration."""
    place, port = room / folder, free_port()
    place.mkdir()
    for file in ("cert.pem", "key.pem"):
        shutil.copy(room / file, place)
    (place / "acl.conf").write_text("".join(f"ALLOW_IPSEC {peer}\n" for peer in peers), encoding="ascii")
    (place / "fd.conf").write_text(DAEMON % (identity, port) + more + (PEER % to if to else ""), encoding="ascii")
    found = Process("freeDiameterd", "-c", "fd.conf", cwd=place)
    found.wait_for("daemon initialized")
    wait_until_listening(port)
    return found, port


def attempt(test, words):
    try:
        test(*words)
        return True
    except (Failed, OSError) as error:
        print(f"FAILED {test.__name__}: {error}")
    except Exception:
        print(f"FAILED {test.__name__}: {traceback.format_exc()}")
    return False
