"""A capture (pcap) of two connections over TCP, made byte by byte: the messages, and how their segments lie in packets."""

import struct

CLIENT, SERVER = bytes([192, 0, 2, 1]), bytes([192, 0, 2, 2])
SYN, SYN_ACK, ACK, PSH_ACK = 0x02, 0x12, 0x10, 0x18
ETHERNET = 1
BEGAN = 1_700_000_000


def request(number, host="000001084000000b612e6200"):
    """A device watchdog request of 44 bytes with this Hop-by-Hop Identifier: Origin-Host `a.b`, Origin-Realm `b`."""
    return bytes.fromhex(f"0100002c8000011800000000{number:08x}00000002{host}000001284000000962000000")


FIRST, SECOND, THIRD, FOURTH, FIFTH, SIXTH = map(request, range(1, 7))
# its Origin-Host has the AVP Length 7
BROKEN = request(7, "0000010840000007612e6200")
# in the order in which they are whole
MESSAGES = [FIRST, SECOND, BROKEN, THIRD, FOURTH, FIFTH, SIXTH]
# the packet in which each is whole, and whether the client sent it
PACKETS = [(5, True), (5, True), (6, False), (8, True), (8, True), (12, True), (13, True)]


class Connection:
    """Packets of a connection; sequence numbers begin at 1,000 and 5,000."""

    def __init__(self, client_port, server_port):
        self.ports = client_port, server_port

    def packet(self, from_client, flags, sent, taken, data=b""):
        ends = (CLIENT, SERVER), self.ports
        (source, target), (source_port, target_port) = ends if from_client else (ends[0][::-1], ends[1][::-1])
        own, other = (1000, 5000) if from_client else (5000, 1000)
        sequence, acknowledged = own + sent, 0 if flags == SYN else other + taken
        tcp = struct.pack("!HHIIBBHHH", source_port, target_port, sequence, acknowledged, 5 << 4, flags, 8192, 0, 0) + data
        ip = struct.pack("!BBHHHBBH4s4s", 0x45, 0, 20 + len(tcp), 0, 0x4000, 64, 6, 0, source, target)
        return bytes(12) + b"\x08\x00" + ip + tcp

    def open(self):
        return [self.packet(True, SYN, 0, 0), self.packet(False, SYN_ACK, 0, 1), self.packet(True, ACK, 1, 1)]

    def client(self, sent, data):
        return self.packet(True, PSH_ACK, 1 + sent, 1, data)

    def server(self, sent, data, taken):
        return self.packet(False, PSH_ACK, 1 + sent, 1 + taken, data)


def capture():
    """On port 3868 a message in two segments, two messages in one, and two segments that changed places; then two messages on
    another port."""
    one, two = Connection(40000, 3868), Connection(40001, 3870)
    packets = one.open() + [
        one.client(0, FIRST[:30]),
        one.client(30, FIRST[30:] + SECOND),
        one.server(0, BROKEN, 88),
        one.client(132, FOURTH),
        one.client(88, THIRD),
    ]
    packets += two.open() + [two.client(0, FIFTH), two.client(44, SIXTH)]
    return pcap(packets)


def pcap(packets):
    """The bytes of a capture of these packets, one a second."""
    head = struct.pack("<IHHiIII", 0xA1B2C3D4, 2, 4, 0, 0, 65535, ETHERNET)
    return head + b"".join(struct.pack("<IIII", BEGAN + at, 0, len(packet), len(packet)) + packet for at, packet in enumerate(packets))
