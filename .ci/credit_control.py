"""What the nodes do that answer requests of credit control (RFC 8506), the examples of the packages: by sockets over loopback."""

import socket

from ends import Hand, Process, capabilities, failed_avp, origin, result, wants
from outside import ERROR, PROXIABLE, REQUEST, TOP, avp, avps, message, number

DICTIONARY = [TOP / f"dictionaries/{name}.txt" for name in ("rfc6733", "rfc7155-avps", "rfc5777", "rfc8506-avps", "rfc8506-commands")]
CREDIT_CONTROL, COMMAND = 4, 272
ORIGIN, SESSION = origin("hand.example.com"), b"hand.example.com;1;1"
CER = message(257, 0, REQUEST, 1, ORIGIN, capabilities(CREDIT_CONTROL))
DWR = message(280, 0, REQUEST, 2, ORIGIN)
DPR = message(282, 0, REQUEST, 3, ORIGIN, avp(273, number(0)))
# an ACR (RFC 6733 section 9.7.1), whose application isn't common
ACR = message(271, 3, REQUEST | PROXIABLE, 4, avp(263, SESSION), ORIGIN, avp(283, b"example.com"), avp(480, number(1)), avp(485, number(0)))


def request(identifier, without=None):
    """A CCR (RFC 8506 section 3.1) without one of its AVPs. Its CC-Request-Number is the identifier."""
    whole = ((263, SESSION), (264, b"hand.example.com"), (296, b"example.com"), (283, b"example.com"), (258, number(CREDIT_CONTROL)),
             (461, b"32251@3gpp.org"), (416, number(1)), (415, number(identifier)))
    body = [avp(code, data) for code, data in whole if code != without]
    return message(COMMAND, CREDIT_CONTROL, REQUEST | PROXIABLE, identifier, *body)


def same_header(answer, asked, flags):
    """The flags, and the fields that are those of the request (RFC 6733 section 6.2)."""
    wants("the header of an answer", answer[4:20], bytes([flags]) + asked[5:20])


def is_granted(answer, asked):
    """Whether it is a CCA of success to a CCR (RFC 8506 section 3.2)."""
    same_header(answer, asked, PROXIABLE)
    had, found = dict(avps(asked)), dict(avps(answer))
    wants("the Result-Code of a CCA", result(answer), 2001)
    wants("what a CCA repeats", [found.get(code) for code in (263, 258, 416, 415)], [had[code] for code in (263, 258, 416, 415)])
    wants("the origin of a CCA", (found.get(264), found.get(296)), (b"node.example.com", b"example.com"))


def opened(words):
    """A node that listens, and an end by hand whose connection is open."""
    node = Process(*words, "-l", 0, *DICTIONARY)
    hand = Hand(int(node.wait_for(r"listens on (\d+)")[1]))
    hand.open(CER)
    node.wait_for("OPEN")
    return node, hand


def answers_requests(*words):
    """CCRs, one by one and many at once, one in pieces, and a DWR and a DPR."""
    node, hand = opened(words)
    for identifier in (11, 12):
        hand.send(request(identifier))
        is_granted(hand.read(), request(identifier))
    node.wait_for("-> .* valid Credit-Control-Answer")
    for byte in request(13):
        hand.send(bytes([byte]))
    is_granted(hand.read(), request(13))
    hand.send(b"".join(map(request, range(100, 150))))
    for identifier in range(100, 150):
        is_granted(hand.read(), request(identifier))
    hand.send(DWR)
    wants("the answer to a DWR", result(hand.read()), 2001)
    hand.send(DPR)
    wants("the answer to a DPR", result(hand.read()), 2001)
    wants("what follows the DPA", hand.read(), b"")
    node.wait_for("closes: PEER_STOPPED")
    hand.close()
    node.wait_for("over|CLOSED")


def answers_faults(*words):
    """A CCR that has a fault is answered with it, and so are a request of another application, and a DWR that closes the connection."""
    node, hand = opened(words)
    hand.send(request(21, without=416))
    answer = hand.read()
    # a CCA has to have the request's CC-Request-Type, so an error message answers a CCR without it
    wants("the answer to a CCR without CC-Request-Type", (result(answer), failed_avp(answer), answer[4]), (5005, [416], PROXIABLE | ERROR))
    hand.send(ACR)
    answer = hand.read()
    wants("the answer to a request of another application", (result(answer), answer[4]), (3007, PROXIABLE | ERROR))
    hand.send(request(22))
    is_granted(hand.read(), request(22))
    hand.send(message(280, 0, REQUEST, 23, avp(296, b"example.com")))
    wants("the answer to a DWR without Origin-Host", result(hand.read()), 5005)
    wants("what follows", hand.read(), b"")
    node.wait_for("closes: INVALID")


def has_another_connection(*words):
    """One connection that is lost leaves another, and one that begins with no message is closed."""
    node, hand = opened(words)
    port = hand.socket.getpeername()[1]
    other = Hand(port)
    other.open(CER)
    other.close()
    node.wait_for("over|CLOSED")
    wrong = Hand(port)
    wrong.send(b"\2" * 20)
    wants("what follows no message", wrong.read(), b"")
    hand.send(request(31))
    is_granted(hand.read(), request(31))


def connects(*words):
    """The node as the initiator sends a CER, and answers a CCR."""
    with socket.create_server(("127.0.0.1", 0)) as server:
        node = Process(*words, "-c", f"127.0.0.1:{server.getsockname()[1]}", *DICTIONARY)
        hand = Hand(accepted=server.accept()[0])
    cer = hand.read()
    wants("the application of the CER", [data for code, data in avps(cer) if code == 258], [number(CREDIT_CONTROL)])
    cea = message(257, 0, 0, 0, avp(268, number(2001)), ORIGIN, capabilities(CREDIT_CONTROL))
    hand.send(cea[:12] + cer[12:20] + cea[20:])
    node.wait_for("OPEN")
    hand.send(request(41))
    is_granted(hand.read(), request(41))
    hand.send(DPR)
    wants("the answer to a DPR", result(hand.read()), 2001)
    hand.close()
    node.ends()


TESTS = (answers_requests, answers_faults, has_another_connection, connects)
