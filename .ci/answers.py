"""What is explained on standard error of answers that aren't yes: rows of `show`, `check`, `refute` and `compare`.

Each row is the words, the files, the status, and the text of standard error. Places, lengths and counts are worked out by
hand from RFC 6733 sections 3 and 4.1 and from the texts below. What each reason of `check` says of an example, `.ci/examples`
compares with docs/FAULTS.md; here are the groups, places and options on which it depends."""

D = """; credit control
%avp Session-Id 263 UTF8String must
%avp Origin-Host 264 DiameterIdentity must
%avp CC-Time 420 Unsigned32 must
%avp CC-Total-Octets 421 Unsigned64 must
%avp CC-Request-Type 416 Enumerated must ( 1..4 )
%avp CC-Request-Number 415 Unsigned32 must
%avp Redirect-Server-Address 435 DiameterURI any
%avp Note 9005 vendor 32473 UTF8String mustnot
<Requested-Service-Unit> ::= < AVP Header: 437 >
  { CC-Time }
  [ CC-Total-Octets ]
<Multiple-Services-Credit-Control> ::= < AVP Header: 456 >
  [ Requested-Service-Unit ]
  *2 [ Note ]
<Nest> ::= < AVP Header: 9100 >
  * [ Nest ]
  [ CC-Time ]
<CCR> ::= < Diameter Header: 272, REQ, PXY, 4 >
  < Session-Id >
  { Origin-Host }
  { CC-Request-Type }
  { CC-Request-Number }
  *3 [ Multiple-Services-Credit-Control ]
  [ Redirect-Server-Address ]
  [ Nest ]
  [ Note ]
<CCA> ::= < Diameter Header: 272, PXY, 4 >
  < Session-Id >
  2*2 { AVP }
"""


def avp(code, data=b"", flags=0x40, vendor=None, length=None, pad=True):
    own = b"" if vendor is None else vendor.to_bytes(4, "big")
    flags |= 0x80 if own else 0
    told = length if length is not None else 8 + len(own) + len(data)
    spelt = code.to_bytes(4, "big") + bytes([flags]) + told.to_bytes(3, "big") + own + data
    return spelt + bytes(-len(spelt) % 4 if pad else 0)


def message(body, code=272, flags=0xC0, application=4):
    head = b"\x01" + (20 + len(body)).to_bytes(3, "big") + bytes([flags]) + code.to_bytes(3, "big")
    return head + application.to_bytes(4, "big") + bytes(8) + body


def number(n):
    return n.to_bytes(4, "big")


def digits(spelt):
    """The text of a message: 30 bytes a line."""
    text = spelt.hex()
    return "".join(text[at : at + 60] + "\n" for at in range(0, len(text), 60))


def spot(spelt, byte):
    """The place of a byte in that text."""
    return f"m.hex:{byte // 30 + 1}:{byte % 30 * 2 + 1}" if byte < len(spelt) else "m.hex"


def excerpt(text, place):
    line, column = map(int, place.split(":"))
    shown = text.split("\n")[line - 1]
    return f"  {shown}\n  {' ' * (column - 1)}^\n"


def part(name, text, place, said):
    return f"{name}:{place}: {said}\n" + excerpt(text, place)


# 12 bytes each, at 20, 32, 44 and 56; what follows stands at 68
SID, HOST, TYPE, NUM = avp(263, b"a;1"), avp(264, b"a.b"), avp(416, number(1)), avp(415, number(0))
BASE = SID + HOST + TYPE + NUM
MSCC, RSU = "CCR, Multiple-Services-Credit-Control at 68", "CCR, Multiple-Services-Credit-Control at 68, Requested-Service-Unit at 76"


def unit(*avps):
    """Those in a Requested-Service-Unit at 76, in a Multiple-Services-Credit-Control at 68; the first stands at 84."""
    return BASE + avp(456, avp(437, b"".join(avps)))


def nest(depth, inner):
    for _ in range(depth):
        inner = avp(9100, inner)
    return inner


CUT = "hint: its end may be in the next packet, or the capture has cut the packet: docs/CAPTURES.md says how to take whole messages out\n"
LENGTHS = "fix the sender; either this AVP's Length is wrong, or the padding or the Length of the AVP before it, or that of the group"
ANSWER = "hint: {} at {} is for answers, and the R flag says that this is a request: if it is an answer, the sender has to clear R\n"
OCTETS = "fix the sender, or declare OctetString, which accepts any data"

# Body; byte; what is wrong; groups; the AVP at hand; place in D and what stands there; hint; options.
BODIES = [
    # rules
    (unit(avp(421, bytes(8))), 100, "CC-Time is missing at the end of Requested-Service-Unit: 1 wanted, 0 found", RSU,
     "76: code 437 (000001b5), flags 40 M, length 24 (000018), data 000001a5400000100000000000000000", ("11:5", "the rule is { CC-Time }"),
     "have the sender add CC-Time, or, where it may be missing, write [ CC-Time ]", ""),
    (unit(), 84, "CC-Time is missing at the end of Requested-Service-Unit: 1 wanted, 0 found", RSU,
     "76: code 437 (000001b5), flags 40 M, length 8 (000008)", ("11:5", "the rule is { CC-Time }"),
     "have the sender add CC-Time, or, where it may be missing, write [ CC-Time ]", ""),
    # the group that ends here lacks nothing: the body does
    (SID + HOST + TYPE + avp(456), 64, "CC-Request-Number is missing at the end of CCR: 1 wanted, 0 found", "CCR", None,
     ("23:5", "the rule is { CC-Request-Number }"),
     "have the sender add CC-Request-Number, or, where it may be missing, write [ CC-Request-Number ]", ""),
    # both lack something: the deeper end is told
    (SID + HOST + TYPE + avp(456, avp(437)), 72, "CC-Time is missing at the end of Requested-Service-Unit: 1 wanted, 0 found",
     "CCR, Multiple-Services-Credit-Control at 56, Requested-Service-Unit at 64",
     "64: code 437 (000001b5), flags 40 M, length 8 (000008)", ("11:5", "the rule is { CC-Time }"),
     "have the sender add CC-Time, or, where it may be missing, write [ CC-Time ]", ""),
    (HOST + SID + TYPE + NUM, 20, "Session-Id is missing before this AVP: 1 wanted, 0 found", "CCR",
     "20: code 264 (00000108), flags 40 M, length 11 (00000b), data 612e62", ("20:5", "the rule is < Session-Id >"),
     "it is at 32, and a fixed rule wants it at the front: fix the sender, or write { Session-Id } for < Session-Id >", ""),
    (HOST + TYPE + NUM, 20, "Session-Id is missing before this AVP: 1 wanted, 0 found", "CCR",
     "20: code 264 (00000108), flags 40 M, length 11 (00000b), data 612e62", ("20:5", "the rule is < Session-Id >"),
     "a fixed rule wants its AVP at the front: have the sender put it here; or, if it may occur elsewhere, write { Session-Id } for < Session-Id >", ""),
    (unit(avp(420, number(1)), NUM), 96,
     "CC-Request-Number isn't allowed in Requested-Service-Unit: no rule names it, and there is no rule for AVP", RSU,
     "96: code 415 (0000019f), flags 40 M, length 12 (00000c), data 00000000", ("10:2", "Requested-Service-Unit is defined here"),
     "add [ CC-Request-Number ] or * [ AVP ] to the rules of Requested-Service-Unit, or fix the sender", ""),
    (BASE + SID, 68, "Session-Id may occur only at the front of CCR, in the order of the fixed rules", "CCR",
     "68: code 263 (00000107), flags 40 M, length 11 (00000b), data 613b31", ("20:5", "the rule is < Session-Id >"),
     "have the sender put it at the front, or write { Session-Id } for < Session-Id >", ""),
    (BASE + avp(9999, flags=0), 68, "9999:0 isn't allowed in CCR: no rule names it, and there is no rule for AVP", "CCR",
     "68: code 9999 (0000270f), flags 00, length 8 (000008)", ("19:2", "CCR is defined here"),
     "add * [ AVP ] to the rules of CCR, or fix the sender", ""),
    # an AVP of a vendor, of which the dictionary's AVP has none; and the reverse
    (SID + HOST + avp(416, number(1), 0, 10415) + NUM, 44, "416:10415 isn't allowed in CCR: no rule names it, and there is no rule for AVP", "CCR",
     "44: code 416 (000001a0), flags 80 V, length 16 (000010), vendor 10415 (000028af), data 00000001", ("19:2", "CCR is defined here"),
     "the dictionary's AVP of this code has no vendor: compare the V flag and the Vendor-ID; or add * [ AVP ] to the rules of CCR", ""),
    (BASE + avp(9005, b"x", 0), 68, "9005:0 isn't allowed in CCR: no rule names it, and there is no rule for AVP", "CCR",
     "68: code 9005 (0000232d), flags 00, length 9 (000009), data 78", ("19:2", "CCR is defined here"),
     "the dictionary's AVP of this code has vendor 32473: compare the V flag and the Vendor-ID; or add * [ AVP ] to the rules of CCR", ""),
    (BASE + 4 * avp(456), 92, "this is Multiple-Services-Credit-Control number 4 in CCR, and at most 3 may occur", "CCR",
     "92: code 456 (000001c8), flags 40 M, length 8 (000008)", ("24:8", "the rule is *3 [ Multiple-Services-Credit-Control ]"),
     "have the sender send fewer, or write * [ Multiple-Services-Credit-Control ] for any number", ""),
    (BASE + avp(456, 3 * avp(9005, b"x", 0, 32473)), 108, "this is Note number 3 in Multiple-Services-Credit-Control, and at most 2 may occur", MSCC,
     "108: code 9005 (0000232d), flags 80 V, length 13 (00000d), vendor 32473 (00007ed9), data 78", ("15:8", "the rule is *2 [ Note ]"),
     "have the sender send fewer, or write * [ Note ] for any number", ""),
    # flags, and AVPs that aren't known
    (unit(avp(9999, b"abc")), 84, "the dictionary has no AVP of code 9999, and the M flag says that the receiver has to know it", RSU,
     "84: code 9999 (0000270f), flags 40 M, length 11 (00000b), data 616263", None,
     "declare it, as %avp NAME 9999 OctetString any; or have the sender clear the M flag", ""),
    (BASE + avp(9005, b"abc", vendor=10415), 68,
     "the dictionary has no AVP of code 9005 and vendor 10415, and the M flag says that the receiver has to know it", "CCR",
     "68: code 9005 (0000232d), flags c0 V M, length 15 (00000f), vendor 10415 (000028af), data 616263", ("9:6", "Note is declared here"),
     "that AVP has this code, and vendor 32473: compare the V flag and the Vendor-ID", ""),
    (SID + HOST + avp(416, number(1), vendor=10415) + NUM, 44,
     "the dictionary has no AVP of code 416 and vendor 10415, and the M flag says that the receiver has to know it", "CCR",
     "44: code 416 (000001a0), flags c0 V M, length 16 (000010), vendor 10415 (000028af), data 00000001", ("6:6", "CC-Request-Type is declared here"),
     "that AVP has this code, and no vendor: compare the V flag and the Vendor-ID", ""),
    (BASE + avp(9999, b"abc", 0), 68, "the dictionary has no AVP of code 9999, and unknown AVPs are refused", "CCR",
     "68: code 9999 (0000270f), flags 00, length 11 (00000b), data 616263", None,
     "declare it, as %avp NAME 9999 OctetString any", "--unknown refused "),
    (SID + avp(264, b"a.b", 0) + TYPE + NUM, 32, "the M flag of Origin-Host is clear, and its rule is must", "CCR",
     "32: code 264 (00000108), flags 00, length 11 (00000b), data 612e62", ("3:6", "Origin-Host is declared here"),
     "write any as the rule in the declaration, or fix the sender", ""),
    (BASE + avp(9005, b"x", vendor=32473), 68, "the M flag of Note is set, and its rule is mustnot", "CCR",
     "68: code 9005 (0000232d), flags c0 V M, length 13 (00000d), vendor 32473 (00007ed9), data 78", ("9:6", "Note is declared here"),
     "write any as the rule in the declaration, or fix the sender", ""),
    # data
    (unit(avp(420, bytes(8))), 84, "CC-Time has 8 bytes of data, and Unsigned32 has 4", RSU,
     "84: code 420 (000001a4), flags 40 M, length 16 (000010), data 0000000000000000", ("4:6", "CC-Time is declared here"),
     "fix the sender, or declare a format with such data: Integer64, Unsigned64, Float64 or OctetString", ""),
    (SID + HOST + avp(416, number(5)) + NUM, 44, "CC-Request-Type has the value 5, which isn't in its list", "CCR",
     "44: code 416 (000001a0), flags 40 M, length 12 (00000c), data 00000005", ("6:6", "CC-Request-Type is declared here"),
     "add the number to the list of the declaration, or fix the sender", ""),
    (SID + HOST + avp(416, number(2**32 - 1)) + NUM, 44, "CC-Request-Type has the value -1, which isn't in its list", "CCR",
     "44: code 416 (000001a0), flags 40 M, length 12 (00000c), data ffffffff", ("6:6", "CC-Request-Type is declared here"),
     "add the number to the list of the declaration, or fix the sender", ""),
    (avp(263, b"ab\xff\xfe") + HOST + TYPE + NUM, 20, "Session-Id has data that isn't UTF-8: from byte 2 of the data on, fffe", "CCR",
     "20: code 263 (00000107), flags 40 M, length 12 (00000c), data 6162fffe", ("2:6", "Session-Id is declared here"), OCTETS, ""),
    (SID + avp(264) + TYPE + NUM, 32, "Origin-Host has no data, and a DiameterIdentity has at least one byte", "CCR",
     "32: code 264 (00000108), flags 40 M, length 8 (000008)", ("3:6", "Origin-Host is declared here"), OCTETS, ""),
    (SID + avp(264, b"a b") + TYPE + NUM, 32,
     "Origin-Host has data that is no DiameterIdentity: byte 1 of the data is 20, and each has to be from 21 to 7e", "CCR",
     "32: code 264 (00000108), flags 40 M, length 11 (00000b), data 612062", ("3:6", "Origin-Host is declared here"), OCTETS, ""),
    (BASE + avp(435, b"http://long.example.net"), 68,
     "Redirect-Server-Address has data that is no DiameterURI: aaa:// or aaas://, and after it characters of ASCII without spaces", "CCR",
     "68: code 435 (000001b3), flags 40 M, length 31 (00001f), data 687474703a2f2f6c6f6e672e6578616d..",
     ("8:6", "Redirect-Server-Address is declared here"), OCTETS, ""),
    # depth, and the way through many groups
    (BASE + nest(3, b""), 84, "Nest is a group in 2 groups, and --levels 2 opens no more", "CCR, Nest at 68, Nest at 76",
     "84: code 9100 (0000238c), flags 40 M, length 8 (000008)", None, "allow more levels, or leave --levels out", "--levels 2 "),
    (BASE + nest(20, avp(420, bytes(2))), 228, "CC-Time has 2 bytes of data, and Unsigned32 has 4",
     "CCR, Nest at 68, Nest at 76, Nest at 84, Nest at 92, .. 12 groups .., Nest at 196, Nest at 204, Nest at 212, Nest at 220",
     "228: code 420 (000001a4), flags 40 M, length 10 (00000a), data 0000", ("4:6", "CC-Time is declared here"),
     "fix the sender, or declare a format with such data, such as OctetString", ""),
    # lengths
    (BASE + avp(420, length=7), 68, "no AVP begins here: the AVP Length is 7, and the head alone has 8 bytes", "CCR",
     "68: code 420 (000001a4), flags 40 M, length 7 (000007)", None, LENGTHS, ""),
    (unit(avp(420, number(1), length=40)), 84,
     "no AVP begins here: the AVP Length is 40, and with 12 bytes left of Requested-Service-Unit it may be at most 12", RSU,
     "84: code 420 (000001a4), flags 40 M, length 40 (000028), data 00000001", None, LENGTHS, ""),
    (BASE + avp(456, bytes(4)), 76,
     "no AVP begins here: 4 bytes are left of Multiple-Services-Credit-Control, and an AVP has at least 8", MSCC,
     "76: bytes 00000000", None, LENGTHS, ""),
    (BASE + avp(456, avp(9005, b"x", 0, 32473, pad=False)), 76,
     "no AVP begins here: the AVP Length is 13, and with 13 bytes left of Multiple-Services-Credit-Control it may be at most 12, since the padding to a multiple of four has to be there",
     MSCC, "76: code 9005 (0000232d), flags 80 V, length 13 (00000d), vendor 32473 (00007ed9), data 78", None,
     "the last AVP of a group is padded as well, and the group's AVP Length counts that padding: fix the sender", ""),
]

ANSWERS = [
    # the AVP that is missing stands there with another vendor
    (avp(263, b"a;1", 0, 10415) + HOST + TYPE, 20, "Session-Id is missing before this AVP: 1 wanted, 0 found",
     "20: code 263 (00000107), flags 80 V, length 15 (00000f), vendor 10415 (000028af), data 613b31", ("29:5", "the rule is < Session-Id >"),
     "an AVP of its code is at 20, with vendor 10415: compare the V flag and the Vendor-ID"),
    (SID + HOST, 44, "an AVP that no rule of CCA names is missing at the end of CCA: 2 wanted, 1 found", None,
     ("30:9", "the rule is 2*2 { AVP }"), "have the sender add one, or, where it may be missing, write *2 [ AVP ]"),
    (BASE, 56, "CC-Request-Number is AVP number 3 in CCA that no rule names, and at most 2 may occur",
     "56: code 415 (0000019f), flags 40 M, length 12 (00000c), data 00000000", ("30:9", "the rule is 2*2 { AVP }"),
     "have the sender send fewer, or write 2* { AVP } for any number"),
]

# Command Flags, Command Code, application; byte; what is wrong; the flags; places in D and what stands there; hint.
HEADERS = [
    (0xE0, 272, 4, 4, "a request has the E flag", "e0 R P E", None, "fix the sender: only an answer may have E, and only a request R"),
    (0x50, 272, 4, 4, "a message that is no request has the T flag", "50 P T", None, "fix the sender: only a request is sent again with T"),
    (0xC0, 303, 4, 5, "the dictionary has no request with Command Code 303", "c0 R P", None, "add the definition, < Diameter Header: 303, REQ, PXY >"),
    (0x60, 272, 4, 5, "the dictionary has no definition for answers with the E flag", "60 P E", None,
     "add one with the header < Diameter Header: code, ERR >; it serves the errors of all commands"),
    (0xC0, 272, 9, 8, "the dictionary has no request with Command Code 272 for application 9", "c0 R P", ("19:2", "CCR is for application 4"),
     "add a definition for application 9, or leave the Application-ID out of the header of one: it then serves all"),
    (0x80, 272, 4, 4, "the P flag is clear, and the header of CCR has PXY", "80 R", ("19:2", "CCR is defined here"),
     "take PXY out of the header, or fix the sender"),
]


def note_of_fault(spelt, byte, what, way, hand, place, hint, name="d.txt"):
    wanted = f"{spot(spelt, byte)}: byte {byte}: {what}\n  in {way}\n" + (f"  at {hand}\n" if hand else "")
    return wanted + (part(name, D, *place) if place else "") + f"hint: {hint}\n"


def checks():
    for body, byte, what, way, hand, place, hint, options in BODIES:
        spelt = message(body)
        yield f"check {options}d.txt m.hex", {"d.txt": D, "m.hex": digits(spelt)}, 1, note_of_fault(spelt, byte, what, way, hand, place, hint)
    for body, byte, what, hand, place, hint in ANSWERS:
        spelt = message(body, flags=0x40)
        yield "check d.txt m.hex", {"d.txt": D, "m.hex": digits(spelt)}, 1, note_of_fault(spelt, byte, what, "CCA", hand, place, hint)
    for flags, code, application, byte, what, told, place, hint in HEADERS:
        spelt = message(BASE, code, flags, application)
        wanted = f"{spot(spelt, byte)}: byte {byte}: {what}\n  header: flags {told}, code {code}, application {application}\n"
        wanted += (part("d.txt", D, *place) if place else "") + f"hint: {hint}\n"
        yield "check d.txt m.hex", {"d.txt": D, "m.hex": digits(spelt)}, 1, wanted
    # a message of another application
    wanted = "m.hex:1:11: byte 5: the dictionary has no request with Command Code 316\n  header: flags c0 R P, code 316, application 16777251\n"
    wanted += "hint: add the definition, < Diameter Header: 316, REQ, PXY >\n"
    wanted += "hint: application 16777251 is S6a, and this dictionary has no command of it; s6a.txt has them, see docs/CAPTURES.md\n"
    yield "check d.txt m.hex", {"d.txt": D, "m.hex": digits(message(BASE, 316, 0xC0, 16777251))}, 1, wanted
    # answers with the R flag: their command is there, or isn't
    spelt = message(BASE + avp(268, number(2001)))
    wanted = note_of_fault(spelt, 68, "the dictionary has no AVP of code 268, and the M flag says that the receiver has to know it", "CCR",
                           "68: code 268 (0000010c), flags 40 M, length 12 (00000c), data 000007d1", None,
                           "declare it, as %avp NAME 268 OctetString any; or have the sender clear the M flag")
    yield "check d.txt m.hex", {"d.txt": D, "m.hex": digits(spelt)}, 1, wanted + ANSWER.format("Result-Code", 68)
    wanted = "m.hex:1:11: byte 5: the dictionary has no request with Command Code 303\n  header: flags 80 R, code 303, application 4\n"
    wanted += "hint: add the definition, < Diameter Header: 303, REQ >\n"
    yield "check d.txt m.hex", {"d.txt": D, "m.hex": digits(message(SID + avp(297), 303, 0x80))}, 1, wanted + ANSWER.format("Experimental-Result", 32)
    # padding that is missing: what stands at 32 is the rest of an AVP that begins at 31
    spelt = message(avp(263, b"a;1", pad=False) + HOST + TYPE + NUM + avp(9999, b"x", 0, pad=False))
    wanted = note_of_fault(spelt, 32, "no AVP begins here: the AVP Length is 2913, and with 44 bytes left of CCR it may be at most 44", "CCR",
                           f"32: code 67648 (00010840), flags 00, length 2913 (000b61), data {spelt[40:56].hex()}..", None,
                           "Session-Id at 20 has the AVP Length 11, and the next bytes follow directly, without its padding: fix the sender")
    yield "check d.txt m.hex", {"d.txt": D, "m.hex": digits(spelt)}, 1, wanted
    requests = D[: D.index("<CCA>")]
    wanted = "m.hex:1:11: byte 5: the dictionary has no answer with Command Code 272\n  header: flags 40 P, code 272, application 4\n"
    wanted += part("d.txt", requests, "19:2", "CCR has this code")
    wanted += "hint: a definition with REQ serves requests alone, and one without answers alone: add the other one\n"
    yield "check d.txt m.hex", {"d.txt": requests, "m.hex": digits(message(BASE, flags=0x40))}, 1, wanted
    files = {"d.txt": D, "m.hex": digits(message(BASE)), "none.txt": "%avp X"}
    yield "check d.txt m.hex", files, 0, ""
    yield "check --quiet none.txt m.hex", files, 2, ""
    files = {"d.txt": D, "m.hex": digits(message(SID)), "l.txt": message(SID).hex() + "\n"}
    yield "check --quiet d.txt m.hex", files, 1, ""
    summary = "0 of 1 lines valid\n1 x fault 5005 missing Origin-Host, first in line 1\n"
    line = summary + "hint: `sed -n NUMBERp l.txt | diacmd check{} d.txt -` explains the fault of the line with that number\n"
    yield "check --lines d.txt l.txt", files, 1, line.format("")
    yield "check --lines --unknown refused --levels 3 d.txt l.txt", files, 1, line.format(" --unknown refused --levels 3")


# Body; byte; why no AVP begins there; the groups around it; the AVP at hand.
SHOWN = [
    (BASE + avp(420, length=7), 68, "the AVP Length is 7, and the head alone has 8 bytes", "", "code 420 (000001a4), flags 40 M, length 7 (000007)"),
    # the groups before it are closed again
    (unit(avp(420, number(1))) + avp(9999, b"abcd", length=64), 96, "the AVP Length is 64, and with 12 bytes left of the message it may be at most 12", "",
     "code 9999 (0000270f), flags 40 M, length 64 (000040), data 61626364"),
    (unit(avp(420, number(1)), avp(421, bytes(8), length=20)), 96, "the AVP Length is 20, and with 16 bytes left of Requested-Service-Unit it may be at most 16",
     ", Multiple-Services-Credit-Control at 68, Requested-Service-Unit at 76", "code 421 (000001a5), flags 40 M, length 20 (000014), data 0000000000000000"),
    (BASE + avp(456, bytes(4)), 76, "4 bytes are left of Multiple-Services-Credit-Control, and an AVP has at least 8", ", Multiple-Services-Credit-Control at 68", "bytes 00000000"),
    (nest(9, avp(420, length=4)), 92, "the AVP Length is 4, and the head alone has 8 bytes",
     "".join(f", Nest at {20 + 8 * level}" for level in range(9)), "code 420 (000001a4), flags 40 M, length 4 (000004)"),
]


def shows():
    for body, byte, why, groups, hand in SHOWN:
        # the dictionary doesn't have the command, and need not
        spelt = message(body, code=999)
        wanted = f"{spot(spelt, byte)}: byte {byte}: no AVP begins here: {why}\n  in the message{groups}\n  at {byte}: {hand}\nhint: {LENGTHS}\n"
        yield "show --dict d.txt m.hex", {"d.txt": D, "m.hex": digits(spelt)}, 1, wanted


def refutes():
    narrow, wide = D, D.replace("  { CC-Time }\n", "  [ CC-Time ]\n")

    def row(spelt, status, wanted, options="", a=narrow, b=wide):
        return f"refute {options}a.txt b.txt m.hex", {"a.txt": a, "b.txt": b, "m.hex": digits(spelt)}, status, wanted

    both = "m.hex: the message is valid under both dictionaries: CCR in a.txt, CCR in b.txt\nhint: `diacmd breaking --messages{} a.txt b.txt CCR` lists what breaks, each with a message that shows it\n"
    yield row(message(BASE), 1, both.format(""))
    yield row(message(BASE), 1, both.format(" --unknown refused"), "--unknown refused ")
    yield row(message(unit()), 0, "", a=wide, b=narrow)
    first = "m.hex: the message isn't valid under a.txt: "
    missing = "have the sender add {0}, or, where it may be missing, write [ {0} ]"
    spelt = message(SID)
    note = note_of_fault(spelt, 32, "Origin-Host is missing at the end of CCR: 1 wanted, 0 found", "CCR", None,
                         ("21:5", "the rule is { Origin-Host }"), missing.format("Origin-Host"), "a.txt")
    yield row(spelt, 1, first + "fault 5005 at 32\n" + note)
    spelt = message(unit())
    note = note_of_fault(spelt, 84, "CC-Time is missing at the end of Requested-Service-Unit: 1 wanted, 0 found", RSU,
                         "76: code 437 (000001b5), flags 40 M, length 8 (000008)", ("11:5", "the rule is { CC-Time }"),
                         missing.format("CC-Time"), "a.txt")
    swapped = "hint: it is valid under b.txt: the dictionary of the message's sender comes first\n"
    yield row(spelt, 1, first + "fault 5005 at 84\n" + note + swapped)
    yield row(message(BASE)[:-4], 1, first + f"truncated\nm.hex: 64 bytes; the Message Length is 68, so the message is cut off\n{CUT}")
    files = {"a.txt": narrow, "b.txt": wide, "l.txt": message(BASE).hex() + "\n"}
    line = "0 of 1 lines refute\nhint: `sed -n NUMBERp l.txt | diacmd refute{} a.txt b.txt -` explains the answer of the line with that number\n"
    yield "refute --lines a.txt b.txt l.txt", files, 1, line.format("")
    yield "refute --lines --unknown refused --levels 3 a.txt b.txt l.txt", files, 1, line.format(" --unknown refused --levels 3")
    yield "refute --lines b.txt a.txt l.txt", files | {"l.txt": message(unit()).hex() + "\n"}, 0, "1 of 1 lines refute\n"


X, Y = "%avp X 9001 Unsigned32 any\n", "%avp Y 9002 Unsigned32 any\n"
REQUEST = "< Diameter Header: 302, REQ >"
TABLE = "command T = T\navp X = X\navp Y = Y\n"


def text(declared, rules, head=REQUEST):
    return declared + f"<T> ::= {head}\n" + "".join(f"  {rule}\n" for rule in rules)


FIXED, COUNTS, UNLISTED = "N1, of the fixed AVPs", "N2, of the counts of AVPs that both list", "N3, of the AVPs that the second doesn't list"
PAIRS, OWN = "N4, of the AVPs that need a pair of their own", "N5, of the AVPs that only the second lists"
WILD, MOST, LEAST = "N6, of the wildcard AVP", "N7, of the greatest count of the wildcard AVP", "N8, of the least count of the wildcard AVP"
LETS_IN, HEADS, DECLARED = "N9, of what the wildcard AVP lets in", "N10, of the headers of commands", "N10, of the declarations of AVPs"
KEEP = "; or have the sender respect the counts of b.txt, and say so in a.txt"
PROPOSE = "the first name of a pair is one of the first dictionary, the second one of the second; `diacmd propose` writes a table"
ANY = "T sends 0..* of what no rule names, by * [ AVP ]"
NONE = "T has no rule for AVP"
OPTIONAL = "in b.txt make the rule of AVP optional, as [ AVP ] or * [ AVP ]"
WIDER = "declare one format in both; b.txt may have a wider one, as OctetString for any, UTF8String for DiameterIdentity, or Integer32 for Enumerated"

# Text of A, text of B, table; the pair's line; the test; what stands where; hint.
TESTS = [
    (text(X + Y, ["{ X }"]), text(X + Y, ["< X >"]), TABLE, 1, FIXED,
     [("a", "4:5", "T sends 1 of X, by { X }"), ("b", "4:5", "T wants at the front 1 of X, by < X >")],
     "in b.txt write { X } for < X >, or make it fixed rule number 1 in a.txt, as the sender then sends it"),
    (text(X + Y, ["{ Y }"]), text(X + Y, ["< X >", "[ Y ]"]), TABLE, 1, FIXED,
     [("b", "4:5", "T wants at the front 1 of X, by < X >"), ("a", "3:2", "T has no rule for it")],
     "in b.txt write { X } for < X >, or make it fixed rule number 1 in a.txt, as the sender then sends it"),
    (text(X + Y, ["*2 < X >"]), text(X + Y, ["< X >"]), TABLE, 1, FIXED,
     [("a", "4:8", "T sends 0..2 of X, by *2 < X >"), ("b", "4:5", "T wants at the front 1 of X, by < X >")], f"in b.txt write *2 < X >{KEEP}"),
    (text(X + Y, ["< X >", "< Y >"]), text(X + Y, ["< Y >", "< X >"]), TABLE, 1, FIXED,
     [("a", "5:5", "T sends 1 of Y, by < Y >"), ("b", "4:5", "T wants at the front 1 of Y, by < Y >")],
     "it is fixed rule number 2 in a.txt, and number 1 in b.txt: use one order"),
    (text(X + Y, ["* [ X ]"]), text(X + Y, ["*3 [ X ]"]), TABLE, 1, COUNTS,
     [("a", "4:7", "T sends 0..* of X, by * [ X ]"), ("b", "4:8", "T accepts 0..3 of X, by *3 [ X ]")], f"in b.txt write * [ X ]{KEEP}"),
    (text(X + Y, ["[ Y ]", "[ X ]"]), text(X + Y, ["1*2 { X }", "[ Y ]"]), TABLE, 1, COUNTS,
     [("a", "5:5", "T sends 0..1 of X, by [ X ]"), ("b", "4:9", "T accepts 1..2 of X, by *2 { X }")], f"in b.txt write *2 [ X ]{KEEP}"),
    (text(X + Y, ["[ X ]", "[ Y ]"]), text(X + Y, ["[ X ]"]), TABLE, 1, UNLISTED,
     [("a", "5:5", "T sends 0..1 of Y, by [ Y ]"), ("b", "3:2", "T has no rule for it, nor for AVP")], "in b.txt add [ Y ] or * [ AVP ]"),
    (text(X, ["[ X ]"]), text(X, ["[ X ]"]), "; alone\n\n  command T = T\n", 3, PAIRS,
     [("a", "3:5", "T sends 0..1 of X, by [ X ]"), ("b", "1:6", "X is the same AVP here, and no pair of the table has the two")],
     "add the line avp X = X to t.tab, as `diacmd propose` does"),
    (text(X + "%avp Z 9009 vendor 5 Unsigned32 any\n", ["[ X ]", "[ Z ]"]), text(X, ["[ X ]", "[ AVP ]"]), "command T = T\navp X = X\n", 1, PAIRS,
     [("a", "5:5", "T sends 0..1 of Z, by [ Z ]"), ("b", None, "there is no AVP of code 9009 and vendor 5 here")],
     "declare it in b.txt, and add its pair to t.tab; or, where it is always sent without the M flag, declare it mustnot in a.txt"),
    (text(X + Y, ["[ X ]"]), text(X + Y, ["[ X ]", "{ Y }"]), TABLE, 1, OWN,
     [("b", "5:5", "T wants 1 of Y, by { Y }"), ("a", "3:2", "T has no rule for it")],
     "in b.txt write [ Y ]; or have the sender send it always, and say so in a.txt"),
    (text(X + Y, ["[ X ]", "* [ AVP ]"]), text(X + Y, ["[ X ]", "[ Y ]", "* [ AVP ]"]), TABLE, 1, OWN,
     [("a", "5:7", ANY), ("b", "5:5", "T accepts 0..1 of Y, by [ Y ]")],
     "what AVP lets in may be of this kind: in b.txt write * [ Y ], or list it in a.txt"),
    (text(X, ["[ X ]", "* [ AVP ]"]), text(X, ["[ X ]"]), "command T = T\navp X = X\n", 1, WILD,
     [("a", "4:7", ANY), ("b", "2:2", NONE)], "add * [ AVP ] in b.txt, or take the rule of AVP out in a.txt"),
    (text(X + Y, ["[ X ]", "* [ Y ]"]), text(X + Y, ["[ X ]", "[ AVP ]"]), TABLE, 1, MOST,
     [("a", "5:7", "T sends 0..* of Y, by * [ Y ]"), ("b", "5:5", "T accepts 0..1 of what no rule names, by [ AVP ]")],
     "what b.txt doesn't list counts as AVP there: list it, or write * [ AVP ]"),
    (text(X, ["[ X ]", "* [ AVP ]"]), text(X, ["[ X ]", "*5 [ AVP ]"]), "command T = T\navp X = X\n", 1, MOST,
     [("a", "4:7", ANY), ("b", "4:8", "T accepts 0..5 of what no rule names, by *5 [ AVP ]")],
     "write * [ AVP ] in b.txt, or lower the greatest count in a.txt"),
    (text(X, ["[ X ]"]), text(X, ["[ X ]", "{ AVP }"]), "command T = T\navp X = X\n", 1, LEAST,
     [("a", "2:2", NONE), ("b", "4:5", "T wants 1 of what no rule names, by { AVP }")], OPTIONAL),
    (text(X, ["{ AVP }"]), text(X, ["2* { AVP }"]), "command T = T\navp X = X\n", 1, LEAST,
     [("a", "3:5", "T sends 1 of what no rule names, by { AVP }"), ("b", "3:8", "T wants 2..* of what no rule names, by 2* { AVP }")], OPTIONAL),
    (text(X, ["{ X }", "* [ AVP ]"]), text(X + "%avp Z 9009 Unsigned32 any\n", ["{ X }", "* [ AVP ]"]), "command T = T\navp X = X\n", 1, LETS_IN,
     [("a", "4:7", ANY), ("b", "2:6", "Z is Unsigned32 here, with the rule any; a.txt doesn't know it, so it may come with any data, without the M flag")],
     "declare it in a.txt as here, and propose again; or give --unknown refused to each command, if both nodes refuse unknown AVPs"),
    (text(X + Y, ["{ X }", "* [ AVP ]"]), text(X + Y, ["{ X }", "* [ AVP ]"]), "command T = T\navp X = X\n", 1, LETS_IN,
     [("a", "5:7", ANY), ("a", "2:6", "Y may come by that rule"), ("b", "2:6", "Y is the same AVP here, and no pair of the table has the two")],
     "add the line avp Y = Y to t.tab, as `diacmd propose` does"),
    # commands that can't stand for each other
    (text(X, ["[ X ]"]), text(X, ["[ X ]"], "< Diameter Header: 302 >"), "command T = T\navp X = X\n", 1, HEADS,
     [("a", "2:2", "T is for requests of code 302"), ("b", "2:2", "T is for answers of code 302")],
     "the two have to have one Command Code, and both REQ or both none"),
    (text(X, ["[ X ]"], "< Diameter Header: 302, REQ, PXY >"), text(X, ["[ X ]"]), "command T = T\navp X = X\n", 1, HEADS,
     [("a", "2:2", "T is with PXY: its P flag is set"), ("b", "2:2", "T is without PXY: its P flag is clear")], "make PXY of the two headers agree"),
    (text(X, ["[ X ]"]), text(X, ["[ X ]"]) + "<T5> ::= < Diameter Header: 302, REQ, 5 >\n  [ X ]\n", "command T = T\navp X = X\n", 1, HEADS,
     [("a", "2:2", "T is for requests of code 302"), ("b", "4:2", "T5 is for requests of code 302 and application 5")],
     "b.txt may read messages of T by T5: add the line command T = T5 to t.tab, as `diacmd propose` does"),
    (text(X, ["[ X ]"], "< Diameter Header: 302, REQ, 7 >"), text(X, ["[ X ]"], "< Diameter Header: 302, REQ, 8 >"), "command T = T\navp X = X\n", 1, HEADS,
     [("a", "2:2", "T is for requests of code 302 and application 7")],
     "b.txt has no such definition for application 7, nor one without an application: add one there"),
]

# Declaration of X in A and in B; what stands where; hint. The pair is that of X.
DECLARATIONS = [
    ("X 9001 Unsigned32 any", "X 9001 Unsigned64 any", ["X is Unsigned32 here", "X is Unsigned64 here"], WIDER),
    ("X 9001 Unsigned32 any", "X 9001 Unsigned32 must",
     ["X is any here: it may be sent with the M flag, and without", "X is must here: without the M flag it is refused"],
     "write any in b.txt; or have the sender set the flag so, and write must in a.txt"),
    ("X 9001 Unsigned32 must", "X 9001 Unsigned32 mustnot",
     ["X is must here: it is sent with the M flag", "X is mustnot here: with the M flag it is refused"],
     "write any in b.txt; or have the sender set the flag so, and write mustnot in a.txt"),
    ("X 9001 Enumerated any ( 0..5 9 )", "X 9001 Enumerated any ( 3..4 0..2 9 )", ["X has these values here", "X has these values here"],
     "5 isn't in the list of b.txt: add it there, or take the list out"),
    ("X 9001 Enumerated any", "X 9001 Enumerated any ( 0 )", ["X may have any value here", "X has these values here"],
     "without a list each number may be sent: take the list of b.txt out, or give one list to both"),
    ("X 9001 Unsigned32 any", "X 9002 vendor 5 Unsigned32 any", ["X has code 9001 and no vendor", "X has code 9002 and vendor 5"],
     "the two have to have one code and one vendor"),
]


# Table; the line of its first pair that fails; the test; what is told of the names that the dictionaries don't have.
NAMES = [
    ("command T = U\navp X = X\n", 1, HEADS, f"t.tab:1:13: b.txt has no command U\nhint: {PROPOSE}\n"),
    ("avp X = X\navp Z = X\n", 2, DECLARED, f"t.tab:2:5: a.txt has no AVP Z\nhint: {PROPOSE}\n"),
    ("command t = T\navp X = X\n", 1, HEADS, "t.tab:1:9: a.txt has no command t\nhint: did you mean T?\n"),
    ("avp X = T\ncommand X = U\n", 2, HEADS,
     f"t.tab:2:9: a.txt has no command X\nhint: X is an AVP there: write avp for command\nt.tab:1:9: b.txt has no AVP T\n"
     f"hint: T is a command there: write command for avp\nt.tab:2:13: b.txt has no command U\nhint: {PROPOSE}\n"),
]


def compares():
    def row(a, b, table, line, test, places, hint, command=" T", options=""):
        indent = len(table.split("\n")[line - 1]) - len(table.split("\n")[line - 1].lstrip())
        wanted = f"t.tab:{line}:{indent + 1}: this pair fails the test {test}\n"
        for side, place, said in places:
            wanted += part(f"{side}.txt", a if side == "a" else b, place, said) if place else f"{side}.txt: {said}\n"
        wanted += f"hint: {hint}\nhint: `diacmd breaking{options and ' ' + options.strip()} a.txt b.txt{command}` lists all that breaks, if anything does\n"
        return f"compare {options}a.txt b.txt t.tab", {"a.txt": a, "b.txt": b, "t.tab": table}, 1, wanted

    for each in TESTS:
        yield row(*each)
    for first, second, said, hint in DECLARATIONS:
        places = [("a", "1:6", said[0]), ("b", "1:6", said[1])]
        yield row(f"%avp {first}\n", f"%avp {second}\n", "avp X = X\n", 1, DECLARED, places, hint, "")
    for table, line, test, told in NAMES:
        a = text(X + Y, ["[ X ]"])
        wanted = f"t.tab:{line}:1: this pair fails the test {test}\n" + told
        yield "compare a.txt b.txt t.tab", {"a.txt": a, "b.txt": a, "t.tab": table}, 1, wanted
    group = X + Y + "<G> ::= < AVP Header: 9009 >\n  [ X ]\n"
    places = [("a", "5:7", "G sends 0..* of Y, by * [ Y ]"), ("b", "5:5", "G accepts 0..1 of Y, by [ Y ]")]
    yield row(group + "  * [ Y ]\n", group + "  [ Y ]\n", "avp G = G\navp X = X\navp Y = Y\n", 1, COUNTS, places, f"in b.txt write * [ Y ]{KEEP}", "")
    places = [("a", "4:7", ANY), ("b", "2:2", NONE)]
    yield row(text(X, ["[ X ]", "* [ AVP ]"]), text(X, ["[ X ]"]), "command T = T\navp X = X\n", 1, WILD, places,
              "add * [ AVP ] in b.txt, or take the rule of AVP out in a.txt", options="--unknown refused ")
    files = {"a.txt": text(X, ["[ X ]"]), "b.txt": text(X, ["[ X ]"]), "t.tab": "command T = T\navp X = X\n"}
    yield "compare a.txt b.txt t.tab", files, 0, ""


def rows():
    yield from shows()
    yield from checks()
    yield from refutes()
    yield from compares()
