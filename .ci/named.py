"""Cases of `show --values`, `show --names`, `show --lines` and `show --json` with the first two, and of `make --values`, for .ci/cases. Flags and dates are worked out by hand from RFC 6733; the rest of the
dates is computed by Python's calendar."""

import datetime

from room import REQUEST, missing

HEAD = "0100002{}{}00011a000000000000000100000002"
"""A header with a length below 48, flags, and the code 282."""
CAUSE = HEAD.format("0", "80") + "000001114000000c00000000"
"""A Disconnect-Peer-Request with the Disconnect-Cause 0, which is REBOOTING (RFC 6733 section 5.4.3)."""
CAUSE_LINES = "header flags 80 code 282 app 0 hop 1 end 2 length 32\n20 0 273 - 40 12 Disconnect-Cause 0"
CAUSE_NAMED = "header flags R--- code 282 DPR app 0 hop 1 end 2 length 32\n20 0 273 - -M- 12 Disconnect-Cause 0"
WORDS = "# RFC 6733 section 5.4.3\n\nDisconnect-Cause 0 REBOOTING\nDisconnect-Cause 1 BUSY"

TIMES = {
    # the first numbers of both counts, and the last ones (RFC 6733 section 4.3.1: the 32 bits are full at 6h 28m 16s UTC, 7 February 2036)
    0x00000000: "2036-02-07T06:28:16Z",
    0x80000000: "1968-01-20T03:14:08Z",
    0xFFFFFFFF: "2036-02-07T06:28:15Z",
    0x7FFFFFFF: "2104-02-26T09:42:23Z",
    # 1 January 1970 is 2,208,988,800 seconds after 1 January 1900 (RFC 868)
    2208988800: "1970-01-01T00:00:00Z",
}


def computed():
    """The days round the ends of months and the leap days of the years from 1968 to 2104."""
    first, start = datetime.datetime(1900, 1, 1), datetime.datetime(1968, 2, 1)
    for days in range(0, 49600, 5):
        for day in (start + datetime.timedelta(days), (start + datetime.timedelta(days)).replace(day=1), (start + datetime.timedelta(days)).replace(month=3, day=1) - datetime.timedelta(seconds=1)):
            yield int((day - first).total_seconds()) % 2**32, day.strftime("%Y-%m-%dT%H:%M:%SZ")


def times(room):
    """Each date in a message of its own AVPs."""
    wanted = {**TIMES, **dict(computed())}
    avps = "".join(f"000000370000000c{number:08x}" for number in wanted)
    message = f"01{20 + len(avps) // 2:06x}8000011a000000000000000100000002{avps}"
    lines = [f"{20 + 12 * at} 0 55 - --- 12 When {number} {date}" for at, (number, date) in enumerate(wanted.items())]
    head = f"header flags R--- code 282 ? app 0 hop 1 end 2 length {20 + len(avps) // 2}"
    room.write("when.txt", "%avp When 55 Time any\n")
    room.check("show --names --dict when.txt -", 0, "\n".join([head, *lines]), stdin=message, shown="show --names: dates")


def texts(room):
    """Octets and filter rules as texts, and data that is none."""
    room.write("texts.txt", "%avp O 9003 OctetString any\n%avp R 9004 IPFilterRule any\n%avp Q 9005 QoSFilterRule any\n%avp W 9006 Time any\n")
    rows = [
        (9003, "abc", 'O "abc"'),
        (9003, 'a "b\\', 'O "a \\x22b\\x5c"'),
        (9003, b"a\x00", "O x6100"),
        (9003, b"", "O x"),
        (9003, b"a\x7f", "O x617f"),
        (9004, "permit in ip from any to any", 'R "permit in ip from any to any"'),
        (9005, b"\xc3\xa9", 'Q "\\xc3\\xa9"'),
        (9004, b"\xff", "R xff"),
        (9006, b"abc", "W x616263"),
        (9999, "abc", '? "abc"'),
    ]
    body, lines = "", []
    for code, data, told in rows:
        data = data.encode() if isinstance(data, str) else data
        lines.append(f"{20 + len(body) // 2} 0 {code} - -M-+01 {8 + len(data)} {told}")
        body += f"{code:08x}41{8 + len(data):06x}{data.hex()}{'00' * (-len(data) % 4)}"
    head = f"01{20 + len(body) // 2:06x}f100011a000000000000000100000002"
    wanted = "\n".join([f"header flags RPET+01 code 282 ? app 0 hop 1 end 2 length {20 + len(body) // 2}", *lines])
    room.check("show --names --dict texts.txt -", 0, wanted, stdin=head + body, shown="show --names: texts")


def levels(room):
    """Levels are indented, a word stands behind a number in a group, and the place of a bad length isn't."""
    inner = "000001114000000c00000001"
    body = f"0000011740000024000001174000001c{inner}0000011140000007"
    message = f"0100003880000118000000000000000100000002{body}"
    lines = [
        "header flags R--- code 280 DWR app 0 hop 1 end 2 length 56",
        "20 0 279 - -M- 36 Failed-AVP group",
        "  28 1 279 - -M- 28 Failed-AVP group",
        "    36 2 273 - -M- 12 Disconnect-Cause 1 BUSY",
        "fault 5014 at 48 avp-length -",
    ]
    room.check("show --names --values words.txt -", 1, "\n".join(lines), stdin=message)


def refused(room):
    """Texts of words that are none: the first line that is wrong is told. The dictionary is judged before, and the message behind."""
    cases = {
        "Disconnect-Cause 0": "syntax at line 1",
        "# words\nDisconnect-Cause 00 X": "syntax at line 2",
        "Disconnect-Cause -0 X": "syntax at line 1",
        "Disconnect-Cause +1 X": "syntax at line 1",
        "Disconnect-Cause  0 X": "syntax at line 1",
        "Disconnect-Cause 0 X Y": "syntax at line 1",
        " Disconnect-Cause 0 X": "syntax at line 1",
        "Disconnect_Cause 0 X": "syntax at line 1",
        "A 0 X\nA 1 Y\r\nA 0 Z": "duplicate at line 3",
        65537 * "\n": "limit at line 65537",
        "#" + 4194304 * "x": "too long",
    }
    for text, why in cases.items():
        room.check("show --values - cause.hex", 2, f"values: {why}", stdin=text, shown=f"show --values: {why}")
    (room.files / "bytes.txt").write_bytes(b"# \xff\n")
    room.check("show --names --values bytes.txt cause.hex", 2, "values: not text", err="bytes.txt: byte 2 and those after it are no UTF-8")
    room.write("twice.txt", "A 0 X\nA 0 X\n")
    room.check("show --values twice.txt cause.hex", 2, "values: duplicate at line 2", err="twice.txt:2: a line before has the same AVP and number")
    room.check("show --values bytes.txt --dict wrong.txt cause.hex", 2, "dictionary 1: syntax at line 1")
    room.check("show --values bytes.txt empty.txt", 2, "values: not text")
    room.check("show --quiet --values bytes.txt empty.txt", 2, "values: not text", err="")
    room.check("show --values words.txt empty.txt", 2, "message: short")
    room.check("show --values nofile.txt cause.hex", 3, "", err=missing("nofile.txt"))


def lines(room):
    """A message a line: the number of each line, and what `show` writes for it."""
    # messages, one of them with white space; half a byte; an empty line
    text = f"{CAUSE}\n{CAUSE[:7]}\n\n {CAUSE[:9]} {CAUSE[9:]}\t\r"
    for options, told in {"": CAUSE_LINES, "--names ": CAUSE_NAMED, "--values words.txt --names ": CAUSE_NAMED + " REBOOTING"}.items():
        wanted = f"line 1\n{told}\nline 2\nmessage: not hexadecimal\nline 3\nmessage: short\nline 4\n{told}"
        room.check(f"show --lines {options}-", 1, wanted, stdin=text)
    room.check("show --quiet --lines --names cause.hex", 0, f"line 1\n{CAUSE_NAMED}", err="")
    room.check("show cause.hex --lines", 0, f"line 1\n{CAUSE_LINES}")
    room.check("show --lines --values - cause.hex", 0, f"line 1\n{CAUSE_LINES} REBOOTING", stdin=WORDS)
    # each message of many lines, whose text comes in several pieces
    room.check("show --lines -", 0, "\n".join(f"line {n}\n{CAUSE_LINES}" for n in range(1, 301)), stdin="\n".join(300 * [CAUSE]), shown="show --lines: 300 lines")
    # a bad AVP length ends a message, and not the lines
    cut = CAUSE.replace("4000000c", "40000007")
    bad = "header flags 80 code 282 app 0 hop 1 end 2 length 32\nfault 5014 at 20 avp-length -"
    room.check("show --lines -", 1, f"line 1\n{bad}\nline 2\n{CAUSE_LINES}", stdin=f"{cut}\n{CAUSE}")
    # what show says of a message that it refuses
    refused = {"02" + CAUSE[2:]: "version", CAUSE + "00": "trailing", CAUSE[:-2]: "truncated"}
    told = "\n".join(f"line {n}\nmessage: {why}" for n, why in enumerate(refused.values(), 1))
    room.check("show --lines -", 1, told, stdin="\n".join(refused))
    # no line
    room.check("show --lines empty.txt", 0, "", err="empty.txt: there is no message\nhint: docs/CAPTURES.md says what to look at where a capture gives none")
    room.check("show --quiet --lines empty.txt", 0, "", err="")
    # a dictionary or words that are refused: the lines aren't read
    room.check("show --lines --dict wrong.txt --values bytes.txt -", 2, "dictionary 1: syntax at line 1", stdin=CAUSE)
    room.check("show --lines --values twice.txt cause.hex", 2, "values: duplicate at line 2", err="twice.txt:2: a line before has the same AVP and number")
    room.check("show --quiet --lines --values twice.txt cause.hex", 2, "values: duplicate at line 2", err="")
    room.check("show --lines nofile.hex", 3, "", err=missing("nofile.hex"))
    room.check("show --lines --values nofile.txt cause.hex", 3, "", err=missing("nofile.txt"))


def objects(room):
    """With `--json`: the members `word` and `time` behind a value, of a file of words and with `--names`."""
    head = '{"version":1,"flags":128,"code":282,"application":0,"hop_by_hop":1,"end_to_end":2,"length":32'
    avp = '{"at":20,"depth":0,"code":273,"vendor":null,"flags":64,"length":12,"name":"Disconnect-Cause","value":0'
    plain = f'{head},"command":"DPR"}}\n{avp}}}'
    worded = f'{head},"command":"DPR"}}\n{avp},"word":"REBOOTING"}}'
    room.check("show --json cause.hex", 0, plain)
    room.check("show --json --names cause.hex", 0, plain)
    room.check("show --json --values words.txt cause.hex", 0, worded)
    room.check("show --values words.txt --json --names cause.hex", 0, worded)
    room.check("show --json --values @none cause.hex", 0, plain)
    # a word of another AVP, and of another number
    room.check("show --json --values - cause.hex", 0, plain, stdin="Disconnect-Causes 0 X\nDisconnect-Cause 1 BUSY")
    # the dictionary without lines has no names, and so no words
    room.check("show --json --values words.txt --dict @none cause.hex", 0, f'{head}}}\n' + avp[: avp.index('"name"')] + '"value":{"hex":"00000000"}}')
    # a Time has its date with `--names` alone, behind its word
    room.write("when.txt", "%avp When 55 Time any\n")
    room.write("when.hex", HEAD.format("0", "80") + "000000370000000c83aa7e80\n")
    time = '{"at":20,"depth":0,"code":55,"vendor":null,"flags":0,"length":12,"name":"When","value":2208988800'
    room.check("show --json --dict when.txt when.hex", 0, f"{head}}}\n{time}}}")
    room.check("show --json --names --dict when.txt when.hex", 0, f'{head}}}\n{time},"time":"1970-01-01T00:00:00Z"}}')
    both = f'{head}}}\n{time},"word":"EPOCH","time":"1970-01-01T00:00:00Z"}}'
    room.check("show --json --names --values - --dict when.txt when.hex", 0, both, stdin="When 2208988800 EPOCH")
    # with `--lines` each object begins with the line's number, and a message that is refused has one
    numbered = [row.replace("{", '{"line":1,', 1) for row in worded.split("\n")]
    room.check("show --lines --json --values words.txt cause.hex", 0, "\n".join(numbered))
    room.check("show --json --lines --names -", 1, '{"line":1,"error":"message","kind":"not hexadecimal"}\n{"line":2,"error":"message","kind":"short"}', stdin="zz\n00")
    room.check("show --lines --json --values twice.txt cause.hex", 2, '{"error":"values","kind":"duplicate","line":2}')
    # what is refused: the dictionary, then the words, then the message
    refusal = {"A 0 X\nA 0": '"syntax","line":2', "A 0 X\nA 0 Y": '"duplicate","line":2', 65537 * "\n": '"limit","line":65537', "#" + 4194304 * "x": '"too long"'}
    for text, kind in refusal.items():
        room.check("show --json --values - empty.txt", 2, f'{{"error":"values","kind":{kind}}}', stdin=text, shown=f"show --json --values: {kind}")
    room.check("show --json --values bytes.txt empty.txt", 2, '{"error":"values","kind":"not text"}', err="bytes.txt: byte 2 and those after it are no UTF-8")
    room.check("show --quiet --json --names --values twice.txt cause.hex", 2, '{"error":"values","kind":"duplicate","line":2}', err="")
    room.check("show --json --values words.txt empty.txt", 2, '{"error":"message","kind":"short"}')


def made(room):
    """`make` with words of values: the message is that of the number."""
    busy = CAUSE[:-8] + "00000001"
    rows = {
        "Disconnect-Cause REBOOTING": CAUSE,
        "Disconnect-Cause BUSY# a comment": busy,
        "\tDisconnect-Cause flags M length 12 BUSY pad x": busy,
        "Disconnect-Cause 1 BUSY": busy,
        "Disconnect-Cause 1 OTHER": busy,
        "Disconnect-Cause 0x1 REBOOTING": busy,
        "Disconnect-Cause x00000001": busy,
        "273 1 REBOOTING": busy,
        # a group on one line, and a text that has words, marks and a name
        "Failed-AVP { Disconnect-Cause BUSY, Disconnect-Cause REBOOTING }": "010000348000011a000000000000000100000002" + "0000011740000020" + "000001114000000c00000001" + "000001114000000c00000000",
        'Error-Message flags - "{ Disconnect-Cause BUSY"': "010000348000011a000000000000000100000002" + "000001190000001f" + b"{ Disconnect-Cause BUSY".hex() + "00",
    }
    for text, message in rows.items():
        room.check("make --values words.txt -", 0, message, stdin="DPR hop 1 end 2\n" + text, shown=f"make --values: {text}")
    # of two numbers with one word the first; the word after the second one is right
    twice = "Disconnect-Cause 1 X\nDisconnect-Cause 0 X\n"
    room.write("double.txt", twice)
    room.check("make --values double.txt -", 0, busy, stdin="DPR hop 1 end 2\nDisconnect-Cause X")
    room.check("make --values double.txt -", 0, CAUSE, stdin="DPR hop 1 end 2\nDisconnect-Cause 0 X")
    room.check("make --values @none -", 0, busy, stdin="DPR hop 1 end 2\nDisconnect-Cause 1 REBOOTING")
    wrong = {"Disconnect-Cause BUSSY": "value", "Disconnect-Cause 1 REBOOTING": "syntax", "273 BUSY": "value", "Disconnect-Cause BUSY REBOOTING": "syntax", "Origin-Host BUSY": "value"}
    for text, kind in wrong.items():
        room.check("make --quiet --values words.txt -", 2, f"text: {kind} at line 2", stdin="DPR hop 1 end 2\n" + text, shown=f"make --values: {text}", err="")
    # what is refused: the dictionary, then the words, then the text
    room.write("nothing.txt", "")
    room.check("make --values twice.txt --dict wrong.txt nothing.txt", 2, "dictionary 1: syntax at line 1")
    room.check("make --values twice.txt nothing.txt", 2, "values: duplicate at line 2", err="twice.txt:2: a line before has the same AVP and number")
    room.check("make --quiet --values twice.txt nothing.txt", 2, "values: duplicate at line 2", err="")
    room.check("make --values words.txt nothing.txt", 2, "text: syntax at line 1")
    room.check("make --values nofile.txt nothing.txt", 3, "", err=missing("nofile.txt"))


def named(room):
    room.write("cause.hex", CAUSE + "\n")
    room.write("words.txt", WORDS + "\n")
    room.check("show cause.hex", 0, CAUSE_LINES)
    room.check("show --values words.txt cause.hex", 0, CAUSE_LINES + " REBOOTING")
    room.check("show --values - cause.hex", 0, CAUSE_LINES + " REBOOTING", stdin=WORDS.replace("\n", "\r\n"))
    room.check("show --values @none cause.hex", 0, CAUSE_LINES)
    room.check("show --values=empty.txt cause.hex", 0, CAUSE_LINES)
    # a word of another number, of another AVP, and of a negative number
    room.check("show --values - cause.hex", 0, CAUSE_LINES, stdin="Disconnect-Cause 1 BUSY\nDisconnect-Causes 0 X\nDisconnect-Cause -1 Y")
    room.write("signed.txt", "%avp N 273 Integer32 any\n")
    room.write("minus.hex", CAUSE[:-8] + "ffffffff\n")
    room.check("show --values - --dict signed.txt minus.hex", 0, "header flags 80 code 282 app 0 hop 1 end 2 length 32\n20 0 273 - 40 12 N -1 MINUS", stdin="N -1 MINUS\nN 4294967295 X")
    room.check("show --names cause.hex", 0, CAUSE_NAMED)
    room.check("show cause.hex --names --values words.txt", 0, CAUSE_NAMED + " REBOOTING")
    room.check("show --names request.hex", 0, 'header flags R--- code 280 DWR app 0 hop 1 end 2 length 44\n20 0 264 - -M- 11 Origin-Host "a.b"\n32 0 296 - -M- 9 Origin-Realm "b"')
    room.check("show --names -", 2, "message: version", stdin="02" + REQUEST[2:])
    for part in (times, texts, levels, refused, lines, objects, made):
        part(room)
