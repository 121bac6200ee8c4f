"""Cases of .ci/cases whose inputs are made here: long and deep messages, messages in pieces, and pairs of faults."""

import itertools
import re

from documents import faults_of_messages
from room import REQUEST

IDS = "000000000000000100000002"
"""The application 0, Hop-by-Hop Identifier 1 and End-to-End Identifier 2."""


def message(code, avps):
    """A request of a code with these AVPs."""
    return f"01{20 + len(avps) // 2:06x}80{code:06x}{IDS}{avps}"


def nested(depth):
    """A request of T in nodes.txt with so many groups in one another, and nothing else."""
    return message(301, "".join(f"0000232900{8 * left:06x}" for left in range(depth, 0, -1)))


def nested_lines(depth):
    lines = [f"{20 + 8 * outside} {outside} 9001 - 00 {8 * (depth - outside)} Node group" for outside in range(depth)]
    return "\n".join([f"header flags 80 code 301 app 0 hop 1 end 2 length {20 + 8 * depth}", *lines])


def deep(room):
    """Groups in one another, far deeper than a stack could hold."""
    for depth in (66, 100_000):
        room.write("deep.hex", nested(depth))
        room.check("show --dict nodes.txt deep.hex", 0, nested_lines(depth))
    room.check("check nodes.txt deep.hex", 0, "valid T")
    room.check("check --levels 100000 nodes.txt deep.hex", 0, "valid T")
    room.check("check --levels 99999 nodes.txt deep.hex", 1, "fault 5012 at 800012 depth Node")
    # the number of levels is the one that was given
    for depth, options in ((5, "--levels +5"), (5, "--levels=+5"), (7, "--levels 007"), (1, "--levels 1 --unknown refused")):
        for more, status, line in ((0, 0, "valid T"), (1, 1, f"fault 5012 at {20 + 8 * depth} depth Node")):
            room.write("deep.hex", nested(depth + more))
            room.check(f"check {options} nodes.txt deep.hex", status, line)
    for more, status, line in ((0, 0, "refutes"), (1, 1, "does not refute")):
        room.check("refute nodes.txt @base - --levels=+5", status, line, stdin=nested(5 + more))
    room.check("check --lines nodes.txt - --levels=2", 1, "valid T\nfault 5012 at 36 depth Node", stdin=f"{nested(2)}\n{nested(3)}")
    room.check("check --stream --levels=2 nodes.txt -", 1, "0 valid T\n36 fault 5012 at 36 depth Node", stdin=nested(2) + nested(3))
    lines = f"{nested(2)}\n{nested(3)}"
    room.check("refute --lines nodes.txt @base - --levels 2", 0, "refutes\ndoes not refute", stdin=lines, err="1 of 2 lines refute")


def faults_of_levels():
    """Of docs/FAULTS.md: the dictionary, with a group Nest that has the rules of the command, and that may stand in it and in itself;
    the header of its messages behind their length, and the AVP that stands first in a level; and the faults of AVPs that are there
    whatever follows, each as the AVPs of its level, its place from the first of them, its code, and its words."""
    dictionary, valid, faults = faults_of_messages()
    others, header, rules = re.fullmatch(r"(.*\n)(<\w+> ::= <[^>]*>)(.*)\n", dictionary, re.S).groups()
    dictionary = f"{others}<Nest> ::= < AVP Header: 9006 >{rules} [ Nest ]\n{header}{rules} [ Nest ]\n"
    valid = re.sub(r"\s", "", valid)
    found = []
    for fault in faults:
        avps = fault.message.replace(" ", "")[40:]
        _, code, _, _, words = fault.line.split(" ", 4)
        if fault.place >= 20 and avps and not fault.options:
            found.append((avps, fault.place - 20, code, words))
    return dictionary, valid[8:40], valid[40:64], found


def two_faults(room):
    """Of two faults behind one another, in the body and in groups, the first is told."""
    dictionary, head, session, faults = faults_of_levels()
    room.write("levels.txt", dictionary)
    for groups, first, second in itertools.product(range(3), faults, faults):
        avps, place, code, words = first
        avps += second[0]
        for _ in range(groups):
            avps = f"{session}0000232e00{8 + len(avps) // 2:06x}{avps}"
        # in front of the AVPs of each group stand 12 bytes of the first AVP and 8 of the group
        place += 20 + 20 * groups
        room.write("two.hex", f"01{20 + len(avps) // 2:06x}{head}{avps}")
        room.check("check levels.txt two.hex", 1, f"fault {code} at {place} {words}", shown=f"check, {words} in {groups} groups, before {second[3]}")


ANY = "<T> ::= < Diameter Header: 302, REQ > * [ AVP ]"
WRONG = (2, "message: not hexadecimal")


def one_avp(count):
    """A request of ANY with one unknown AVP, whose data is the byte 61 so many times."""
    return message(302, f"0000270f00{8 + count:06x}" + "61" * count)


def tells(room, dictionary, text, wanted, shown):
    """Checks a text exactly as it stands, under the text of a dictionary or @base."""
    status, line = wanted
    files = {"d.row": dictionary.encode(), "m.row": text if isinstance(text, bytes) else text.encode()}
    words = ["check", "@base" if dictionary == "@base" else "d.row", "m.row"]
    room.answers(words, f"{status} {line}\n".encode(), files, f"check, {shown}")


VALID, TRUNCATED, TRAILING = (0, "valid T"), (1, "truncated"), (1, "trailing")


def pieces(room):
    """Messages whose texts are decoded in pieces of 4,096 bytes, that is 8,192 digits."""
    # messages that end in front of a border of pieces, at it and behind it
    for count in (0, 4064, 4068, 4072, 8164, 8168):
        text, shown = one_avp(count), f"a message with {count} bytes of data"
        tells(room, ANY, text, VALID, shown)
        tells(room, ANY, text[:-1], WRONG, f"{shown}, without its last digit")
        tells(room, ANY, text[:-2], TRUNCATED, f"{shown}, without its last byte")
        tells(room, ANY, f"{text[:-2]}0{text[-1]}\n0", WRONG, f"{shown}, and a digit behind it")
        tells(room, ANY, f"{text[:-2]}0{text[-1]}\n00", TRAILING, f"{shown}, and a byte behind it")
    longest = one_avp(16_777_184)
    tells(room, ANY, longest, VALID, "the longest message")
    tells(room, ANY, longest + "0g", WRONG, "the longest message, and what is no digit")
    text = one_avp(12_264)
    for run in (1, 2, 3, 63, 64, 8191, 8192, 8193):
        apart = "".join(" " + text[at : at + run] for at in range(0, len(text), run))
        tells(room, ANY, apart, VALID, f"white space before each {run} digits")
        tells(room, ANY, apart + "\t0\n", WRONG, f"white space before each {run} digits, and a digit behind them")
    for blank in ("", " ", "\r\n", " \t\r\n" * 5000):
        tells(room, ANY, blank, TRUNCATED, f"{len(blank)} bytes of white space")
    # a value across two pieces: the pair of bytes stands behind 28 bytes of heads and 4,067 of data
    dictionary = "%avp X 9003 UTF8String any <T> ::= < Diameter Header: 302, REQ > { X }"
    bad = (1, "fault 5004 at 20 leaf-value X")
    for pair, wanted in (("c3a9", VALID), ("6161", VALID), ("c361", bad), ("61a9", bad)):
        text = message(302, "0000232b00000ff0" + "61" * 4067 + pair + "616161")
        tells(room, dictionary, text, wanted, f"a text with {pair} across two pieces")
    text = one_avp(4072)
    for place, sign in itertools.product((0, 1, 2, 39, 40, 8190, 8191, 8192, 8193, 8198, 8199), (b"g", b"/", b":", b"@", b"G", b"`", b"\0", b"\xc3")):
        tells(room, ANY, text[:place].encode() + sign + text[place + 1 :].encode(), WRONG, f"{sign} in place of digit {place}")
    for head, wanted in (("0100002c", TRAILING), ("0200002c", (1, "fault 5011 at 0 version -")), ("0100002e", (1, "fault 5015 at 1 length -")), ("0100002ca", TRAILING)):
        to_the_end(room, head + REQUEST[len(head) :], wanted)


def to_the_end(room, text, wanted):
    """A text is read to its end, whatever its first message is: what is no digit there, or one digit alone, is refused."""
    more = [text + behind for behind in ("00", "0 0\n", " 0A", "fF\t")]
    for front in more + [front + one_avp(4068) for front in more]:
        tells(room, "@base", front, wanted, f"{text[:9]}.., and {len(front) - len(text)} digits behind it")
    for front in [text] + [front + one_avp(4068) for front in more]:
        for behind in ("0", "g", "0g", "g0", "-", "0x00", "00 00 0", "\v", "é"):
            tells(room, "@base", front + behind, WRONG, f"{text[:9]}.., and {len(front) - len(text)} digits behind it, and {behind!r}")


def white_space(room):
    """White space of each kind behind digits in upper case counts for nothing."""
    blanks = itertools.cycle(" \t\n\r\r")
    room.write("request.row", "".join(digit.upper() + next(blanks) for digit in REQUEST))
    unnamed = "header flags 80 code 280 app 0 hop 1 end 2 length 44\n20 0 264 - 40 11 ? x612e62\n32 0 296 - 40 9 ? x62"
    room.check("show --dict empty.txt request.row", 0, unnamed, err="empty.txt: the dictionary is empty: it has no declaration and no definition")


PARTS = (deep, two_faults, pieces, white_space)
