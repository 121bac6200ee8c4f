"""Cases of .ci/cases of devices that are full, and of inputs of 100 kB, which there is always memory for."""

import os

from room import REQUEST, device

FULL = "No space left on device (os error 28)"
TO_FULL = 'exec "$0" "$@" > /dev/full'
# each command in each of its forms; `+` where it also takes --json
COMMANDS = """
+ show request.hex
+ show --names request.hex
+ show --values words.txt request.hex
  show --as-text request.hex
  show --lines request.hex
  show --lines --names --values words.txt request.hex
  make text.txt
+ check @base request.hex
+ check @base broken.hex
+ check --lines @base request.hex
+ check --stream @base request.hex
+ check wrong.txt request.hex
  render @base
  render wrong.txt
+ propose narrow.txt wide.txt T
+ propose narrow.txt wide.txt Q
+ breaking wide.txt narrow.txt
+ breaking --messages wide.txt narrow.txt
+ breaking --once wide.txt narrow.txt
+ breaking --meaning narrow.txt wide.txt
+ breaking narrow.txt wide.txt
+ breaking --accepted known.txt wide.txt narrow.txt
+ breaking --accepted known.txt narrow.txt wide.txt
+ breaking narrow.txt wrong.txt
+ compare narrow.txt wide.txt table.txt
+ compare wide.txt narrow.txt table.txt
+ refute open.txt other.txt unlike.hex
+ refute --lines open.txt other.txt unlike.hex
+ mask @base request.hex
+ uses @base Session-Id
+ uses @base 9
+ diff narrow.txt wide.txt
+ diff @base @base
+ lint narrow.txt
+ examples narrow.txt
  examples --text narrow.txt
  follow connection.txt
  follow --json connection.txt
  answer @base broken.hex
  answer --lines @base requests.hex
  check --all @base broken.hex
  --help
  --version
  breaking --help
"""
WORDS = "Disconnect-Cause 0 REBOOTING"
KNOWN = "T: too-many X: 1..3 sent, 1 accepted"
LONG = 100_000


def full(room):
    """Each command reports that standard output is full, whatever it has to say, and ends with 3."""
    room.write("words.txt", WORDS)
    room.write("known.txt", KNOWN)
    room.write("connection.txt", f"> {REQUEST}\n")
    if not os.access("/dev/full", os.W_OK):
        print("skipped: commands over /dev/full, since it isn't there")
        return
    for line in COMMANDS.strip("\n").split("\n"):
        words = line[2:].split()
        for json in ([], ["--json"]) if line[0] == "+" else ([],):
            asked = [*words[:1], *json, *words[1:]]
            room.check(asked, 3, "", err=device("standard output", FULL), shell=TO_FULL, shown=f"{' '.join(asked)} > /dev/full")


def many(line, count):
    return "\n".join(line.format(number) for number in range(count))


def long_texts(room):
    """Each input with 100 kB: of comments and blanks, and of what it is made of."""
    declared = many("%avp N{0} {0} OctetString any", 4_000)
    room.write("comments.txt", ";" + LONG * "x")
    room.write("declared.txt", f"{declared}\n<T> ::= < Diameter Header: 302, REQ > * [ AVP ]")
    rendered = f"{declared}\n<T> ::= < Diameter Header: 302, REQ >\n  * [ AVP ]"
    room.check("render declared.txt", 0, rendered)
    room.check("render comments.txt", 0, "", err="comments.txt: the dictionary is empty: it has no declaration and no definition")
    room.check("breaking declared.txt declared.txt", 0, "nothing breaks", err="")
    room.check("compare narrow.txt wide.txt -", 0, "yes", stdin="; " + LONG * "x" + "\ncommand T = T\navp X = X", err="")
    pairs = f"command T = T\n{many('avp N{0} = N{0}', 4_000)}"
    room.check("compare declared.txt declared.txt -", 0, "yes", stdin=pairs, err="")
    room.check("propose declared.txt declared.txt T", 0, pairs, err="")
    room.check("propose --json declared.txt declared.txt T", 0, '{"kind":"command","first":"T","second":"T"}\n{"kind":"avp","first":"N0","second":"N0"}...', err="")
    room.check("breaking --accepted - wide.txt narrow.txt", 0, "nothing else breaks", stdin=f"#{LONG * 'x'}\n{KNOWN}", err="")
    room.check("breaking --accepted - wide.txt narrow.txt", 0, "nothing else breaks", stdin=many(KNOWN, 3_000), err="")
    lines = many("Disconnect-Cause {0} W{0}", 4_000)
    for words in (f"#{LONG * 'x'}\n{WORDS}", lines):
        room.write("words.txt", words)
        told = "REBOOTING" if words != lines else "W0"
        room.check("show --values words.txt -", 0, f"header flags 80 code 282 app 0 hop 1 end 2 length 32\n20 0 273 - 40 12 Disconnect-Cause 0 {told}", stdin=CAUSE)


def long_messages(room):
    """Messages, texts of messages and captures with 100 kB: of one AVP and of many."""
    one = f"0000270f00{8 + LONG:06x}" + LONG * "61"
    each = 10_000 * "0000270f0000000961000000"
    heads = "20 0 9999 - 00 {0} ? x61"
    for avps, shown in ((one, heads.format(8 + LONG) + (LONG - 1) * "61"), (each, None)):
        message = f"01{20 + len(avps) // 2:06x}{REQUEST[8:40]}{avps}"
        missing = f"5005 at {len(message) // 2} missing Origin-Host"
        lines = shown or "\n".join(f"{20 + 12 * number} 0 9999 - 00 9 ? x61" for number in range(10_000))
        head = f"header flags 80 code 280 app 0 hop 1 end 2 length {len(message) // 2}"
        room.write("long.hex", message)
        room.check("show --quiet long.hex", 0, f"{head}\n{lines}")
        room.check("show --quiet --names long.hex", 0, f"{head.replace('80', 'R---', 1).replace('code 280', 'code 280 DWR')}\n20 0 9999 - --- ...")
        room.check("show --quiet --lines long.hex", 0, f"line 1\n{head}\n{lines}")
        room.check("show --quiet --json long.hex", 0, '{"version":1,"flags":128,"code":280...')
        room.check("check @base long.hex", 1, f"fault {missing}")
        room.check("check --json @base long.hex", 1, f'{{"verdict":"fault","code":5005,"at":{len(message) // 2},"reason":"missing",...')
        room.check("check --lines @base long.hex", 1, f"fault {missing}")
        room.check("check --stream @base long.hex", 1, f"0 fault {missing}")
        room.check("refute @base @base long.hex", 1, "does not refute")
        room.check("refute --lines @base @base long.hex", 1, "does not refute")
        room.check("show --quiet --as-text long.hex", 0, message, shell='"$0" "$@" | "$0" make -')
    text = f'DWR hop 0 end 0\nOrigin-Host "{LONG * "a"}"'
    room.check("make -", 0, f"01{20 + 8 + LONG:06x}80000118" + 24 * "0" + f"0000010840{8 + LONG:06x}" + LONG * "61", stdin=text)
    room.check("make -", 0, REQUEST, stdin=f"#{LONG * 'x'}\nDWR hop 1 end 2\nOrigin-Host \"a.b\"\nOrigin-Realm \"b\"")


CAUSE = "010000208000011a000000000000000100000002000001114000000c00000000"
"""A Disconnect-Peer-Request with the Disconnect-Cause 0, which is REBOOTING (RFC 6733 section 5.4.3)."""

PARTS = (full, long_texts, long_messages)
