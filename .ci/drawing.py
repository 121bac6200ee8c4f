"""Small dictionaries, variants of them, and messages by their rules, drawn at random.

The AVPs of keys 1 to 5 are leaves, 6 and 7 groups; each is called K and its number, and has the code 9000 and its number."""

from formats import of_data

LEAVES, GROUPS = range(1, 6), (6, 7)
FORMATS = [
    "OctetString", "UTF8String", "Unsigned32", "Integer64", "Address", "DiameterIdentity", "DiameterURI", "Time", "Enumerated",
    "Enumerated ( 1 5..9 )", "Enumerated ( 1..6 )", "IPFilterRule",
]
DATA = {
    "OctetString": ["", "61", "ff"], "UTF8String": ["", "61", "c3a4"], "Unsigned32": ["00000000", "ffffffff"], "Integer64": ["0000000000000007"],
    "Address": ["0000", "00017f000001", "000861"], "DiameterIdentity": ["61", "612e62"], "DiameterURI": ["6161613a2f2f61"], "Time": ["e0000000"],
    "Enumerated": ["00000001", "00000005", "00000009"], "IPFilterRule": ["", "7065726d6974"],
}
"""Data of each format. Those of Enumerated are of a list mostly."""
SAME_BYTES = [
    [*of_data(4), "Enumerated"], of_data(8), [*of_data("any"), "UTF8String"], ["DiameterURI", "DiameterIdentity", "Address"],
]
"""Formats of which each has data of another in its row."""
OF_LEVELS = [*of_data("any"), "Address"]
"""Formats that have all levels of a group as data, or may have them."""
COUNTS = [("", ""), ("", ""), ("1", ""), ("", "2"), ("2", ""), ("1", "3"), ("0", "1"), ("2", "2")]


APPLICATIONS = [
    [("T", "")], [("T", "")], [("T", ", 5")], [("T", ", 6")], [("T", ""), ("T5", ", 5")], [("T", ", 5"), ("T6", ", 6")], [("T", ", 6"), ("T7", ", 7")],
]
"""The commands of a dictionary, each with the application that it names."""


def open_rules(draw, keys):
    """A wildcard, and rules that forbid: they say nothing of the AVPs that occur."""
    forbidden = draw.sample(keys, draw.randint(0, min(2, len(keys))))
    return " ".join([f"*0 [ K{key} ]" for key in forbidden] + [draw.choice(["* [ AVP ]", "*2 [ AVP ]", "[ AVP ]", "*0 [ AVP ]"])])


def rules(draw, keys):
    if draw.random() < 0.1:
        return open_rules(draw, keys)
    parts = []
    chosen = draw.sample(keys, draw.randint(0, min(3, len(keys))))
    fixed = draw.choice([0, 0, 1, 2])
    for at, key in enumerate(chosen):
        if at < fixed:
            parts.append(f"{draw.choice(['', '', '2*2', '1*2'])} < K{key} >")
            continue
        low, high = draw.choice(COUNTS)
        count = f"{low}*{high}" if draw.random() < 0.6 else ""
        is_required = low in ("1", "2") if count else draw.random() < 0.5
        parts.append(f"{count} {{ K{key} }}" if is_required else f"{count} [ K{key} ]")
    if draw.random() < 0.4:
        parts.append(draw.choice(["* [ AVP ]", "*2 [ AVP ]", "[ AVP ]", "1* { AVP }"]))
    return " ".join(parts)


def dictionary(draw):
    """A definition or declaration a line."""
    known = [key for key in LEAVES if draw.random() < 0.85]
    groups = [key for key in GROUPS if draw.random() < 0.8]
    text = []
    for key in known:
        name, _, listed = draw.choice(FORMATS).partition(" ")
        text.append(f"%avp K{key} {9000 + key} {name} {draw.choice(['any', 'any', 'must', 'mustnot'])} {listed}")
    for key in groups:
        text.append(f"<K{key}> ::= < AVP Header: {9000 + key} > {rules(draw, known + groups)}")
    flags = draw.choice([", REQ", ", REQ", ", REQ, PXY"])
    for name, app in draw.choice(APPLICATIONS):
        text.append(f"<{name}> ::= < Diameter Header: 302{flags}{app} > {rules(draw, known + groups)}")
    return "\n".join(text) + "\n"


def variant(draw, text):
    """The dictionary with some lines of another one in place of its own."""
    lines, other = text.splitlines(), dictionary(draw).splitlines()
    for _ in range(draw.choice([1, 1, 2, 3])):
        at = draw.randrange(len(lines))
        same = [line for line in other if line.split()[:2] == lines[at].split()[:2] or line.split(">")[0] == lines[at].split(">")[0]]
        if same:
            lines[at] = draw.choice(same)
    return "\n".join(lines) + "\n"


def renamed(draw, text):
    """The dictionary with another format for some leaves, most of whose data stay valid, and with leaves for some groups."""
    lines = text.splitlines()
    for at, line in enumerate(lines):
        words = line.split()
        row = next((row for row in SAME_BYTES if words[0] == "%avp" and words[3] in row), None)
        if row and draw.random() < 0.5:
            lines[at] = " ".join(words[:3] + [draw.choice(row)] + words[4:5])
        elif line.startswith("<K") and draw.random() < 0.2:
            lines[at] = f"%avp {words[0][1:-1]} {words[5]} {draw.choice(OF_LEVELS)} any"
    return "\n".join(lines) + "\n"


def padded(data):
    return data + "0" * (-len(data) % 8)


def avp(draw, dictionary, key, depth):
    """An AVP of the key, mostly as the dictionary says."""
    entry = dictionary.entries.get(key)
    if entry is None:
        flags, data = draw.choice(["00", "00", "00", "40"]), draw.choice(["", "61"])
    else:
        flags = {"must": "40", "mustnot": "00", "any": draw.choice(["00", "40"])}[entry.m]
        data = level(draw, dictionary, entry.group, depth - 1) if entry.group else draw.choice(DATA[entry.format])
    return f"{key:08x}{flags}{8 + len(data) // 2:06x}" + padded(data)


def level(draw, dictionary, definition, depth):
    """AVPs that stand as the definition says."""
    if depth < 0:
        return ""
    fixed, loose = [], []
    strangers = [9000 + key for key in range(1, 10) if not definition.rule(9000 + key)]
    for rule in definition.rules:
        for _ in range(draw.randint(rule.low, int(min(rule.high, rule.low + 2)))):
            key = draw.choice(strangers) if rule.key is None else rule.key
            (fixed if rule.fixed else loose).append(avp(draw, dictionary, key, depth))
    draw.shuffle(loose)
    return "".join(fixed + loose)


def message(draw, dictionary, command):
    """A message, mostly a valid one of the command."""
    body = level(draw, dictionary, command, 3)
    app = draw.choice([0, 5, 7]) if command.app is None else command.app
    flags = "c0" if command.proxiable else "80"
    return f"01{20 + len(body) // 2:06x}{flags}00012e{app:08x}" + "0" * 16 + body
