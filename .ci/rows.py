"""Cases that stand as texts, for .ci/cases: rows of calls, and what the program tells of its words.

A row is a line with a call, its inputs, and the status and the output that it is to have:

    check kept any | $base | $REQUEST => 0 valid DWR\\n

A line that is empty or begins with `#` is no row. `let NAME = TEXT` names a text, `$NAME` stands for it, `$NAME*3` for it three
times; `\\n`, `\\t`, `\\r` and `\\xHH` are bytes. `$base` is the text of the base dictionary. The crate dia_rows reads rows so, too.
The calls, where POLICY is `kept` or `refused`, LEVELS a number or `any`, and the NAME `-` the empty one:

    show | D | MESSAGE                        check POLICY LEVELS | D | MESSAGE
    render | D                                fronts FROM..TO check POLICY LEVELS | D | MESSAGE
    compare POLICY | A | B | TABLE            propose POLICY NAME.. | A | B
    refute POLICY LEVELS | A | B | MESSAGE    breaking WORD.. | A | B | ACCEPTED

`json` before a call is the call with `--json`. The words of `breaking` are options and names. `fronts` is a row for the first bytes of the message: for each count of them from
FROM on and below TO. Blanks in a MESSAGE count for nothing there."""

import itertools
import pathlib
import re
import subprocess

TOP = pathlib.Path(__file__).resolve().parent.parent
OWN_ROWS = TOP / ".ci" / "cases.d"
SHARED_ROWS = TOP / "crates" / "dia_run_tests" / "src" / "rows"
NAMES = SHARED_ROWS / "names.rt"

ESCAPES = {b"n": b"\n", b"t": b"\t", b"r": b"\r"}


def unescaped(text):
    return re.sub(rb"\\(?:x([0-9a-f]{2})|(.))", lambda found: bytes.fromhex(found[1].decode()) if found[1] else ESCAPES[found[2]], text)


class Names:
    """The texts that have names."""

    def __init__(self, **texts):
        self.texts = texts

    def text(self, text):
        """A text with its names and escapes written out."""
        parts = re.split(r"\$([A-Za-z0-9_]+)(?:\*(\d+))?", text)
        plain = [unescaped(part.encode()) for part in parts[::3]]
        named = [self.texts[name] * int(count or 1) for name, count in zip(parts[1::3], parts[2::3])]
        return b"".join(one + other for one, other in zip(plain, [*named, b""]))

    def rows(self, lines):
        """The line, the fields of the call and the answer of each row of a text."""
        for line in map(str.strip, lines):
            if line.startswith("let "):
                name, text = line[4:].split(" =", 1)
                self.texts[name.strip()] = self.text(text.strip())
            elif line and not line.startswith("#"):
                call, wanted = line.split("=>", 1)
                yield line, [field.strip() for field in call.split("|")], self.text(wanted.strip())


def constant(path):
    """The raw text in a source file that has one."""
    return re.search(r'r#*"\n(.*)\n"#*;', path.read_text(), re.S)[1]


def base_text(room):
    """The text of the base dictionary. Its length, lines and FNV-1a hash were counted on a copy outside this repository."""
    text = subprocess.run([room.program, "render", "@base"], capture_output=True).stdout
    hashed = 0xCBF29CE484222325
    for byte in text:
        hashed = (hashed ^ byte) * 0x100000001B3 % 2**64
    found, wanted = (len(text), text.count(b"\n"), hashed), (2713, 101, 0x17EF583B7EE317DA)
    room.report("render @base", [] if found == wanted else [("length, lines and hash", wanted, found)])
    return text


def rows(room):
    """The rows of texts, each for the program's words and inputs that it stands for."""
    base = base_text(room)
    texts = [path.read_text() for path in sorted(OWN_ROWS.glob("*.rows"))]
    texts += [constant(path) for path in sorted(SHARED_ROWS.glob("*.rt")) if path != NAMES]
    for text in texts:
        names = Names(base=base)
        for line, fields, wanted in itertools.chain(names.rows(constant(NAMES).split("\n")), names.rows(text.split("\n"))):
            row(room, line, fields[0].split(), [names.text(field) for field in fields[1:]], wanted)


INPUTS = {
    "show": ("d.row", "m.row"),
    "render": ("d.row",),
    "check": ("d.row", "m.row"),
    "compare": ("a.row", "b.row", "t.row"),
    "propose": ("a.row", "b.row"),
    "refute": ("a.row", "b.row", "m.row"),
    "breaking": ("a.row", "b.row", "l.row"),
}
"""The files of the inputs of a call, in the order of its fields."""


def row(room, line, call, texts, wanted):
    counts = [None]
    json = ["--json"] if call[0] == "json" else []
    call = call[len(json) :]
    if call[0] == "fronts":
        counts = range(*map(int, call[1].split("..")))
        call = call[2:]
    # of streams the library tells more than the program; and the words of `propose` name a command at least
    if call[0] in ("take", "open") or (call[0] == "propose" and len(call) == 2):
        return
    files = dict(zip(INPUTS[call[0]], texts + [b""] * 3))
    verb, *words = words_of(*call)
    words = [verb, *json, *words]
    for count in counts:
        if count is not None:
            files["m.row"] = files["m.row"].replace(b" ", b"")[: 2 * count]
            room.answers(words, wanted, files, f"{line} (the first {count} bytes)")
        else:
            room.answers(words, wanted, files, line)


def words_of(verb, *more):
    """The words of the command line that a call stands for."""
    if verb == "breaking":
        first, second, accepted = INPUTS[verb]
        options, names = ([word for word in more if word.startswith("--") == is_option] for is_option in (True, False))
        return [verb, *options, "--accepted", accepted, first, second, *names]
    policy, *more = more or [None]
    unknown = ["--unknown", policy] if policy else []
    if verb == "show":
        return ["show", "--dict", *INPUTS[verb]]
    if verb in ("check", "refute") and more != ["any"]:
        return [verb, *unknown, "--levels", *more, *INPUTS[verb]]
    names = ["" if name == "-" else name for name in more] if verb == "propose" else []
    return [verb, *unknown, *INPUTS[verb], *names]


def texts(room):
    """What the program tells of its words, whole."""
    for path in sorted(OWN_ROWS.glob("*.texts")):
        for part in re.split(r"^\$ diacmd", path.read_text(), flags=re.M)[1:]:
            words, text = part.split("\n", 1)
            words, _, status = words.partition(" => ")
            text = text.rstrip("\n")
            if text.startswith("error: ") or status == "3":
                room.check(words.split(), int(status or 2), "", err=text)
            else:
                room.check(words.split(), int(status or 0), text)
