"""The recipes of docs/JSON.md, for .ci/examples: what they make of answers of which it is known what they say, of answers that
aren't whole, and of all reasons of `breaking`. They want `jq`."""

import os
import re
import subprocess
from xml.etree import ElementTree

from documents import blocks, code, rows

DECLARED = "%avp X 9001 Unsigned32 any\n%avp Y 9002 Unsigned32 any\n"
T = "<T> ::= < Diameter Header: 302, REQ > { X }"
HEADER = "8000012e000000000000000100000002"
ONE_X = "000023290000000c00000001"
REFUSED = "<T> ::= { X }\n"
EXPECTED = "expected must or mustnot or any"

FAULT_OF_Y = '{"verdict":"fault","code":5005,"at":32,"reason":"missing","avp":{"name":"Y","code":9002,"vendor":0}}'
WANTED = [
    "      2 5005 missing X\n      1 5009 too-many X\n",
    "2\n3\n4\n5\n6\n7\n",
    FAULT_OF_Y + '\n{"line":6,"error":"message","kind":"not hexadecimal"}\n',
    "".join(
        f"::error file=messages.txt,line={line}\n"
        for line in ("2::5005 missing X", "3::5009 too-many X", "4::5005 missing X", "5::truncated", "6::not hexadecimal", "7::trailing")
    ),
    "N5 command T\n",
    "required Y\n",
    f"changed.txt:2:24: {EXPECTED}\n",
    '<testsuite name="breaking" tests="1" failures="1" errors="0">\n'
    '<testcase classname="T" name="missing Y"><failure message="0 sent, 1 accepted"/></testcase>\n</testsuite>\n',
    "::error file=theirs.txt,line=3,col=45::T: missing Y: 0 sent, 1 accepted\n",
    "9002 0 Y\n",
]
"""What each recipe makes of the files below, in the order of the page."""
STATUSES = [1, 1, 0, 1, 1, 1, 2, 1, 1, 1]

SENT = """
%avp A 9001 Unsigned32 any      %avp B 9002 Unsigned32 any      %avp C 9003 Unsigned32 any      %avp D 9004 Unsigned32 any
%avp E 9005 Unsigned32 must     %avp F 9006 Unsigned32 mustnot  %avp G 9007 Enumerated any ( 0 3 ) %avp H 9008 Unsigned32 any
%avp I 9009 Unsigned32 any      %avp K 9011 Unsigned32 must
<J> ::= < AVP Header: 9010 > [ A ]
<L> ::= < AVP Header: 9012 > [ A ]
<T> ::= < Diameter Header: 302, REQ, PXY > [ A ] * [ B ] [ C ] [ D ] [ E ] [ F ] [ G ] [ H ] [ I ] [ J ] [ K ] [ L ]
<U> ::= < Diameter Header: 303, REQ, 5 > [ A ] * [ AVP ]
<V> ::= < Diameter Header: 304, REQ > [ A ]
"""
ACCEPTED = """
%avp A 9001 Unsigned32 any      %avp B 9002 Unsigned32 any      %avp C 9003 Unsigned32 any      %avp D 9004 Unsigned32 any
%avp G 9007 Enumerated any ( 0 ) %avp H 9008 Unsigned64 any     %avp I 9009 Float32 any         %avp J 9010 UTF8String any
%avp K 9011 Unsigned32 mustnot
<L> ::= < AVP Header: 9012 > { A }
<T> ::= < Diameter Header: 302, REQ > < D > { A } *2 [ B ] [ G ] [ H ] [ I ] [ J ] [ K ] [ L ] * [ AVP ]
<U> ::= < Diameter Header: 303, REQ, 6 > { A }
"""
"""Two dictionaries between which everything breaks that FAULTS.md knows."""


def commands_of(text):
    """The commands of the recipes."""
    found = [part.strip() for is_block, part in blocks(text[text.index("## Recipes") :].rstrip()) if is_block]
    return [command for command in found if command.startswith("diacmd ")]


def run(command, room):
    """What a recipe writes, and its status."""
    path = {"PATH": f"{room}/bin:{os.environ['PATH']}", "LC_ALL": "C"}
    ran = subprocess.run(["bash", "-c", f"set -o pipefail\n{command}"], cwd=room, env=path, capture_output=True, text=True, timeout=120)
    return ran.stdout, ran.returncode


def write(room):
    """Messages of T, which has one X: a valid one; others without X, with two, and without it once more; and three that are none."""
    for name, rules in {"dictionary.txt": "", "ours.txt": "", "theirs.txt": " { Y }"}.items():
        (room / name).write_text(f"{DECLARED}{T}{rules}\n")
    bodies = [ONE_X, "", ONE_X * 2, ""]
    messages = [f"01{20 + len(body) // 2:06x}{HEADER}{body}" for body in bodies]
    (room / "messages.txt").write_text("\n".join([*messages, "0100", "zz", f"{messages[0]}00", ""]))
    (room / "table.txt").write_text("command T = T\navp X = X\n")
    (room / "changed.txt").write_text(DECLARED.replace("Y 9002 Unsigned32 any", "Y 9002 Unsigned32 maybe"))


def is_told(command, said):
    """Whether a recipe that makes a file for others says there that it has no answer."""
    if "junit" in command:
        suite = ElementTree.fromstring(said)
        return suite.get("errors") == "1" and len(suite.findall("testcase/error")) == 1
    if "break_annotations" in command:
        # the lines before the answer broke off have their annotations
        return any(line.startswith("::error::") for line in said.splitlines())
    return said.startswith("::error::") if "annotations" in command else True


def fails(command, room, title, report):
    """A recipe ends neither with 0 nor with 1, and says so in its file."""
    said, status = run(command, room)
    report(status > 1 and is_told(command, said), f"docs/JSON.md: {title}: {command}", "a status above 1, and an error in its file", f"{status}\n{said}")


def without_answers(command, room, report):
    """Each input of a recipe, refused and missing; and an answer that is empty, or cut short."""
    inputs = dict.fromkeys(re.findall(r"\b\w+\.txt\b", command.split("|")[0]))
    for name in inputs:
        kept = (room / name).read_text()
        for title, text in {"refused": REFUSED, "missing": None}.items():
            # a line of --lines that is no message is an answer, and this recipe's answer is a dictionary that is refused
            if title == "refused" and name in ("messages.txt", "changed.txt"):
                continue
            (room / name).unlink() if text is None else (room / name).write_text(text)
            fails(command, room, f"{name} {title}", report)
            (room / name).write_text(kept)
    fails(command.replace("diacmd ", "true "), room, "no answer", report)
    if "breaking" in command:
        for cut in ("sed '$d'", "head -c 60"):
            fails(command.replace(" | jq", f" | {cut} | jq"), room, f"cut by {cut}", report)


def without_breaks(commands, room, report):
    """Nothing breaks: a JUnit file without a failure, and no AVP."""
    (room / "theirs.txt").write_text((room / "ours.txt").read_text())
    passing = '<testcase classname="breaking" name="nothing else breaks"/>'
    junit = f'<testsuite name="breaking" tests="1" failures="0" errors="0">\n{passing}\n</testsuite>\n'
    for command in commands:
        wanted = (junit if "junit" in command else "", 0)
        found = run(command, room)
        report(found == wanted, f"docs/JSON.md: nothing breaks: {command}", wanted, found)


def stale_lines(command, room, report):
    """A line of `--accepted` that accepts nothing is a failure, too."""
    line = "*: missing X: 0..1 sent, 1 accepted"
    (room / "known.txt").write_text(f"# of last week\n{line}\n")
    case = f'<testcase classname="accepted" name="{line}"><failure message="stale"/></testcase>'
    wanted = f'<testsuite name="breaking" tests="1" failures="1" errors="0">\n{case}\n</testsuite>\n', 1
    found = run(command.replace("--json", "--json --accepted known.txt"), room)
    report(found == wanted, "docs/JSON.md: a stale line", wanted, found)


def by_hand(command, room, report):
    """What an answer may have and the others here don't: a line that is undecided, and characters that XML has another way to write."""
    line = '{"undecided":true,"command":"T","path":["G"],"reason":"missing","avp":{"name":"X"},"sent":"0..1","accepted":"1"}'
    stale = """{"stale":"T: <'a' & \\"b\\">","line":7}"""
    (room / "answer.json").write_text(f'{line}\n{stale}\n{{"lines":1,"causes":1,"accepted":0,"stale":1}}\n')
    said, status = run(command.replace("diacmd breaking --json ours.txt theirs.txt", "cat answer.json"), room)
    found = [[case.get("classname"), case.get("name"), case[0].get("message")] for case in ElementTree.fromstring(said)]
    wanted = [["T/G", "undecided missing X", "0..1 sent, 1 accepted"], ["accepted", """T: <'a' & "b">""", "stale"]]
    report((found, status) == (wanted, 0), "docs/JSON.md: an answer by hand", wanted, f"{status}\n{said}")


def cases_of(lines):
    """The place, the cause and the detail of each line of `breaking`, or of a cause that `--once` writes."""
    for line in lines.splitlines():
        parts = line.split(": ", 2)
        if ", first in " in line:
            rest, place = line.rsplit(", first in ", 1)
            parts = [place, *rest.split(": ", 1)]
        yield tuple(parts)


def reasons(command, room, report):
    """The JUnit file of lines of all reasons that FAULTS.md knows says what the lines say."""
    (room / "ours.txt").write_text(SENT)
    (room / "theirs.txt").write_text(ACCEPTED)
    faults = (room / "docs" / "FAULTS.md").read_text()
    known = {cell.split()[0] for row in rows(faults, "Line | What breaks") for cell in code(row[0]) if ":" in cell and "other way" not in cell}
    seen = set()
    options = (["--sends listed"], ["--sends known", "--unknown refused"], ["--sends any", "--once"])
    for words in options:
        words = " ".join(["--meaning", *words])
        plain = run(f"diacmd breaking {words} ours.txt theirs.txt", room)[0]
        said, status = run(command.replace("--json", f"--json {words}"), room)
        suite = ElementTree.fromstring(said)
        found = [(case.get("classname"), case.get("name"), case.find("failure").get("message")) for case in suite]
        wanted = list(cases_of(plain))
        report((found, status) == (wanted, 1), f"docs/JSON.md: breaking {words}: {command}", wanted, found)
        counts = [suite.get(name) for name in ("tests", "failures", "errors")]
        report(counts == [str(len(wanted)), str(len(wanted)), "0"], f"docs/JSON.md: the counts of JUnit: breaking {words}", len(wanted), counts)
        seen |= {cause.split()[0] for _, cause, _ in wanted}
    report(seen == known, "docs/JSON.md: reasons that went through JUnit", sorted(known), sorted(seen))


def recipes(text, room, report):
    """Runs each recipe over files of which it is known what comes out, and over others of which nothing comes."""
    write(room)
    commands = commands_of(text)
    for command, said, status in zip(commands, WANTED, STATUSES, strict=True):
        found = run(command, room)
        report(found == (said, status), f"docs/JSON.md: {command}", f"{status}\n{said}", f"{found[1]}\n{found[0]}")
        without_answers(command, room, report)
    without_breaks([command for command in commands if "diacmd breaking" in command], room, report)
    junit = next(command for command in commands if "junit" in command)
    stale_lines(junit, room, report)
    by_hand(junit, room, report)
    reasons(junit, room, report)
