"""What the lines of `follow` say, the summary that standard error has of them (docs/FORMATS.md), and which answers lack their result,
where there is silence, and where an Origin-State-Id changes (RFC 6733 sections 7.1, 7.6 and 8.16, RFC 3539 section 3.4.1)."""

import dataclasses
import json
import re

MESSAGE = re.compile(
    r"(?P<kind>request|answer) (?P<name>\S+) app (?P<app>\d+) hop (?P<hop>\d+) end (?P<e2e>\d+)(?: cause (?P<cause>\d+))?"
    r"(?: code (?:(?P<vendor>\d+):)?(?P<code>\d+))?(?P<e> E)?(?: answers (?P<answers>\d+))?(?: after (?P<after>[0-9.]+))?(?: common (?P<common>.*))?")
FINDING = re.compile(r"(?P<kind>departure|note) (?P<reason>\S+): (?P<text>.*?)(?: \(RFC 6733 (?P<section>[^()]*\d)\))?")
SECOND = 10**9
MOST_NAMES = 100
"""How many commands have a line of their own; the requests of all others are counted as `others`."""
RESULT_CODE, EXPERIMENTAL_RESULT, ORIGIN_STATE_ID = 268, 297, 278
NEIGHBORS = {257, 280, 282}
"""Capabilities-Exchange, Device-Watchdog, Disconnect-Peer."""
MOST_SILENCE = 32 * SECOND
NO_CER = "no-cer: where the capture begins in the middle of the connection, use --middle"
MISSING = "answers-nothing, order: packets may be missing from the capture, or exchanged in it"


@dataclasses.dataclass
class Said:
    """What a line says that the summary counts."""
    line: int
    end: str
    kind: str
    """`request`, `answer`, `unread`, `departure` or `note`."""
    name: str = ""
    """Of the command, or of the departure or note."""
    cause: int | None = None
    answers: int | None = None
    common: str | None = None

    @property
    def is_message(self):
        return self.kind in ("request", "answer", "unread")

    @property
    def is_finding(self):
        return self.kind in ("departure", "note")


def number(word):
    return None if word is None else int(word)


def said_by_line(line):
    at, end, rest = line.split(" ", 2)
    finding, message = FINDING.fullmatch(rest), MESSAGE.fullmatch(rest)
    if finding:
        return Said(int(at), end, finding["kind"], finding["reason"])
    if message:
        return Said(int(at), end, message["kind"], message["name"], number(message["cause"]), number(message["answers"]), message["common"])
    return Said(int(at), end, "unread")


def said_by_object(text):
    found = json.loads(text)
    for kind in ("departure", "note"):
        if kind in found:
            return Said(found["line"], found["end"], kind, found[kind])
    return Said(found["line"], found["end"], found["message"], found.get("command", ""), found.get("cause"), found.get("answers"), found.get("common"))


def nanoseconds(word):
    whole, _, decimals = word.partition(".")
    return int(whole) * SECOND + int(decimals.ljust(9, "0"))


def seconds(time):
    """A time as it is written: cut to microseconds."""
    return f"{time // SECOND}.{time % SECOND // 1000:06}"


def rounded(time):
    """The time in microseconds, of which all digits but the first two are 0."""
    digits = str(time // 1000)
    return int(digits[:2].ljust(len(digits), "0")) * 1000


def times_of(connection):
    """The time of each line of a connection that has one."""
    words = [line.split() for line in connection.splitlines()]
    return {at: nanoseconds(it[1]) for at, it in enumerate(words, 1) if len(it) == 3 and it[0] in "<>"}


def counted_names(said):
    """The name under which the requests of each command of an end are counted."""
    names = {}
    for it in said:
        if it.kind == "request" and (it.end, it.name) not in names:
            names[it.end, it.name] = it.name if len(names) < MOST_NAMES else "others"
    return names


def spread(waits):
    """The least and the greatest of these times, their median and their 99th percentile."""
    if not waits:
        return ""
    least, greatest, ordered = min(waits), max(waits), sorted(map(rounded, waits))
    median, nearly_all = ordered[(len(waits) + 1) // 2 - 1], ordered[len(waits) - len(waits) // 100 - 1]
    return f"; after {seconds(least)} to {seconds(greatest)} s, median {seconds(median)}, 99th {seconds(nearly_all)}"


def waited(times, request, answer):
    """How long after the line of its request an answer comes; None if a time isn't known, or goes back."""
    if request not in times or answer not in times or times[answer] < times[request]:
        return None
    return times[answer] - times[request]


def command_lines(said, times):
    names, requests = counted_names(said), {}
    answers = {it.answers: it.line for it in said if it.answers is not None}
    for it in said:
        if it.kind == "request":
            requests.setdefault((it.end, names[it.end, it.name]), []).append(it.line)
    for (end, name), lines in requests.items():
        answered = [line for line in lines if line in answers]
        waits = [waited(times, line, answers[line]) for line in answered]
        yield f"{end} {name}: {len(lines)}, {len(answered)} answered{spread([wait for wait in waits if wait is not None])}"


def finding_lines(said):
    """Departures, then notes; of each the most frequent first, and of equally frequent ones the one met first."""
    lines = {}
    for it in said:
        if it.is_finding:
            lines.setdefault((it.kind, it.end, it.name), []).append(it.line)
    for (kind, end, name), at in sorted(lines.items(), key=lambda it: (it[0][0] == "note", -len(it[1]), it[1][0])):
        yield f"{len(at)} x {end} {kind} {name}, first in line {at[0]}"


def last_line(said, times):
    last = {it.end: it.line for it in said if it.is_message}
    ends = [f"{end} line {last[end]}" + (f" at {seconds(times[last[end]])}" if last[end] in times else "") for end in "><" if end in last]
    return [f"last: {', '.join(ends)}"] if ends else []


def disconnect_line(said):
    """The first DPR, and its answer."""
    request = next((it for it in said if (it.kind, it.name) == ("request", "DPR")), None)
    if not request:
        return "neither end asks to disconnect"
    cause = "" if request.cause is None else f", cause {request.cause}"
    answered = next((f"answered in line {it.line}" for it in said if it.answers == request.line), "not answered")
    return f"{request.end} asks to disconnect in line {request.line}{cause}; {answered}"


def hints(said):
    found = {it.name for it in said if it.is_finding}
    return [hint for hint, reasons in ((NO_CER, {"no-cer"}), (MISSING, {"answers-nothing", "order"})) if found & reasons]


def summary(connection, said):
    """The summary of a connection, by what the lines of its answer say."""
    times, kinds = times_of(connection), [it.kind for it in said if it.is_message]
    common = next((it.common for it in said if it.common is not None), None)
    lines = (
        f"{len(kinds)} messages: {kinds.count('request')} requests, {kinds.count('answer')} answers",
        *command_lines(said, times),
        "no CEA of success" if common is None else f"common: {common}",
        *finding_lines(said),
        *last_line(said, times),
        disconnect_line(said),
        *hints(said),
    )
    return "".join(f"{line}\n" for line in lines)


@dataclasses.dataclass
class Sent:
    """A line of a connection that has bytes."""
    line: int
    end: str
    time: int | None
    bytes: bytes

    @property
    def is_read(self):
        return len(self.bytes) >= 20 and self.bytes[0] == 1 and self.length >= 20 and self.length % 4 == 0

    @property
    def length(self):
        return int.from_bytes(self.bytes[1:4], "big")

    @property
    def is_request(self):
        return bool(self.bytes[4] & 0x80)

    @property
    def code(self):
        return int.from_bytes(self.bytes[5:8], "big")

    def avps(self):
        """The data of AVPs without vendor by their codes, the first of each; None unless the whole body is AVPs."""
        found, at = {}, 20
        if not self.is_read or len(self.bytes) < self.length:
            return None
        while at < self.length:
            head = 12 if self.length - at >= 8 and self.bytes[at + 4] & 0x80 else 8
            length = int.from_bytes(self.bytes[at + 5:at + 8], "big")
            end = at + length + -length % 4
            if self.length - at < head or length < head or end > self.length:
                return None
            vendor = int.from_bytes(self.bytes[at + 8:at + 12], "big") if head == 12 else 0
            if vendor == 0:
                found.setdefault(int.from_bytes(self.bytes[at:at + 4], "big"), self.bytes[at + head:at + length])
            at = end
        return found


def sent_in(connection):
    for at, line in enumerate(connection.splitlines(), 1):
        words = [] if line.startswith("#") else line.split()
        if words:
            yield Sent(at, words[0], nanoseconds(words[1]) if len(words) == 3 else None, bytes.fromhex(words[-1]))


def lacks_result(it, avps):
    """What an answer lacks: 7.1 has a Result-Code in each, 7.6 an Experimental-Result in its place beyond the base protocol."""
    if it.is_request or RESULT_CODE in avps or (EXPERIMENTAL_RESULT in avps and it.code not in NEIGHBORS):
        return None
    return "no Result-Code" if it.code in NEIGHBORS else "neither Result-Code nor Experimental-Result"


def outcomes(connection):
    """Line, end, reason and text of each `no-result`, `silence` and `origin-state` of a connection of which no line is refused."""
    states, last = {}, None
    for it in sent_in(connection):
        avps = it.avps()
        if avps is not None and lacks_result(it, avps):
            yield it.line, it.end, "no-result", lacks_result(it, avps)
        if it.is_read and last is not None and it.time is not None and it.time - last > MOST_SILENCE:
            yield it.line, it.end, "silence", f"{seconds(it.time - last)} s"
        last = it.time
        if avps is not None and it.code in NEIGHBORS and len(avps.get(ORIGIN_STATE_ID, b"")) == 4:
            now = int.from_bytes(avps[ORIGIN_STATE_ID], "big")
            if states.get(it.end, now) != now:
                yield it.line, it.end, "origin-state", f"{now}, {states[it.end]} before"
            states[it.end] = now
