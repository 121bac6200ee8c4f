"""What an object of `breaking --json` says, as the line that stands without it, for .ci/json."""

import re

HEADERS = ("command", "application", "proxiable")
"""The reasons of headers."""
COUNTED = ("missing", "too-many", "not-allowed")
"""The reasons whose details are counts."""
ORDERS = [
    [
        "undecided", "command", "application", "path", "commands", "first", "reason", "refused_application", "avp", "sent", "sent_min",
        "sent_max", "behind", "accepted", "accepted_min", "accepted_max", "read", "in_header", "message", "a", "b", "text",
    ],
    ["line", "column"], ["command", "application", "path"], ["name", "code", "vendor", "second"], ["code", "vendor"], ["lines", "causes", "accepted", "stale"],
    ["stale", "line"],
]
"""The members of each kind of object, in their order."""


class Keys(dict):
    """The AVPs of a dictionary, code and vendor by name, with its text."""

    def __init__(self, text):
        declared = re.findall(r"%avp (\S+) (\d+)(?: vendor (\d+))?", text)
        groups = re.findall(r"<(\S+)> ::= < AVP Header: (\d+)(?: (\d+))? >", text)
        super().__init__({name: (int(code), int(vendor or 0)) for name, code, vendor in declared + groups})
        self.declared = {found[1]: found.start() for found in re.finditer(r"%avp (\S+)", text)}
        self.text, self.groups, self.commands = text, {}, []
        for definition in definitions_of(text):
            if "AVP" in definition["head"]:
                self.groups[definition["name"]] = definition
            else:
                self.commands.append(definition)

    def named(self, key):
        """The name of the AVP of a key."""
        return next((name for name, other in self.items() if other == key), None)

    def own_name(self, subject):
        """The name of an AVP that the other dictionary doesn't have, by its name or by CODE:VENDOR."""
        return self.named(tuple(map(int, subject.split(":")))) if ":" in subject else subject

    def avp_at(self, name):
        """The place of an AVP: of its declaration, else of its definition."""
        return self.declared[name] if name in self.declared else self.groups[name]["at"] if name in self.groups else None

    def command(self, name):
        return next((command for command in self.commands if command["name"] == name), None)

    def for_messages(self, code, request, app):
        """The command for these messages: of the application, else without one, else the first of the code and the class."""
        known = [command for command in self.commands if (command["code"], command["request"]) == (code, request)]
        return next((command for wanted in (app, None) for command in known if command["app"] == wanted), known[0] if known else None)

    def position(self, at):
        """The line and the column of a place."""
        front = self.text[:at]
        return {"line": front.count("\n") + 1, "column": at - front.rfind("\n")}


def definitions_of(text):
    """The definitions of a dictionary, each with its place, its head, and its rules with their places."""
    heads = list(re.finditer(r"<([\w-]+)> ::= < ([^>]*)>", text))
    ends = sorted([head.start() for head in heads] + [found.start() for found in re.finditer("%avp", text)] + [len(text)])
    for head in heads:
        until = next(end for end in ends if end >= head.end())
        rules = {}
        for rule in re.finditer(r"(?:\d+ *)?(?:\* *(?:\d+ *)?)?[<{[] *([\w-]+) *[]}>]", text[head.end() : until]):
            rules.setdefault(rule[1], head.end() + rule.start())
        words = [word.strip() for word in head[2].partition(":")[2].split(",")]
        numbers = [int(word) for word in words[1:] if word.isdigit()]
        code = int(words[0]) if words[0].isdigit() else None
        yield {
            "name": head[1], "at": head.start(), "head": head[2], "code": code, "request": "REQ" in words, "app": numbers[0] if numbers else None,
            "rules": rules,
        }


def keys_of(text):
    """The AVPs of a dictionary: code and vendor by name, and the places of its parts."""
    return Keys(text)


def rule_at(definition, name):
    """The place of the rule for an AVP, else of the wildcard, else of the definition."""
    rules = definition["rules"]
    return rules.get(name, rules.get("AVP", definition["at"]))


def places_of(answer, first, second):
    """Where both dictionaries have what a line is about."""
    reason, subject, place = answer.get("reason"), subject_of(answer), answer.get("first", answer)
    own = first.command(place["command"])
    app = place.get("application", own["app"])
    other = second.for_messages(own["code"], own["request"], app)
    if reason in HEADERS:
        found = own["at"], other and other["at"]
    elif reason in (*COUNTED, "order"):
        if place["path"]:
            group = place["path"][-1]
            own, other = first.groups.get(group), second.groups.get(second.named(first.get(group)))
        name = second.named(first[subject]) or "AVP" if subject in first else second.own_name(subject)
        found = own and rule_at(own, subject), other and rule_at(other, name)
    else:
        name = second.named(first[subject]) if subject in first else second.own_name(subject)
        found = first.avp_at(subject), name and second.avp_at(name)
    return {side: keys.position(at) for side, keys, at in zip("ab", (first, second), found) if at is not None}


def path_of(place):
    """The path that a place stands for."""
    application = f"[application {place['application']}]" if "application" in place else ""
    return "/".join([place["command"] + application, *place["path"]])


def counts_of(text):
    """The least and the greatest count."""
    least, dots, most = text.partition("..")
    return int(least), (None if most == "*" else int(most)) if dots else int(least)


def subject_of(answer):
    if "refused_application" in answer:
        return str(answer["refused_application"])
    return answer["avp"]["name"] if "avp" in answer else "-"


def detail_of(answer):
    """The detail of a line, by its reason."""
    reason = answer.get("reason")
    if reason in ("command", "application"):
        return "not accepted"
    sent = f"behind {answer['behind']}" if "behind" in answer else answer.get("sent", "")
    parts = [f"{sent} sent".strip()] if sent or reason == "unknown" else []
    parts += [f"{answer[way]} {way}" for way in ("accepted", "read") if way in answer]
    parts += ["not known"] if reason == "unknown" else []
    parts += ["not in the list"] if reason == "format" and "accepted" not in answer else []
    return ", ".join(parts)


def line_of(answer):
    """The line that stands without `--json`, and its message."""
    front = ["undecided"] * answer.get("undecided", False) + [answer[name] for name in ("reason",) if name in answer]
    cause = f"{' '.join([*front, subject_of(answer)])}: {detail_of(answer)}"
    message = [f"  {answer['message']}"] if "message" in answer else []
    if "first" in answer:
        count = answer["commands"]
        return [f"{cause}, in {count} command{'s' * (count != 1)}, first in {path_of(answer['first'])}", *message]
    return [f"{path_of(answer)}: {cause}", *message]


def wrong_in(answer, first, second):
    """What an object says besides its line that isn't so, by the AVPs of the two dictionaries."""
    reason = answer.get("reason")
    if answer["text"] != line_of(answer)[0]:
        return f"text, wanted {line_of(answer)[0]}"
    places = {side: answer[side] for side in "ab" if side in answer}
    wanted = places_of(answer, first, second)
    if places != wanted:
        return f"places, wanted {wanted}"
    if answer["in_header"] != (reason in HEADERS):
        return "in_header"
    for way in ("sent", "accepted"):
        found = answer.get(f"{way}_min"), answer.get(f"{way}_max")
        is_count = reason in COUNTED and way in answer
        if is_count != (f"{way}_min" in answer) or is_count != (f"{way}_max" in answer) or (is_count and found != counts_of(answer[way])):
            return f"counts {way}"
    if "avp" in answer:
        name = answer["avp"]["name"]
        mine, other = first.get(name), second.get(second.own_name(name))
        wanted = {"name": name}
        wanted |= dict(zip(("code", "vendor"), mine or other or ()))
        wanted |= {"second": dict(zip(("code", "vendor"), other))} if mine and other and mine != other else {}
        return "" if answer["avp"] == wanted else f"avp, wanted {wanted}"
    return ""
