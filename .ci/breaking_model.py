"""What `breaking` has to say of two small dictionaries, by the rules of docs/FORMATS.md and docs/FAULTS.md alone.

A level is a count for each key, so its least length under a condition is a sum of least lengths, with the cheapest AVPs for
what a wildcard asks. Counts are small here, and definitions begin a line each. Messages are told apart by their lengths."""

import itertools
import math
import re
from dataclasses import dataclass, field

from formats import SIZES, of_data

LONGEST = 16777212
"""The most bytes of a message."""
OUTSIDE = 0
"""Stands for every key that neither dictionary knows."""
BELOW = [("DiameterIdentity", "UTF8String"), ("DiameterURI", "UTF8String"), ("Enumerated", "Integer32")]
"""Formats whose values are those of another."""
ANY_DATA = of_data("any")
SHORTEST = {"Address": 2, "DiameterIdentity": 1, "DiameterURI": 7, "UTF8String": 0, **{name: 0 for name in ANY_DATA}, **SIZES}


@dataclass
class Rule:
    fixed: bool
    key: int | None
    low: int
    high: float

    def sent(self):
        return counts(self.low, self.high)


@dataclass
class Definition:
    name: str
    rules: list
    app: int | None = None
    proxiable: bool = False
    selector: tuple = ()

    def rule(self, key):
        return next((rule for rule in self.rules if rule.key == key), None)

    def wildcard(self):
        return self.rule(None)

    def rank(self, key):
        fixed = [rule.key for rule in self.rules if rule.fixed]
        return fixed.index(key) if key in fixed else len(fixed)


@dataclass
class Entry:
    name: str
    format: str
    m: str
    listed: list | None = None
    group: Definition | None = None


@dataclass
class Dictionary:
    entries: dict = field(default_factory=dict)
    commands: list = field(default_factory=list)


def counts(low, high):
    if high == low:
        return str(low)
    return f"{low}..{'*' if high == math.inf else int(high)}"


def runs(ranges, others=()):
    """The numbers of the ranges that the others lack, as ranges in order, none of which touch."""
    ends = sorted({end for low, high in (*ranges, *others) for end in (low, high + 1)})
    found = []
    for low, behind in zip(ends, ends[1:]):
        if any(r[0] <= low <= r[1] for r in ranges) and not any(r[0] <= low <= r[1] for r in others):
            if found and found[-1][1] == low - 1:
                low = found.pop()[0]
            found.append((low, behind - 1))
    return " ".join(f"{low}" if low == high else f"{low}..{high}" for low, high in found)


def whole(format, listed):
    """A format with all numbers of its list."""
    return f"{format} ( {runs(listed)} )" if listed else format


def key_of(code, vendor):
    return code + (int(vendor or 0) << 32)


def head(key):
    return 12 if key >> 32 else 8


def read(text):
    """A dictionary whose definitions and declarations begin a line each."""
    text = re.sub(r";.*", "", text)
    parts = re.split(r"\n(?=%avp|<[^ >]*> ::=)", "\n" + text)
    found, names = Dictionary(), {"AVP": None}
    for part in parts:
        words = part.split()
        if words[:1] == ["%avp"]:
            vendor = words.pop(4) if words[3] == "vendor" and words.pop(3) else 0
            key = names[words[1]] = key_of(int(words[2]), vendor)
            listed = [tuple(map(int, (number.split("..") * 2)[:2])) for number in words[5:] if number not in "()"]
            found.entries[key] = Entry(words[1], words[3], words[4], listed or None)
        elif words:
            group = re.match(r"\s*<(\S*)> ::= < AVP Header: (\d+) ?(\d*) >", part)
            if group:
                names[group[1]] = key_of(int(group[2]), group[3])
    for part in parts:
        definition = re.match(r"\s*<(\S*)> ::= < (.*?) >(.*)", part, re.DOTALL)
        if not definition:
            continue
        name, first, tail = definition.groups()
        rules = []
        for low, star, high, bracket, member in re.findall(r"(?:(\d*)(\*)(\d*) )?\s*([<{\[]) (\S+) [>}\]]", tail):
            least = int(low) if low else (1 if bracket == "{" or bracket == "<" and not star else 0)
            most = (int(high) if high else math.inf) if star else 1
            rules.append(Rule(bracket == "<", names[member], least, most))
        if first.startswith("AVP Header"):
            entry = found.entries.setdefault(names[name], Entry(name, "Grouped", "any"))
            entry.group = Definition(name, rules)
        else:
            code, *flags = first.removeprefix("Diameter Header: ").split(", ")
            app = next((int(flag) for flag in flags if flag.isdigit()), None)
            found.commands.append(Definition(name, rules, app, "PXY" in flags, (code, "REQ" in flags)))
    return found


def padded(length):
    return (length + 3) // 4 * 4


class Model:
    def __init__(self, a, b, sends, policy):
        self.a, self.b, self.sends, self.policy = a, b, sends, policy
        self.keys = sorted(a.entries)
        if sends == "any":
            self.keys += sorted(set(b.entries) - set(a.entries)) + [OUTSIDE]
        self.cost = {key: head(key) if key not in a.entries else math.inf for key in self.keys}
        changed = True
        while changed:
            changed = False
            for key, entry in a.entries.items():
                if entry.group:
                    length = head(key) + self.least(entry.group)
                elif entry.listed == []:
                    length = math.inf
                else:
                    length = head(key) + padded(SHORTEST[entry.format])
                if length < self.cost[key]:
                    self.cost[key], changed = length, True

    # ---- least levels

    def is_open(self, definition):
        """Whether AVPs are sent by the wildcard."""
        wild = definition.wildcard()
        if not wild or self.sends == "listed":
            return False
        if self.sends == "filled":
            return wild.low == 0 < wild.high and all(rule.high == 0 for rule in definition.rules if rule.key is not None)
        return True

    def strangers(self, definition):
        """The keys that come through the wildcard."""
        if not self.is_open(definition):
            return []
        return [key for key in self.keys if not definition.rule(key)]

    def sends_level(self, definition, data):
        """Whether these AVPs, which are as A's rules say, come as A's side sends them, at every depth."""
        while data:
            vendor = data[16:24] if int(data[8:10], 16) & 128 else ""
            key, size = key_of(int(data[:8], 16), int(vendor or "0", 16)), int(data[10:16], 16)
            entry = self.a.entries.get(key)
            if not definition.rule(key) and not (self.is_open(definition) and (entry or self.sends == "any")):
                return False
            if entry and entry.group and not self.sends_level(entry.group, data[16 + len(vendor) : 2 * size]):
                return False
            data = data[2 * padded(size) :]
        return True

    def sends_message(self, message):
        """The same of a message of a command of A, in hexadecimal digits."""
        app = int(message[16:24], 16)
        named = [command for command in self.a.commands if command.app == app]
        command = (named or [command for command in self.a.commands if command.app is None] or [None])[0]
        return command is not None and self.sends_level(command, message[40:])

    def fill(self, n, keys):
        """The least length of n AVPs of these keys, where each may come any number of times."""
        return 0 if n <= 0 else n * min((self.cost[key] for key in keys), default=math.inf)

    def wild(self, definition):
        rule = definition.wildcard()
        return (rule.low, rule.high) if rule else (0, 0)

    def listed(self, definition, lows={}):
        """What the AVPs that rules list take, each at least so often."""
        total = 0
        for rule in definition.rules:
            if rule.key is not None:
                n = max(rule.low, lows.get(rule.key, 0))
                if n > rule.high:
                    return math.inf
                total += n * self.cost[rule.key] if n else 0
        return total

    def with_keys(self, definition, lows):
        """The least level with each of these keys at least so often."""
        keys = self.strangers(definition)
        outer = {key: n for key, n in lows.items() if not definition.rule(key) and n}
        low, high = self.wild(definition)
        n = sum(outer.values())
        if n > high or any(key not in keys for key in outer):
            return math.inf
        return self.listed(definition, lows) + sum(self.cost[key] * m for key, m in outer.items()) + self.fill(low - n, keys)

    def least(self, definition):
        return self.with_keys(definition, {})

    def at_most(self, definition, key, m):
        rule = definition.rule(key)
        if rule:
            return self.least(definition) if rule.low <= m else math.inf
        low, _ = self.wild(definition)
        keys = self.strangers(definition)
        others = [k for k in keys if k != key]
        mine = [key] if key in keys else []
        return self.listed(definition) + min(self.fill(j, mine) + self.fill(low - j, others) for j in range(min(m, low) + 1))

    def few_others(self, a, b, m):
        """At most m AVPs that b doesn't list."""
        left = m - sum(rule.low for rule in a.rules if rule.key is not None and not b.rule(rule.key))
        if left < 0:
            return math.inf
        keys = self.strangers(a)
        low, _ = self.wild(a)
        inner, outer = [k for k in keys if b.rule(k)], [k for k in keys if not b.rule(k)]
        return self.listed(a) + min(self.fill(j, outer) + self.fill(low - j, inner) for j in range(min(left, low) + 1))

    def many_others(self, a, b, m):
        """At least m AVPs that b doesn't list."""
        keys = self.strangers(a)
        low, high = self.wild(a)
        outer = [k for k in keys if not b.rule(k)]
        mine = [rule for rule in a.rules if rule.key is not None and not b.rule(rule.key)]
        steps = sorted(self.cost[rule.key] for rule in mine for _ in range(int(min(m, rule.high - rule.low))))
        best = math.inf
        for j in range(int(min(m, high)) + 1):
            more = max(0, m - sum(rule.low for rule in mine) - j)
            if more <= len(steps):
                best = min(best, self.fill(j, outer) + self.fill(low - j, keys) + sum(steps[:more]))
        return self.listed(a) + best

    # ---- lines

    def level_lines(self, a, b):
        """Reason, subject, detail and the least length of each way in which a level of a breaks the rules of b."""
        wild = b.wildcard()
        for rule in b.rules:
            if rule.key is not None and rule.low:
                yield "missing", rule.key, f"{self.sent(a, rule.key)} sent, {rule.sent()} accepted", self.at_most(a, rule.key, rule.low - 1)
        for rule in b.rules:
            if rule.key is not None and rule.high < math.inf:
                yield "too-many", rule.key, f"{self.sent(a, rule.key)} sent, {rule.sent()} accepted", self.with_keys(a, {rule.key: int(rule.high) + 1})
        if not wild:
            for rule in a.rules:
                if rule.key is not None and not b.rule(rule.key):
                    yield "not-allowed", rule.key, f"{rule.sent()} sent", self.with_keys(a, {rule.key: 1})
            others = [self.with_keys(a, {key: 1}) for key in self.strangers(a) if not b.rule(key)]
            if a.wildcard():
                yield "not-allowed", None, f"{a.wildcard().sent()} sent", min(others, default=math.inf)
        elif wild.low:
            yield "missing", None, f"{wild.sent()} accepted", self.few_others(a, b, wild.low - 1)
        if wild and wild.high < math.inf:
            yield "too-many", None, f"{wild.sent()} accepted", self.many_others(a, b, int(wild.high) + 1)
        keys = {rule.key for rule in a.rules if rule.key is not None} | set(self.strangers(a))
        for y in [rule.key for rule in b.rules if rule.fixed]:
            before = [x for x in keys if x != y and a.rank(x) <= a.rank(y) and b.rank(x) > b.rank(y)]
            yield "order", y, "", min((self.with_keys(a, {x: 1, y: 1}) for x in before), default=math.inf) if y in keys else math.inf

    def sent(self, a, key):
        rule = a.rule(key)
        if rule:
            return rule.sent()
        is_sent = key in self.strangers(a) and self.cost[key] < math.inf
        return counts(0, a.wildcard().high) if is_sent else "0"

    def own_lines(self, key):
        """Of each way in which an AVP of the key breaks by itself: reason, detail, and what the AVP takes. And whether it is undecided."""
        mine, other = self.a.entries.get(key), self.b.entries.get(key)
        least, found = self.cost[key], []
        m = mine.m if mine else "mustnot"
        if not other:
            if self.policy == "refused":
                found.append(("unknown", "sent, not known", least))
            elif m != "mustnot":
                found.append(("unknown", "M set sent, not known", least))
            return found
        if other.m == "must" and m != "must":
            found.append(("m-bit", "M clear sent, M set accepted", least))
        if other.m == "mustnot" and m != "mustnot":
            found.append(("m-bit", "M set sent, M clear accepted", least))
        data = self.breaking_data(mine, other)
        if data is not None:
            length, detail = data[0] + head(key), data[1]
            found.append(("undecided" if self.is_undecided(mine, other) else "format", detail, length))
        return found

    def meaning(self, key):
        """Of an AVP whose data B accepts, and reads as another format: both formats."""
        mine, other = self.a.entries.get(key), self.b.entries.get(key)
        if not mine or not other or {mine.m, other.m} == {"must", "mustnot"} or self.breaking_data(mine, other) is not None:
            return None
        f, g = mine.format, other.format
        are_leaves = not mine.group and not other.group
        if f == g or are_leaves and (g == "OctetString" or (f, g) in BELOW):
            return None
        return f"{whole(f, mine.listed)} sent, {whole(g, other.listed)} read"

    def is_undecided(self, mine, other):
        """The least level of a group is data of B's leaf: an AVP's first two bytes are 0 here, and its data are ASCII."""
        if not mine or not mine.group:
            return False
        level = self.least(mine.group)
        if other.format == "Address":
            return level > 0
        return other.format == "UTF8String" or SIZES.get(other.format) == 8 and level == 8

    def are_addresses(self, definition):
        """Each level is an Address: it isn't empty, and no AVP of it has a code whose first two bytes are 1 or 2."""
        keys = [rule.key for rule in definition.rules if rule.key is not None] + self.strangers(definition)
        has_family = any(key != OUTSIDE and (key & 0xffffffff) >> 16 in (1, 2) or key == OUTSIDE for key in keys)
        return any(rule.low for rule in definition.rules) and not has_family

    def breaking_data(self, mine, other):
        f, g = mine.format if mine else "any data", other.format
        listed = mine.listed if mine else None
        words = f"{whole(f, listed)} sent, {whole(g, other.listed)} accepted"
        if g in ANY_DATA or f == g == "Grouped":
            return None
        if f == "Grouped":
            return None if g == "Address" and self.are_addresses(mine.group) else (self.least(mine.group), words)
        if g == "Grouped":
            size = SHORTEST.get(f, 0)
            return padded(max(size, 0 if any(rule.low for rule in other.group.rules) else 1)), words
        if f in ANY_DATA or f == "any data":
            return (4 if g == "UTF8String" else 0), words
        if f == "UTF8String":
            return None if g == f else (0, words)
        if f == "DiameterIdentity":
            return None if g in (f, "UTF8String") else (4, words)
        if f == "DiameterURI":
            return None if g in (f, "DiameterIdentity", "UTF8String", "Address") else (8, words)
        if f == "Address":
            return None if g == f else (4, words)
        if SIZES[f] == 8:
            return None if SIZES.get(g) == 8 else (8, words)
        return self.breaking_number(listed, g, other.listed, words)

    def breaking_number(self, listed, g, accepted, words):
        numbers = lambda: (n for low, high in (listed or [(0, 2**32 - 1)]) for n in range(low, high + 1))
        if g in SIZES and SIZES[g] == 4:
            if not accepted:
                return None
            first = next((n for n in numbers() if not any(low <= n <= high for low, high in accepted)), None)
            if first is None:
                return None
            return 4, f"{runs(listed, accepted)} sent, not in the list" if listed else words
        for n in numbers():
            data = n.to_bytes(4, "big")
            if not is_data(g, data):
                return 4, words
        return None

    # ---- sites

    def lines(self, command):
        """The lines of a command, those of meanings too: the key of each is path, reason and subject; its value the detail and the
        message's length."""
        found = {}
        starts = []
        for path, app, b in self.selected(command):
            if 20 + self.least(command) > LONGEST:
                continue
            if b is None:
                found[path, app, None] = ("not accepted", 20 + self.least(command))
            else:
                if command.proxiable != b.proxiable:
                    found[path, "proxiable", None] = (f"P {'set' if command.proxiable else 'clear'} sent", 20 + self.least(command))
                starts.append((path, b))
        best = {}
        for path, b in starts:
            self.add_levels(best, path, 0, command, b)
        levels, reached = self.walk(starts[0][0], command) if starts else ([], {})
        for path, way, a, key in levels[1:]:
            self.add_levels(best, path, way, a, self.b.entries[key].group)
        for key, (way, _, level) in reached.items():
            path, beside = levels[level][0], 20 + way - self.cost[key]
            for reason, detail, length in self.own_lines(key):
                self.add(best, (None, reason, key), path, detail, beside + length)
            if self.meaning(key):
                self.add(best, (None, "meaning", key), path, self.meaning(key), 20 + way)
        for (_, reason, key), (path, detail, length) in best.items():
            found[path, reason, key] = (detail, length)
        return found

    def ignored(self, command):
        """Of each level that both sides read the definitions, and the keys that A's lists and B's takes by its wildcard alone, but
        not those of AVPs that break by themselves."""
        broken = {key for _, reason, key in self.lines(command) if reason in ("unknown", "m-bit", "format", "undecided")}
        starts = [(path, b) for path, _, b in self.selected(command) if b is not None and 20 + self.least(command) <= LONGEST]
        pairs = [(command, b) for _, b in starts]
        if starts:
            levels, _ = self.walk(starts[0][0], command)
            pairs += [(a, self.b.entries[key].group) for _, _, a, key in levels[1:]]
        for a, b in pairs:
            if b.wildcard() and b.wildcard().high > 0:
                for rule in a.rules:
                    if rule.key is not None and rule.high > 0 and not b.rule(rule.key) and rule.key not in broken:
                        yield a, b, rule.key

    def corresponds(self, a, b):
        """Whether the definitions, of which A's and B's sides read one level, are of one group or of commands that correspond."""
        if a not in self.a.commands:
            return True
        same = next((d for d in self.b.commands if (d.selector, d.app) == (a.selector, a.app)), None)
        named = next((d for d in self.b.commands if d.name == a.name), None)
        if same is None and named and all((d.selector, d.app) != (named.selector, named.app) for d in self.a.commands):
            same = named
        return b is same

    def walk(self, start, command):
        """The levels that both sides read, in the order of their lines: path, what is around one, definition of A, and key. And for
        each key the first of its shortest ways: its length, whether it goes through a wildcard, and the number of its level."""
        keys = [*self.a.entries, *(key for key in self.keys if key not in self.a.entries)]
        levels, reached, wild = [(start, 0, command, None)], {}, [False]
        groups = [key for key in keys if all(key in d.entries and d.entries[key].group for d in (self.a, self.b))]
        for number in itertools.count():
            path, way, a, _ = levels[number]
            for key in [rule.key for rule in a.rules if rule.key is not None] + self.strangers(a):
                found = (way + self.with_keys(a, {key: 1}), wild[number] or not a.rule(key), number)
                if 20 + found[0] <= LONGEST and (key not in reached or found < reached[key]):
                    reached[key] = found
            left = [(reached[key][0] - self.cost[key] + head(key), keys.index(key), key) for key in groups if key in reached]
            if not left:
                return levels, reached
            way, _, key = min(left)
            groups.remove(key)
            _, is_wild, outer = reached[key]
            levels.append((f"{levels[outer][0]}/{self.name(key)}", way, self.a.entries[key].group, key))
            wild.append(is_wild)

    def add_levels(self, best, path, way, a, b):
        for reason, key, detail, length in self.level_lines(a, b):
            self.add(best, (id(b), reason, key), path, detail, 20 + way + length)

    def add(self, best, key, path, detail, length):
        if length <= LONGEST and (key not in best or length < best[key][2]):
            best[key] = (path, detail, length)

    def name(self, key):
        """A's name, else B's, but for the name of another AVP of A, else `AVP`."""
        entry = self.a.entries.get(key) or self.b.entries.get(key)
        if entry and key not in self.a.entries and any(other.name == entry.name for other in self.a.entries.values()):
            return f"{key[0]}:{key[1]}"
        return entry.name if entry else "AVP"

    def flag_for(self, request, code, app):
        """The P flag of the definition of B that messages of the code and the application select."""
        others = [d for d in self.b.commands if d.selector == (str(code), request)]
        own = [d for d in others if d.app == app] or [d for d in others if d.app is None]
        return own[0].proxiable

    def selected(self, command):
        """Of each header that tells of others: the path, the reason where no definition is selected, else the definition."""
        mine, others = ([d for d in one.commands if d.selector == command.selector] for one in (self.a, self.b))
        own = next((d for d in others if d.app is None), None)
        named = {d.app for d in mine}
        if command.app is not None:
            b = next((d for d in others if d.app == command.app), own)
            yield command.name, self.refusal(others, command.app) if b is None else None, b
            new = [d for d in others if d.app not in named]
            if b is None and len(new) == 1:
                yield f"{command.name}[application {new[0].app}]", None, new[0]
            return
        for d in others:
            if d.app is not None and d.app not in named:
                yield f"{command.name}[application {d.app}]", None, d
        free = next(n for n in itertools.count() if n not in named and all(d.app != n for d in others))
        yield command.name, self.refusal(others, free) if own is None else None, own

    def refusal(self, others, app):
        return f"application {app}" if others else "command"


def is_data(g, data):
    if g == "UTF8String":
        try:
            return data.decode() is not None
        except UnicodeDecodeError:
            return False
    if g == "Address":
        return int.from_bytes(data[:2], "big") not in (1, 2)
    return g == "DiameterIdentity" and all(0x21 <= byte <= 0x7E for byte in data)
