"""What a change changes, as hunks: what `review` reads otherwise, and not runs of text.

A configuration is read into what the rules know of it: interfaces by aspect, access lists as sequences of entries, routes by prefix, rules
of translation. So a list that is numbered anew, a numbered list that is written as a named one, and routes in another order are no change.
A hunk is the least part of a change that can be taken back by itself. Lines that the programs pass over say nothing to the rules: they are
told apart and never taken back.

The words that are read here, and what they mean, are those of docs/REFUSALS.md and docs/DEFINITIONS.md. The networks are accepted already:
nothing is refused here.
"""
from __future__ import annotations

import re
from bisect import bisect_left
from collections import Counter
from dataclasses import dataclass, field
from difflib import SequenceMatcher
from typing import Callable, Hashable, Iterable, Mapping, NamedTuple, Sequence, TypeVar

ASPECTS = ("address", "shut", "list in", "list out", "side")
LINKS = "links"  # where the device of a hunk stands, for the lines of a link table

# A run of a list with more changed entries is one hunk, and a device's lists, routes and rules have at most as many hunks each.
MOST = 16
# How much of two entries has to be alike for one to stand in the place of the other, and of how many pairs at most that is looked at.
ALIKE = 0.6
MOST_PAIRS = 10_000


class Text(NamedTuple):
    """A line of a file: where it stands, counted from 1, and its words with a blank between each two."""

    path: str
    number: int
    words: str


class Own(NamedTuple):
    """What the engineer's own file has of an entry that is read with another number: the number on the device, the place of the line, and
    its words. Such a line may be read as several entries, as one with object groups."""

    number: int
    place: tuple[str, int]
    words: str


class Entry(NamedTuple):
    """An entry of an access list: its sequence number, its words without it, the line that writes it, and the engineer's own one."""

    sequence: int
    words: str
    line: Text
    own: Own | None = None


@dataclass
class AccessList:
    """An access list with its entries in the order of their numbers. A list that isn't extended is a standard one."""

    extended: bool
    entries: list[Entry] = field(default_factory=list)
    remarks: list[Text] = field(default_factory=list)


@dataclass
class Interface:
    """The section of an interface: the lines of each aspect, and which of them count in the end."""

    header: Text
    written: dict[str, list[Text]] = field(default_factory=dict)
    counting: dict[str, list[Text]] = field(default_factory=dict)

    def read(self, line: Text) -> bool:
        """Takes one more line of the section; whether it says something to the rules."""
        words = line.words.split(" ")
        aspect = aspect_of(words)
        if aspect is None:
            return False
        self.written.setdefault(aspect, []).append(line)
        if words[0] == "no":
            self.counting[aspect] = []
        elif words[-1] == "secondary":
            self.counting.setdefault(aspect, []).append(line)
        elif aspect == "address":
            secondary = [other for other in self.counting.get(aspect, []) if other.words.endswith(" secondary")]
            self.counting[aspect] = [line, *secondary]
        else:
            self.counting[aspect] = [line]
        return True

    def says(self, aspect: str) -> list[str]:
        """The aspect as it is written canonically."""
        return [line.words for line in self.counting.get(aspect, [])]

    def is_up(self) -> bool:
        """Whether it has an address and isn't shut."""
        return bool(self.counting.get("address")) and not self.counting.get("shut")


@dataclass
class Device:
    """What the rules know of a device, and by the section in which they stand the lines that are passed over."""

    name: str
    path: str
    head: Text
    interfaces: dict[str, Interface] = field(default_factory=dict)
    lists: dict[str, AccessList] = field(default_factory=dict)
    routes: list[Text] = field(default_factory=list)
    rules: list[Text] = field(default_factory=list)
    passed: dict[str, list[Text]] = field(default_factory=dict)


@dataclass(frozen=True)
class Hunk:
    """A part of a change. `section` says where it stands on its device, as `interface Vlan10`, `list USERS`, `route 10.0.0.0 255.0.0.0`,
    `translation`, `device` or `links`, and `aspect` which aspect of an interface it is, or else its section's first word. `nets` are the
    subnets that an interface has in either network."""

    number: int
    device: str
    section: str
    aspect: str
    old: tuple[Text, ...]
    new: tuple[Text, ...]
    nets: tuple[str, ...] = ()

    def lines(self) -> tuple[Text, ...]:
        return self.old + self.new


class Slot(NamedTuple):
    """A part of a device's canonical text: its lines in both networks, and the hunk that says which. No hunk where they are equal."""

    section: tuple[str, ...]
    old: tuple[str, ...]
    new: tuple[str, ...]
    hunk: int | None


# ---- reading


def words_of(text: str) -> list[str]:
    """The words of a line: what stands between blanks, tabs and carriage returns."""
    return re.findall(r"[^ \t\r]+", text)


def aspect_of(words: Sequence[str]) -> str | None:
    """Which aspect of its interface a line is about; None for a line that says nothing to the rules."""
    if words in (["shutdown"], ["no", "shutdown"]):
        return "shut"
    if words[:2] == ["ip", "access-group"] and words[3:] in (["in"], ["out"]):
        return "list " + words[3]
    if words in (["ip", "nat", "inside"], ["ip", "nat", "outside"]):
        return "side"
    return "address" if words[:2] == ["ip", "address"] or words == ["no", "ip", "address"] else None


def texts_of(path: str) -> list[str]:
    """The lines of a file as they stand, whatever their bytes are."""
    with open(path, encoding="utf-8", errors="surrogateescape", newline="\n") as stream:
        return stream.read().split("\n")


def is_extended(number: str) -> bool:
    """Whether a list of this number is extended (IOS: access-list)."""
    return 100 <= int(number) <= 199 or 2000 <= int(number) <= 2699


class Reader:
    """Reads one configuration, line by line."""

    def __init__(self, path: str, passed: frozenset[int]) -> None:
        self.device = Device("", path, Text(path, 0, ""))
        self.passed = passed
        self.section = ""
        self.open: Interface | AccessList | None = None

    def read(self) -> Device:
        for number, text in enumerate(texts_of(self.device.path), 1):
            words = words_of(text)
            if words and (number in self.passed or not words[0].startswith("!")):
                self.take(Text(self.device.path, number, " ".join(words)), words, text[0] in " \t")
        for each in self.device.lists.values():
            each.entries.sort(key=lambda entry: entry.sequence)
        return self.device

    def take(self, line: Text, words: list[str], indented: bool) -> None:
        if not indented:
            self.section, self.open = "", None
        if line.number in self.passed:
            self.device.passed.setdefault(self.section, []).append(line)
            if not indented:
                self.section = line.words
        elif not indented:
            self.take_global(line, words)
        elif isinstance(self.open, Interface):
            if not self.open.read(line):
                self.device.passed.setdefault(self.section, []).append(line)
        elif isinstance(self.open, AccessList):
            add_entry(self.open, line, words)

    def take_global(self, line: Text, words: list[str]) -> None:
        device = self.device
        self.section = line.words
        if words[0] == "hostname":
            device.name, device.head = words[1], line
        elif words[0] == "interface" and words[1] != "Null0":
            self.section = "interface " + words[1]
            self.open = device.interfaces.setdefault(words[1], Interface(line))
        elif words[0] == "access-list":
            add_entry(device.lists.setdefault(words[1], AccessList(is_extended(words[1]))), line, words[2:])
        elif words[:2] == ["ip", "access-list"]:
            self.open = device.lists.setdefault(words[3], AccessList(words[2] == "extended"))
        elif words[:2] == ["ip", "route"]:
            device.routes.append(line)
        elif words[:2] == ["ip", "nat"]:
            device.rules.append(line)


def add_entry(access_list: AccessList, line: Text, words: list[str]) -> None:
    """Adds an entry under its number, or behind the others. A remark is none."""
    entries = access_list.entries
    sequence = max(entry.sequence for entry in entries) + 10 if entries else 10
    if words[0].isdigit():
        sequence, words = int(words[0]), words[1:]
    if words[0] == "remark":
        access_list.remarks.append(line)
    else:
        entries.append(Entry(sequence, " ".join(words), line))


def read_device(path: str, passed: Iterable[int] = ()) -> Device:
    """What the rules know of the configuration, of which these lines are passed over."""
    return Reader(path, frozenset(passed)).read()


def read_links(path: str) -> tuple[list[Text], list[Text]]:
    """The lines of a link table that join interfaces, and those that say where packets enter."""
    lines = [Text(path, number, " ".join(words_of(text))) for number, text in enumerate(texts_of(path), 1)]
    lines = [line for line in lines if line.words and not line.words.startswith("!")]
    segments = [line for line in lines if not line.words.startswith("ingress ")]
    return segments, [line for line in lines if line.words.startswith("ingress ")]


# ---- what belongs together

Item = TypeVar("Item")


def classes(items: Iterable[Item], keys: Callable[[Item], Iterable[Hashable]]) -> list[list[Item]]:
    """The items in classes, in order: those that share a key are together."""
    number_of: dict[Hashable, int] = {}
    found: dict[int, list[Item]] = {}
    for number, item in enumerate(items):
        mine = list(keys(item))
        touched = sorted({number_of[key] for key in mine if key in number_of})
        home = touched[0] if touched else number
        for other in touched[1:]:
            found[home] += found.pop(other)
            number_of.update((key, home) for key, owner in list(number_of.items()) if owner == other)
        found.setdefault(home, []).append(item)
        number_of.update((key, home) for key in mine)
    return list(found.values())


def route_keys(line: Text) -> list[Hashable]:
    """The prefix of a route: routes of one prefix decide together."""
    return [tuple(line.words.split()[2:4])]


def rule_keys(line: Text) -> list[Hashable]:
    """The sides of a rule of translation: two rules of one kind that share one can't stand together (NatClash)."""
    words = [word for word in line.words.split() if word != "extendable"]
    if words[2] == "outside":
        return [("outer", "local", words[6]), ("outer", "global", words[5])]
    if words[5] in ("tcp", "udp"):
        return [(words[5], "local", words[6], words[7]), (words[5], "global", words[8], words[9])]
    return [("plain", "local", words[5]), ("plain", "global", words[6])]


def link_keys(line: Text) -> list[Hashable]:
    """The ends of a link: an interface is on one segment."""
    words = line.words.split()[1:]
    return list(zip(words[::2], words[1::2]))


def unlike(lines: Iterable[Text], others: Iterable[Text]) -> list[Text]:
    """The lines whose words the others don't have, as often as they are there more often."""
    left = Counter(line.words for line in others)
    found = []
    for line in lines:
        if left[line.words]:
            left[line.words] -= 1
        else:
            found.append(line)
    return found


class Run(NamedTuple):
    """Entries of the old list that others of the new one stand for."""

    old: tuple[Entry, ...]
    new: tuple[Entry, ...]

    def is_equal(self) -> bool:
        return [entry.words for entry in self.old] == [entry.words for entry in self.new]


def anchors(old: Sequence[str], new: Sequence[str]) -> list[tuple[int, int]]:
    """The longest series of items that each list has once and both in one order, as pairs of places, in time for long lists. Of two that
    change their places the first one stays."""
    counts = Counter(old), Counter(new)
    place = {words: number for number, words in enumerate(new) if counts[1][words] == 1 and counts[0][words] == 1}
    # (from the end, with places counted down: the series that is found is the one that comes last)
    pairs = [(number, -place[old[number]]) for number in reversed(range(len(old))) if old[number] in place]
    ends: list[int] = []  # the least place at which a series of each length ends
    last: list[int] = []  # and the pair that ends it
    before: list[int] = []
    for number, (_, k) in enumerate(pairs):
        length = bisect_left(ends, k)
        before.append(last[length - 1] if length else -1)
        ends[length:length + 1], last[length:length + 1] = [k], [number]
    found, number = [], last[-1] if last else -1
    while number >= 0:
        found.append((pairs[number][0], -pairs[number][1]))
        number = before[number]
    return found


def runs_of(old: Sequence[Entry], new: Sequence[Entry], most: int) -> list[Run]:
    """Two lists side by side, by the order of their entries and not by their numbers."""
    words = [entry.words for entry in old], [entry.words for entry in new]
    found: list[Run] = []
    changed: tuple[list[Entry], list[Entry]] = ([], [])

    def close() -> None:
        run = Run(tuple(changed[0]), tuple(changed[1]))
        found.extend([run] if len(run.old) + len(run.new) > most else paired(run))
        changed[0].clear()
        changed[1].clear()

    i = k = 0
    for j, m in [*anchors(*words), (len(old), len(new))]:
        matcher = SequenceMatcher(None, words[0][i:j], words[1][k:m], autojunk=False)
        for tag, a, b, c, d in matcher.get_opcodes():
            if tag == "equal":
                close()
                found.append(Run(tuple(old[i + a:i + b]), tuple(new[k + c:k + d])))
            else:
                changed[0].extend(old[i + a:i + b])
                changed[1].extend(new[k + c:k + d])
        if j < len(old):
            close()
            found.append(Run((old[j],), (new[m],)))
        i, k = j + 1, m + 1
    close()
    return found


def paired(run: Run) -> list[Run]:
    """A run in parts: a removed entry and the added one that is most like it, in order, are one, and others are alone."""
    old, new = run
    if len(old) * len(new) > MOST_PAIRS:
        return [Run((entry,), ()) for entry in old] + [Run((), (entry,)) for entry in new]
    like = [[SequenceMatcher(None, a.words.split(), b.words.split()).ratio() for b in new] for a in old]
    # best[i][k] is how alike the pairs of the entries from i and k on can be, in all.
    best = [[0.0] * (len(new) + 1) for _ in range(len(old) + 1)]
    for i in reversed(range(len(old))):
        for k in reversed(range(len(new))):
            pair = like[i][k] + best[i + 1][k + 1] if like[i][k] >= ALIKE else 0.0
            best[i][k] = max(best[i + 1][k], best[i][k + 1], pair)
    found, i, k = [], 0, 0
    while i < len(old) or k < len(new):
        if i < len(old) and k < len(new) and like[i][k] >= ALIKE and best[i][k] == like[i][k] + best[i + 1][k + 1]:
            found.append(Run((old[i],), (new[k],)))
            i, k = i + 1, k + 1
        elif i < len(old) and (k == len(new) or best[i][k] == best[i + 1][k]):
            found.append(Run((old[i],), ()))
            i += 1
        else:
            found.append(Run((), (new[k],)))
            k += 1
    return found


def in_order(classes_: Sequence[list[Item]], most: int) -> list[list[Item]]:
    """The same classes, where they are more than `most`, as so many of neighbours."""
    if len(classes_) <= most:
        return list(classes_)
    size = -(-len(classes_) // most)
    return [[item for one in classes_[start:start + size] for item in one] for start in range(0, len(classes_), size)]


# ---- a change


@dataclass
class Change:
    """The hunks of a change, the canonical text of each device that it touches in parts, and the lines that are passed over. With `finer`
    each line is a hunk, however many there are."""

    old: dict[str, Device]
    new: dict[str, Device]
    finer: bool = False
    hunks: list[Hunk] = field(default_factory=list)
    slots: dict[str, list[Slot]] = field(default_factory=dict)
    links: list[Slot] = field(default_factory=list)
    ingresses: list[str] = field(default_factory=list)
    passed: list[Hunk] = field(default_factory=list)
    unread: list[Hunk] = field(default_factory=list)  # lines that say what was so already

    def __post_init__(self) -> None:
        for name in sorted({*self.old, *self.new}):
            old, new = self.old.get(name), self.new.get(name)
            if old is None or new is None:
                self.compare_whole(name, old, new)
            else:
                self.compare(name, old, new)

    @property
    def most(self) -> int:
        return 1 << 30 if self.finer else MOST

    def hunk(self, device: str, section: str, aspect: str, old: Iterable[Text], new: Iterable[Text], nets: tuple[str, ...] = ()) -> int:
        """One more hunk; its number."""
        self.hunks.append(Hunk(len(self.hunks), device, section, aspect, tuple(old), tuple(new), nets))
        return len(self.hunks) - 1

    def compare_whole(self, name: str, old: Device | None, new: Device | None) -> None:
        """A device of one network alone is one hunk. Where it isn't, a device without anything stands, so that links may name it."""
        slots = self.slots[name] = []
        number = self.hunk(name, "device", "device", [old.head] if old else [], [new.head] if new else [])

        def put(section: tuple[str, ...], lines: Iterable[str]) -> None:
            slots.append(Slot(section, tuple(lines) if old else (), tuple(lines) if new else (), number))

        device = old or new
        assert device is not None
        for interface in device.interfaces:
            put(("interface", interface, ""), ["interface " + interface])
            for aspect in ASPECTS:
                put(("interface", interface, aspect), device.interfaces[interface].says(aspect))
        for key, access_list in device.lists.items():
            put(("list", key, kind_of(access_list)), [entry.words for entry in access_list.entries])
        put(("route",), [line.words for line in device.routes])
        put(("translation",), [line.words for line in device.rules])

    def compare(self, name: str, old: Device, new: Device) -> None:
        slots = self.slots[name] = []
        for interface in dict.fromkeys([*old.interfaces, *new.interfaces]):
            self.compare_interface(slots, name, interface)
        for key in dict.fromkeys([*old.lists, *new.lists]):
            self.compare_list(slots, name, key, old.lists.get(key), new.lists.get(key))
        self.compare_lines(slots, name, "route", (old.routes, new.routes), route_keys)
        self.compare_lines(slots, name, "translation", (old.rules, new.rules), rule_keys)
        for section in dict.fromkeys([*old.passed, *new.passed]):
            self.pass_over(self.passed, name, section, old.passed.get(section, []), new.passed.get(section, []))

    def pass_over(self, into: list[Hunk], name: str, section: str, old: list[Text], new: list[Text], aspect: str = "passed over") -> None:
        """Lines that say nothing to the rules, where they differ: a new one stands for an old one that begins with the same word."""
        gone = unlike(old, new)
        for line in unlike(new, old):
            other = next((one for one in gone if one.words.split(" ")[0] == line.words.split(" ")[0]), None)
            if other is not None:
                gone.remove(other)
            into.append(Hunk(-1, name, section, aspect, (other,) if other else (), (line,)))
        into += [Hunk(-1, name, section, aspect, (line,), ()) for line in gone]

    def compare_interface(self, slots: list[Slot], name: str, interface: str) -> None:
        """Each aspect of an interface is a hunk; that it is there at all goes with its address."""
        old, new = self.old[name].interfaces.get(interface), self.new[name].interfaces.get(interface)
        section = "interface " + interface
        nets = tuple(sorted({network_of(words) for face in (old, new) if face for words in face.says("address")}))
        for aspect in ASPECTS:
            says = tuple(old.says(aspect) if old else []), tuple(new.says(aspect) if new else [])
            written = (old.written.get(aspect, []) if old else []), (new.written.get(aspect, []) if new else [])
            heads = ([old.header] if old and not new else []), ([new.header] if new and not old else [])
            number = None
            if says[0] != says[1] or aspect == "address" and (heads[0] or heads[1]):
                beside = heads if aspect == "address" else ([], [])
                told = unlike(*written), unlike(*reversed(written))
                if not any(told + beside):
                    told = (old.counting.get(aspect, []) if old else []), (new.counting.get(aspect, []) if new else [])
                number = self.hunk(name, section, aspect, beside[0] + told[0], beside[1] + told[1], nets)
            else:
                self.pass_over(self.unread, name, section, *written, aspect)
            if aspect == "address":
                there = (section,)
                slots.append(Slot(("interface", interface, ""), there if old else (), there if new else (), number))
            slots.append(Slot(("interface", interface, aspect), *says, number))

    def compare_list(self, slots: list[Slot], name: str, key: str, old: AccessList | None, new: AccessList | None) -> None:
        """Runs of entries. An entry that moves joins its two places, as do entries of one line of the engineer's; a list that is new or
        gone, or of the other kind, is one hunk."""
        self.pass_over(self.unread, name, "list " + key, old.remarks if old else [], new.remarks if new else [], "remark")
        before, after = (old.entries if old else []), (new.entries if new else [])
        if old and new and old.extended != new.extended:
            number = self.hunk(name, "list " + key, "list", [entry.line for entry in before], [entry.line for entry in after])
            slots.append(Slot(("list", key, kind_of(old)), tuple(entry.words for entry in before), (), number))
            slots.append(Slot(("list", key, kind_of(new)), (), tuple(entry.words for entry in after), number))
            return
        kind = kind_of(old or new)
        whole = not before or not after
        runs = [Run(tuple(before), tuple(after))] if whole else runs_of(before, after, self.most)
        changed = [number for number, run in enumerate(runs) if not run.is_equal()]
        removed = {entry.words for number in changed for entry in runs[number].old}
        added = {entry.words for number in changed for entry in runs[number].new}

        def keys(number: int) -> list[Hashable]:
            old, new = runs[number]
            places = [entry.own.place for entry in (*old, *new) if entry.own]
            return [number, *places, *(entry.words for entry in old if entry.words in added),
                    *(entry.words for entry in new if entry.words in removed)]

        number_of: dict[int, int] = {}
        for together in in_order(classes(changed, keys), self.most):
            parts = [runs[number] for number in sorted(together)]
            hunk = self.hunk(name, "list " + key, "list", [entry.line for run in parts for entry in run.old],
                             [entry.line for run in parts for entry in run.new])
            number_of.update((number, hunk) for number in together)
        for number, run in enumerate(runs):
            slots.append(Slot(("list", key, kind), tuple(entry.words for entry in run.old), tuple(entry.words for entry in run.new),
                              number_of.get(number)))

    def compare_lines(self, slots: list[Slot], name: str, section: str, sides: tuple[list[Text], list[Text]],
                      keys: Callable[[Text], Iterable[Hashable]]) -> None:
        """Lines whose order says nothing: those that share a key are one hunk."""
        old, new = unlike(*sides), unlike(*reversed(sides))
        come = {id(line) for line in new}
        kept = tuple(line.words for line in sides[1] if id(line) not in come)
        slots.append(Slot((section,), kept, kept, None))
        for together in self.gathered(classes(old + new, keys), section):
            gone = [line for line in together if id(line) not in come]
            here = [line for line in together if id(line) in come]
            where = " ".join(["route", *together[0].words.split()[2:4]]) if section == "route" else section
            number = self.hunk(name, where, section, gone, here)
            slots.append(Slot((section,), tuple(line.words for line in gone), tuple(line.words for line in here), number))

    def gathered(self, together: list[list[Text]], section: str) -> list[list[Text]]:
        """The classes of a device's lines, which may be many: then routes whose ways change alike are one hunk, and of what is still too
        many neighbours are."""
        if len(together) <= self.most:
            return together
        if section == "route":
            ways: dict[Hashable, list[Text]] = {}
            for lines in together:
                way = tuple(sorted((line.path, *line.words.split()[4:]) for line in lines))
                ways.setdefault(way, []).extend(lines)
            together = list(ways.values())
        return in_order(together, self.most)

    def compare_links(self, old: str, new: str) -> None:
        """The lines of both tables. What says where packets enter is no hunk: both networks are looked at from there."""
        tables = read_links(old), read_links(new)
        self.ingresses = list(dict.fromkeys(line.words for _, ingresses in tables for line in ingresses))
        self.compare_lines(self.links, LINKS, LINKS, (tables[0][0], tables[1][0]), link_keys)


def kind_of(access_list: AccessList | None) -> str:
    """How the kind of a list is written."""
    return "extended" if access_list is not None and access_list.extended else "standard"


# ---- what is told together


def network_of(words: str) -> str:
    """A line of an interface, with its subnet in the place of its address."""
    parts = words.split()
    if parts[:2] == ["ip", "address"] and len(parts) > 3:
        address, mask = ([int(part) for part in text.split(".")] for text in parts[2:4])
        return " ".join(["subnet", ".".join(str(a & m) for a, m in zip(address, mask)), *parts[3:]])
    return words


def bundle_key(hunk: Hunk) -> Hashable:
    """What an engineer calls one line on several devices: the same prefix, the same entries of a list of one name, the same aspect and
    subnet of an interface of one name."""
    if hunk.aspect == "route":
        return hunk.section, bool(hunk.old), bool(hunk.new)
    if hunk.aspect == "list":
        entries = [tuple(entry_words(line.words) for line in lines) for lines in (hunk.old, hunk.new)]
        return hunk.section, *entries
    if hunk.number < 0:
        return hunk.section, hunk.aspect
    if hunk.section.startswith("interface "):
        lines = [tuple(sorted(network_of(line.words) for line in some)) for some in (hunk.old, hunk.new)]
        return hunk.section, hunk.aspect, hunk.nets, *lines
    return hunk.number


def entry_words(words: str) -> str:
    """The words of an entry's line without its number, or the list's name that may stand before it."""
    return re.sub(r"^(access-list \S+ )?([0-9]+ )?", "", words)


def bundles_of(hunks: Sequence[Hunk], finer: bool = False) -> list[list[Hunk]]:
    """The hunks that are told together, in order."""
    found: dict[Hashable, list[Hunk]] = {}
    for hunk in hunks:
        found.setdefault(hunk.number if finer else bundle_key(hunk), []).append(hunk)
    return list(found.values())


def change_of(old: Mapping[str, Device], new: Mapping[str, Device], tables: Sequence[str], finer: bool = False) -> Change:
    """The change between devices by their names, those that differ at all, under one link table or one for each network."""
    change = Change(dict(old), dict(new), finer)
    change.compare_links(tables[0], tables[-1])
    return change
