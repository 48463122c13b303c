"""Why lines of access lists have no effect, as `rollout audit` shows it."""
from __future__ import annotations

import os
import re
import tempfile
from dataclasses import dataclass
from typing import Iterable, Sequence

from causes import Shown
from field_words import listed
from hunks import AccessList, Change, Device, Entry, Hunk, Text, entry_words
from jobs import answer_of
from rendering import write_text

# Destinations that a router never forwards: 224.0.0.0/4 and 240.0.0.0/4 (docs/DEFINITIONS.md), and all the others, as entries of a list.
MULTICAST = ("permit ip any 224.0.0.0 31.255.255.255",)
UNICAST = ("permit ip any 0.0.0.0 127.255.255.255", "permit ip any 128.0.0.0 63.255.255.255", "permit ip any 192.0.0.0 31.255.255.255")
# What routers themselves send and take there, by the words of an entry.
OF_ROUTERS = (
    (r"(permit|deny) (ospf|89) ", "OSPF"), (r"(permit|deny) (eigrp|88) ", "EIGRP"), (r"(permit|deny) (pim|103) ", "PIM"),
    (r"(permit|deny) (igmp|2) ", "IGMP"), (r"(permit|deny) 112 ", "VRRP"), (r" (bootps|bootpc|67|68)\b", "DHCP"), (r"\b1985\b", "HSRP"),
    (r" (rip|520)\b", "RIP"), (r" 224\.| 239\.", "multicast"), (r"\b255\.255\.255\.255$", "broadcast"),
)


def down(device: Device | None, interface: str) -> str:
    """Why an interface of a device that the change touches isn't up, and nothing where it is, or isn't known."""
    if device is None:
        return ""
    if interface not in device.interfaces:
        return "isn't there"
    face = device.interfaces[interface]
    if face.counting.get("shut"):
        return "is shut"
    return "" if face.counting.get("address") else "has no address"


def users_of(device: Device, key: str) -> list[str]:
    """The interfaces that name a list, each as often as it does."""
    return [name for name, face in device.interfaces.items() for aspect in ("list in", "list out")
            for words in face.says(aspect) if words.split()[2] == key]


def named(line: Text) -> str:
    """What routers send that an entry names, in brackets."""
    words = entry_words(line.words)
    found = [name for pattern, name in OF_ROUTERS if re.search(pattern, words + " ")]
    return " (%s)" % ", ".join(found) if found else ""


def words_of(line: Text, access_list: AccessList) -> str:
    """The words of the entry that a line writes, as they are read."""
    return next((entry.words for entry in access_list.entries if entry.line == line), entry_words(line.words))


def place(line: Text, shown: Shown, words: str | None = None) -> str:
    """A line with its place."""
    return "`%s` (%s)" % (words or line.words, shown(line.path, line.number))


@dataclass
class Lists:
    """Looks for the reasons of lines of lists. Lists that are asked about are written below the folder `work`, where audits can be made."""

    change: Change
    shown: Shown
    work: str
    audits: bool

    def place(self, line: Text, words: str | None = None) -> str:
        return place(line, self.shown, words)

    def of_list(self, hunk: Hunk) -> str:
        """Why a hunk of a list has no effect; nothing where no reason is found."""
        change, key = self.change, hunk.section.split(" ", 1)[1]
        device = change.new[hunk.device]
        users = users_of(device, key)
        if not users:
            said = [self.place(line) for lines in device.passed.values() for line in lines if key in line.words.split()]
            where = " in the new network" if users_of(change.old[hunk.device], key) else ""
            return "no interface names list %s%s" % (key, where) + ("; what names it is passed over: %s" % listed(said, 2) if said else "")
        closed = ["%s %s" % (name, down(device, name)) for name in users if down(device, name)]
        if len(closed) == len(users):
            return "list %s is on no interface that is up: %s" % (key, listed(closed, 2))
        if not self.audits:
            return ""
        old, new = change.old[hunk.device].lists.get(key), device.lists.get(key)
        same = self.same_words(hunk, old, new)
        found = [] if same else list(dict.fromkeys(self.of_entries(hunk.new, new) + self.of_entries(hunk.old, old)))
        return same or "; ".join(found[:2]) + (" and %d more" % (len(found) - 2) if len(found) > 2 else "")

    def same_words(self, hunk: Hunk, old: AccessList | None, new: AccessList | None) -> str:
        """Whether one entry stands for another that matches the same packets."""
        if not old or not new or len(hunk.old) != 1 or len(hunk.new) != 1 or old.extended != new.extended:
            return ""
        before, after = (words_of(line, access_list) for line, access_list in ((hunk.old[0], old), (hunk.new[0], new)))
        if before.split()[0] != after.split()[0]:
            return ""
        heads = [re.sub("^(permit|deny) ", "permit ", words) for words in (before, after)]
        both = all(self.judged(new.extended, [first, second]).get(2, ("", []))[0] == "dead" for first, second in (heads, heads[::-1]))
        return "both entries match the same packets" if both else ""

    def of_entries(self, lines: Iterable[Text], access_list: AccessList | None) -> list[str]:
        """What the audit says of the entries of a list that these lines write."""
        if access_list is None or not access_list.entries:
            return []
        entries = access_list.entries
        judged = self.judged(access_list.extended, [entry.words for entry in entries])
        front = self.judged(access_list.extended, [*MULTICAST, *(entry.words for entry in entries)]) if access_list.extended else {}
        found = []
        for line in lines:
            number = next((number for number, entry in enumerate(entries, 1) if entry.line == line), 0)
            kind, by = judged.get(number, ("", []))
            takers = [entries[other - 1] for other in by]
            if kind:
                found.append(self.of_entry(line, kind, takers))
            elif number and number + 1 in front:
                found.append("`%s` decides packets to multicast or broadcast addresses alone: the model drops these, a router may take "
                             "them itself%s" % (entry_words(line.words), named(line)))
        return found

    def of_entry(self, line: Text, kind: str, takers: Sequence[Entry]) -> str:
        said = listed(list(dict.fromkeys(self.place(entry.line, entry.own.words if entry.own else entry.words) for entry in takers)), 2)
        words = entry_words(line.words)
        if kind == "dead":
            return "`%s` decides no packet, " % words + ("behind " + said if said else "since it matches none")
        return "the list passes the same packets without `%s`" % words + (", beside " + said if said else "")

    def judged(self, extended: bool, entries: Sequence[str]) -> dict[int, tuple[str, list[int]]]:
        """What `rollout audit` says of a list of these entries, counted from 1: of each that is dead or redundant its kind, and the earlier
        entries that take its packets."""
        with tempfile.TemporaryDirectory(dir=self.work) as folder:
            kind = "extended" if extended else "standard"
            lines = ["hostname R", "ip access-list %s L" % kind, *(" %d %s" % pair for pair in enumerate(entries, 1))]
            write_text(os.path.join(folder, "R.cfg"), [(line, None) for line in lines])
            told = answer_of("rollout", ["audit", folder]) or ""
        found: dict[int, tuple[str, list[int]]] = {}
        here = 0
        for line in told.splitlines():
            words = line.split(" ")
            if words[0] == "entry":
                here = int(words[1])
                found[here] = (words[2], [])
            elif words[0] == "by":
                found[here][1].append(int(words[1]))
        return found

    def note(self, hunk: Hunk) -> str:
        """What is said of a line of a list, also of one with effect, that names what routers send each other: whether its packets to
        multicast or broadcast addresses are decided otherwise."""
        change, key = self.change, hunk.section.split(" ", 1)[1]
        if hunk.aspect != "list" or not self.audits or hunk.device not in change.old or hunk.device not in change.new:
            return ""
        for lines, device in ((hunk.new, change.new[hunk.device]), (hunk.old, change.old[hunk.device])):
            access_list = device.lists.get(key)
            some = [line for line in lines if named(line)]
            if not some or access_list is None or not access_list.extended:
                continue
            judged = self.judged(True, [*UNICAST, *(entry.words for entry in access_list.entries)])
            for line in some:
                number = next((number for number, entry in enumerate(access_list.entries, 1) if entry.line == line), 0)
                if number and number + len(UNICAST) not in judged:
                    return ("packets to multicast or broadcast addresses meet it too, of which the model says nothing: a router may take "
                            "them itself%s" % named(line))
        return ""
