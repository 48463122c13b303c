"""Why a line has no effect: what the proved programs can show, in the order in which it is looked for, and nothing that is guessed.

Each reason is one of: the line is passed over; its list is on no interface that is up; entries beside it decide its packets, or it matches
the same ones in other words; only packets to multicast or broadcast addresses meet it; its interface is shut or without an address;
outcomes don't name the next hop that it changes; its route isn't used; its device treats its packets otherwise, but they end before or
behind.
"""
from __future__ import annotations

import os
import re
import tempfile
from concurrent.futures import ThreadPoolExecutor
from dataclasses import dataclass, field
from typing import Iterable, NamedTuple, Sequence

from causes import Causes, Shown, header_of, line_of, traced
from comparing import Found
from cubes import Section, Values, address_of, by_outcome, dotted, sections
from field_words import listed
from hunks import LINKS, Change, Device, Hunk
from jobs import answer_of, is_built, processors
from list_reasons import Lists, down, named, place
from model import Idle
from rendering import Network, Networks, configurations, content, write_text

# A device with more interfaces that are up isn't asked what comes in at each of them.
MOST_INTERFACES = 64
PROTOCOLS = {"1": "icmp", "6": "tcp", "17": "udp"}


class Notes(NamedTuple):
    """What the doctor says of lines, by their paths and numbers, and of routes, by path, prefix and next hop as it writes them. `warned`
    has the lines that are passed over and that it warns of, since they are in one folder alone."""

    lines: dict[tuple[str, int], str]
    routes: dict[tuple[str, str, str], str]
    warned: set[tuple[str, int]]


class Route(NamedTuple):
    """A route: prefix and mask, where it leads, and its distance. Its name and its tag say nothing to the rules."""

    prefix: str
    mask: str
    way: tuple[str, ...]
    distance: int


def route_of(words: str) -> Route:
    """What the words of a route say."""
    prefix, mask, *rest = words.split(" ")[2:]
    while len(rest) > 2 and rest[-2] in ("name", "tag"):
        rest = rest[:-2]
    # (a name or a tag may also stand before the distance)
    for number in range(len(rest) - 1, 0, -1):
        if rest[number - 1] in ("name", "tag"):
            rest = rest[:number - 1] + rest[number + 1:]
    distance = int(rest.pop()) if rest[-1].isdigit() and len(rest) > 1 else 1
    return Route(prefix, mask, tuple(rest), distance)


def packet(header: str) -> str:
    """A header in words: `tcp 10.10.10.71 -> 10.100.10.5:1433`."""
    destination, source, protocol, port, _, _ = header.split(",")
    name = PROTOCOLS.get(protocol, "protocol " + protocol)
    return "%s %s -> %s%s" % (name, source, destination, ":" + port if protocol in ("6", "17") else "")


@dataclass
class Reasons:
    """Looks for the reasons of one run. Networks and lists that are asked about are written below the folder `work`."""

    causes: Causes
    shown: Shown
    notes: Notes
    work: str
    read: dict[str, Device | None] = field(default_factory=dict)

    def __post_init__(self) -> None:
        self.networks: Networks = self.causes.search.networks
        self.change: Change = self.networks.change
        self.lists = Lists(self.change, self.shown, self.work, is_built("rollout"))

    def of_line(self, number: int) -> Idle:
        """Why a line without effect has none."""
        hunks = [self.change.hunks[hunk] for hunk in sorted(self.causes.search.effects[number].unit)]
        for hunk in hunks:
            reason, backup = self.of_hunk(hunk, number)
            if reason:
                return Idle(number, reason, backup)
        return Idle(number, "every packet that enters at an ingress ends alike with and without it", False)

    def of_hunk(self, hunk: Hunk, number: int) -> tuple[str, bool]:
        """Why a hunk of a line has no effect, and whether it is a backup."""
        change = self.change
        if hunk.device == LINKS:
            return self.of_link(hunk), False
        if hunk.device not in change.old or hunk.device not in change.new:
            return "no packet that enters at an ingress ends otherwise without this device", False
        reason = ""
        if hunk.aspect == "list":
            reason = self.lists.of_list(hunk)
        elif hunk.section.startswith("interface "):
            reason = self.of_interface(hunk)
        elif hunk.aspect == "translation":
            reason = self.of_translation(hunk)
        if reason:
            return reason, False
        return self.by_place(hunk, number)

    # ---- links and interfaces

    def of_link(self, hunk: Hunk) -> str:
        """An end of the link that is up in neither network."""
        for line in hunk.lines():
            words = line.words.split()[1:]
            for device, interface in zip(words[::2], words[1::2]):
                states = [down(side.get(device), interface) for side in (self.change.old, self.change.new)]
                if all(states):
                    return "%s %s %s" % (device, interface, states[1])
        return ""

    def of_interface(self, hunk: Hunk) -> str:
        """Why an aspect of an interface says nothing: the interface isn't up, or what it names isn't there."""
        change, name = self.change, hunk.section.split(" ", 1)[1]
        old, new = change.old[hunk.device], change.new[hunk.device]
        states = down(old, name), down(new, name)
        if hunk.aspect == "shut":
            bare = [not device.interfaces[name].counting.get("address") for device in (old, new) if name in device.interfaces]
            if all(bare):
                return "%s has no address" % name
        elif all(states) and states != ("isn't there", "isn't there"):
            there = [state for state in states if state != "isn't there"]
            return "%s %s" % (name, there[-1])
        elif states[1] and states[1] != "isn't there":
            return "%s %s in the new network" % (name, states[1])
        if hunk.aspect.startswith("list "):
            for line, device, side in [(line, new, "new") for line in hunk.new] or [(line, old, "old") for line in hunk.old]:
                key = line.words.split()[2] if line.words.startswith("ip access-group ") else ""
                if key and not (key in device.lists and device.lists[key].entries):
                    return "list %s has no entry in the %s network, so it passes every packet" % (key, side)
        if hunk.aspect == "side" and not old.rules and not new.rules:
            return "%s has no rule of translation" % hunk.device
        return ""

    def of_translation(self, hunk: Hunk) -> str:
        """The side on which no interface is up."""
        device = self.change.new[hunk.device]
        sides = {line.split()[2] for face in device.interfaces.values() if face.is_up() for line in face.says("side")}
        missing = [side for side in ("inside", "outside") if side not in sides]
        return "no interface of %s that is up is `ip nat %s`" % (hunk.device, missing[0]) if missing else ""

    # ---- what happens at the device

    def up(self, hunk: Hunk) -> list[str]:
        """The interfaces of its device that are up in the new network."""
        return [name for name, face in self.change.new[hunk.device].interfaces.items() if face.is_up()]

    def alone(self, hunk: Hunk, number: int, segments: bool) -> list[Section]:
        """What the line does to packets that come in at any interface of its device that is up: at the device alone, or in the network."""
        networks, up = self.networks, self.up(hunk)
        if not up:
            return []
        taken = self.causes.search.effects[number].unit
        with tempfile.TemporaryDirectory(dir=self.work) as folder:
            links = os.path.join(folder, "links")
            table: list[tuple[str, int | None]] = list(networks.link_lines(frozenset())) if segments else []
            write_text(links, table + [("ingress %s %s" % (hunk.device, name), None) for name in up])
            if segments:
                sides = [networks.without(taken).folder, networks.new().folder]
            else:
                sides = [self.one_device(folder, hunk.device, some) for some in (taken, frozenset[int]())]
            told = answer_of("review", ["compare", *sides, links, "--workers", "1"])
        return [section for section in sections(told) if section.rows] if told else []

    def one_device(self, folder: str, name: str, taken: frozenset[int], only: tuple[str, ...] = ()) -> str:
        """A folder with a device alone, without some hunks, and where words are given only the lines that begin with one of them."""
        place = tempfile.mkdtemp(dir=folder)
        lines = self.networks.device_lines(name, taken)
        write_text(os.path.join(place, "R.cfg"), [line for line in lines if not only or line[0].lstrip().startswith(only)])
        return place

    def by_place(self, hunk: Hunk, number: int) -> tuple[str, bool]:
        """What the line does at its device, and what becomes of the packets for which it does something."""
        here = self.alone(hunk, number, segments=False)
        if not here:
            if hunk.aspect == "route":
                return self.of_route(hunk)
            if hunk.aspect == "list":
                return "the list passes the same packets with and without it", False
            return "%s treats every packet alike with and without it" % hunk.device, False
        if len(self.up(hunk)) > MOST_INTERFACES:
            return "%s treats some packets otherwise, but all that enter at an ingress end alike" % hunk.device, False
        if self.alone(hunk, number, segments=True):
            return self.before(hunk, here), False
        return self.behind(hunk, here), False

    def before(self, hunk: Hunk, here: Sequence[Section]) -> str:
        """Nothing gets there: where a packet that could meet the line ends, of an ingress whose subnet has its source."""
        told = "it does something to packets that come in at %s, but to none that enters at an ingress" % hunk.device
        for ingress in self.ingresses():
            chosen = self.chosen(here, self.subnets(ingress)) if ingress.split(" ")[0] != hunk.device else ""
            end = self.end_of(ingress, chosen) if chosen else ""
            if end and " %s at " % "dropped" in end and " at %s " % hunk.device not in end + " ":
                return "%s: %s" % (told, end)
        return told

    def behind(self, hunk: Hunk, here: Sequence[Section]) -> str:
        """The packets end alike further on: where, and by which line."""
        ingresses = self.ingresses()
        section = next((section for section in here if section.ingress in ingresses), here[0])
        header = self.chosen([section], self.subnets(section.ingress)) or self.chosen([section], None)
        end = self.end_of(section.ingress, header)
        return "%s treats some packets otherwise, but they end alike%s" % (hunk.device, ": " + end if end else "")

    def ingresses(self) -> list[str]:
        return [line.split(" ", 1)[1] for line in self.change.ingresses]

    def subnets(self, ingress: str) -> Values | None:
        """The addresses of an interface's subnets, where the device is known."""
        name, interface = ingress.split(" ")
        device = self.device(name)
        if device is None or interface not in device.interfaces:
            return None
        found = Values.none(32)
        for words in device.interfaces[interface].says("address"):
            address, mask = map(address_of, words.split()[2:4])
            found |= Values.of_range(address & mask, address & mask | 0xFFFFFFFF & ~mask, 32)
        return found

    def chosen(self, here: Sequence[Section], sources: Values | None) -> str:
        """A header of these rows from one of the sources, one that isn't dropped anyway if there is one."""
        best = ""
        for section in here:
            for (_, new), headers in by_outcome(section.rows).items():
                for box in headers.boxes():
                    source = box.source if sources is None else box.source & sources
                    if source and (not best or new != "drop"):
                        best = header_of(box._replace(source=source))
                        if new != "drop":
                            return best
        return best

    def end_of(self, ingress: str, header: str) -> str:
        """Where a packet ends in the new network: `tcp 10.10.10.71 -> 10.100.10.5:1433 from DIST1 Vlan10 is dropped at DC1 by ..`."""
        told = traced(self.causes.search.given.new, ingress, header)
        state = next((line for line in reversed(told) if line.startswith("state ")), "")
        if not state or " | " in told[-1]:
            return ""
        device = state.split(" ")[3]
        end = told[-1].split(" ", 1)[1]
        word = {"drop": "dropped at " + device, "expired": "lost in a loop"}.get(end, "let through: " + end)
        denied = next((line.split(" ") for line in reversed(told) if re.match(r"(input|output) \S+ deny ", line)), None)
        return "%s from %s is %s%s" % (packet(header), ingress, word, self.by_entry(device, denied) if denied and end == "drop" else "")

    def by_entry(self, device: str, denied: Sequence[str]) -> str:
        """By which entry of a list a packet was denied."""
        known = self.device(device)
        access_list = known.lists.get(denied[1]) if known else None
        entry = next((entry for entry in access_list.entries if str(entry.sequence) == denied[3]), None) if access_list else None
        said = place(entry.line, self.shown) if entry else "at its end" if denied[3] == "end" else "entry " + denied[3]
        return " by list %s, %s" % (denied[1], said)

    def device(self, name: str) -> Device | None:
        """A device of the new network, also one that the change doesn't touch."""
        change = self.change
        if name in change.new:
            return change.new[name]
        if name not in self.read:
            folder = self.causes.search.given.new.folder
            paths = [os.path.join(folder, file) for file in configurations(folder)]
            head = re.compile(rb"^hostname[ \t]+%s[ \t\r]*$" % re.escape(name.encode("utf-8", "surrogateescape")), re.MULTILINE)
            path = next((path for path in paths if head.search(content(path))), None)
            self.read[name] = self.networks.read(path) if path else None
        return self.read[name]

    # ---- routes

    def of_route(self, hunk: Hunk) -> tuple[str, bool]:
        """Where the device by itself, without lists and translation, sends an address of the prefix, in both networks and with the line
        alone in each."""
        networks = self.networks
        routes = [[route_of(line.words) for line in lines] for lines in (hunk.old, hunk.new)]
        if sorted(routes[0]) == sorted(routes[1]):
            return "the routes differ in their names or tags alone", False
        said = self.said_of_routes(hunk)
        if said:
            return said, False
        prefix, mask = (routes[1] or routes[0])[0][:2]
        sample = "203.0.113.77" if mask == "0.0.0.0" else dotted(address_of(prefix) | 5 & ~address_of(mask))
        mine, everything = frozenset([hunk.number]), networks.everything
        with tempfile.TemporaryDirectory(dir=self.work) as folder:
            new, without, old, alone = (self.way(folder, hunk.device, taken, sample)
                                        for taken in (frozenset[int](), mine, everything, everything - mine))
        other = "outcomes don't name the next hop: %s sends %s by `%s` without it, by `%s` with it"
        if new != without:
            return other % (hunk.device, sample, without, new), False
        if old != alone:
            return other % (hunk.device, sample, old, alone) + ", in the old network", False
        told = "%s sends %s by `%s` with and without it" % (hunk.device, sample, old if hunk.old and not hunk.new else new)
        backup = self.is_backup(hunk, routes)
        if backup:
            told += ". A backup of distance %d: `./sweep compare` shows what it does when a link fails" % backup
        return told, bool(backup)

    def said_of_routes(self, hunk: Hunk) -> str:
        """What the doctor says of a route."""
        for line in hunk.new or hunk.old:
            route = route_of(line.words)
            prefix = "%s/%d" % (route.prefix, bin(address_of(route.mask)).count("1"))
            for word in route.way:
                if (line.path, prefix, word) in self.notes.routes:
                    return self.notes.routes[line.path, prefix, word]
        return ""

    def is_backup(self, hunk: Hunk, routes: Sequence[Sequence[Route]]) -> int:
        """The distance of the routes, where they stand behind another one of their prefix wherever they are; else 0."""
        change, least = self.change, 256
        for device, some in ((change.old[hunk.device], routes[0]), (change.new[hunk.device], routes[1])):
            others = [route_of(line.words) for line in device.routes]
            for route in some:
                if route.distance == 255 or not any(other[:2] == route[:2] and other.distance < route.distance for other in others):
                    return 0
                least = min(least, route.distance)
        return least

    def way(self, folder: str, device: str, taken: frozenset[int], destination: str) -> str:
        """How a device sends a packet out: its choices as a trace tells them."""
        place = self.one_device(folder, device, taken, ("hostname", "interface", "ip address", "shutdown", "ip route"))
        change = self.change
        up = [name for side in (change.new, change.old) for name, face in side[device].interfaces.items() if face.is_up()]
        if not up:
            return ""
        links = place + "-links"
        write_text(links, [("ingress %s %s" % (device, up[0]), None)])
        told = traced(Network(place, links), "%s %s" % (device, up[0]), destination + ",192.0.2.9,6,80,50000,2")
        return " | ".join(line[4:] if line.startswith("out ") else line for line in told if re.match("out |discard|local |broadcast", line))


def beside(causes: Causes, number: int) -> str:
    """Of a line that would do something by itself, which others make it needless: those without which the same packets go otherwise, or
    else those that would do something to them alone."""
    effects = causes.search.effects
    alone = effects[number].alone
    assert alone is not None
    rivals: tuple[list[Found | None], list[Found | None]] = ([effect.by for effect in effects], [effect.alone for effect in effects])
    for some in rivals:
        others = [causes.lines[other] for other, found in enumerate(some)
                  if other != number and found and any(found.at(ingress) & alone.at(ingress) for ingress in alone.places)]
        if others:
            return "alone it would do something; beside this it makes no difference: %s" % listed([other.said(1) for other in others], 1)
    return "alone it would do something; beside the other lines it makes no difference"


def add_reasons(causes: Causes, shown: Shown, notes: Notes) -> None:
    """Adds which lines have no effect and why, the lines that are passed over or say what was so already, and notes."""
    search = causes.search
    with tempfile.TemporaryDirectory(dir=search.networks.work) as work:
        reasons = Reasons(causes, shown, notes, work)
        # (written before threads ask for it)
        search.networks.new()
        idle = [number for number, effect in enumerate(search.effects) if effect.is_idle()]
        for number in idle:
            search.networks.without(search.effects[number].unit)
        hunks = search.networks.change.hunks
        every = [(number, hunks[hunk]) for number, effect in enumerate(search.effects) for hunk in sorted(effect.unit)]
        lists = [(number, hunk) for number, hunk in every if hunk.aspect == "list" and any(map(named, hunk.lines())) and number not in idle]
        with ThreadPoolExecutor(processors()) as pool:
            causes.idle += pool.map(reasons.of_line, idle)
            for (number, _), note in zip(lists, pool.map(reasons.lists.note, [hunk for _, hunk in lists])):
                if note:
                    causes.notes.setdefault(number, note)
    causes.beside += [Idle(number, beside(causes, number)) for number, effect in enumerate(search.effects)
                      if not effect.by.rows and effect.alone and effect.alone.rows]
    passed = search.networks.change.passed
    # (of a line that moves the doctor doesn't warn)
    moved = {line.words for hunk in passed for line in hunk.old} & {line.words for hunk in passed for line in hunk.new}
    for hunk in alike_hunks(search.networks.change.unread + passed):
        line = line_of(len(causes.lines), hunk, shown)
        causes.lines.append(line)
        causes.idle.append(Idle(line.number, unread_reason(hunk[0], notes), quiet=all(is_quiet(one, notes, moved) for one in hunk)))


def is_quiet(hunk: Hunk, notes: Notes, moved: set[str]) -> bool:
    """Whether a hunk says nothing of packets: a remark, or a line that is passed over and of which the doctor doesn't warn."""
    places = {(line.path, line.number) for line in hunk.lines()}
    return hunk.aspect == "remark" or hunk.aspect == "passed over" and not places & (notes.warned | notes.lines.keys()) and not any(
        line.words in moved for line in hunk.lines())


def unread_reason(hunk: Hunk, notes: Notes) -> str:
    """Why a line that says nothing to the rules has no effect."""
    said = [notes.lines[line.path, line.number] for line in hunk.lines() if (line.path, line.number) in notes.lines]
    if hunk.aspect == "passed over":
        return said[0] if said else "passed over"
    if hunk.aspect == "remark":
        return "a remark"
    return "it says what is so already" if hunk.new else "what it said is so without it"


def alike_hunks(hunks: Iterable[Hunk]) -> list[list[Hunk]]:
    """Those of the same words in the same section, on several devices."""
    found: dict[object, list[Hunk]] = {}
    for hunk in hunks:
        words = tuple(tuple(line.words for line in lines) for lines in (hunk.old, hunk.new))
        found.setdefault((hunk.section, hunk.aspect, words), []).append(hunk)
    return list(found.values())
