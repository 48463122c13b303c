"""What of configurations and link tables the window needs itself: names of devices, interfaces with their subnets, and who is wired to
whom.

What becomes of packets is asked of the proved programs. Here stands only what their answers don't say: on which interface a subnet is,
and which interfaces are on no link. Lines are read as the verifier reads them; what it refuses never comes here, since it is asked
first.
"""
from __future__ import annotations

import os
import re
from dataclasses import dataclass, field
from typing import NamedTuple

from cubes import Pattern, Values, address_of, dotted

FULL = 0xFFFFFFFF


class Address(NamedTuple):
    """An address of an interface, with its mask, as numbers."""

    address: int
    mask: int

    def text(self) -> str:
        """`10.0.0.1/24`."""
        return "%s/%d" % (dotted(self.address), self.mask.bit_count())

    def subnet(self) -> Pattern:
        """All addresses of its subnet."""
        return Pattern(self.mask, self.address & self.mask)


@dataclass
class Interface:
    """An interface with its addresses, the primary one first."""

    name: str
    addresses: list[Address] = field(default_factory=list)
    shut: bool = False

    @property
    def is_up(self) -> bool:
        """Whether it isn't shut and has an address."""
        return bool(self.addresses) and not self.shut

    def subnets(self) -> Values:
        """All addresses of its subnets."""
        return Values.of_patterns([address.subnet() for address in self.addresses], 32)


@dataclass
class Device:
    """A device with its file, the file's text, and its interfaces by name."""

    name: str
    path: str
    interfaces: dict[str, Interface]
    text: str


_BANNER = re.compile(r"banner\s+(?:(?:exec|incoming|login|motd|prompt-timeout|slip-ppp)\s+)?(\S)")
_HOSTNAME = re.compile(r"\nhostname[ \t]+(\S+)[ \t\r]*(?=\n)")
# A section, behind the end of a line: its first line, and the lines that are indented, empty or comments, the last one without its end.
_SECTION = re.compile(r"\ninterface[ \t]+(\S+)[ \t\r]*((?:\n[ \t!].*|\n\r?(?=\n))*)")


def _end_of_banner(line: str) -> str:
    """What closes the banner that begins on a line, further down; "" where none does or it is closed there."""
    begun = _BANNER.match(line)
    if not begun:
        return ""
    close = "^C" if line[begun.start(1):].startswith("^C") else begun.group(1)
    return "" if close in line[begun.start(1) + len(close):] else close


def _without_banners(text: str) -> str:
    """A configuration without the texts of banners, in which lines may look like commands."""
    found, banner = [], ""
    for line in text.split("\n"):
        if banner:
            banner = "" if banner in line else banner
        else:
            banner = _end_of_banner(line)
            found.append(line)
    return "\n".join(found)


def _take(interface: Interface, words: list[str]) -> None:
    """What a line of an interface's section says of it."""
    if words[:2] == ["ip", "address"] and len(words) >= 4:
        address = Address(address_of(words[2]), address_of(words[3]))
        if words[4:5] == ["secondary"]:
            interface.addresses.append(address)
        else:
            interface.addresses[:1] = [address]
    elif words == ["no", "ip", "address"]:
        interface.addresses.clear()
    elif words in (["shutdown"], ["no", "shutdown"]):
        interface.shut = words == ["shutdown"]


def device_of(path: str) -> Device:
    """Reads a configuration that the verifier reads."""
    with open(path, encoding="utf-8", errors="surrogateescape", newline="\n") as stream:
        text = stream.read()
    commands = "\n%s\n" % (_without_banners(text) if "banner" in text else text)
    named = _HOSTNAME.findall(commands)
    device = Device(named[-1] if named else "", path, {}, text)
    for name, lines in _SECTION.findall(commands):
        interface = device.interfaces.setdefault(name, Interface(name))
        for line in lines.split("\n"):
            _take(interface, line.split())
    return device


def folder_of(path: str) -> dict[str, Device]:
    """The devices of a folder, by name."""
    names = sorted(name for name in os.listdir(path) if name.endswith(".cfg") and not name.startswith("."))
    devices = [device_of(os.path.join(path, name)) for name in names]
    return {device.name: device for device in devices}


@dataclass
class Links:
    """A link table: its segments, each with its places, and its ingresses in order."""

    lans: list[tuple[str, ...]] = field(default_factory=list)
    pairs: list[tuple[str, ...]] = field(default_factory=list)
    ingresses: list[str] = field(default_factory=list)

    def segments(self) -> str:
        """The lines of the segments."""
        lines = ["lan " + " ".join(ends) for ends in self.lans] + ["p2p " + " ".join(ends) for ends in self.pairs]
        return "".join(line + "\n" for line in lines)

    def devices(self) -> list[str]:
        """The devices that it names, each once."""
        places = [place for segment in self.lans + self.pairs for place in segment] + self.ingresses
        return list(dict.fromkeys(place.split(" ")[0] for place in places))

    def linked(self) -> set[str]:
        """All places that are on a segment."""
        return {place for segment in self.lans + self.pairs for place in segment}


def links_of(path: str) -> Links:
    """Reads a link table that the verifier reads."""
    links = Links()
    with open(path, encoding="utf-8", errors="surrogateescape", newline="\n") as stream:
        for line in stream.read().split("\n"):
            words = line.split()
            if not words or words[0].startswith("!"):
                continue
            places = tuple(map(" ".join, zip(words[1::2], words[2::2])))
            if words[0] == "ingress":
                links.ingresses.append(places[0])
            else:
                (links.lans if words[0] == "lan" else links.pairs).append(places)
    return links


@dataclass
class Network:
    """A folder with its link table."""

    folder: str
    table: str
    devices: dict[str, Device]
    links: Links

    def interface(self, place: str) -> Interface | None:
        """The interface at a place `R1 Ethernet0`, if it is there."""
        name, _, interface = place.partition(" ")
        device = self.devices.get(name)
        return device.interfaces.get(interface) if device else None

    def subnets(self, place: str) -> Values:
        """The addresses of the subnets of an interface, up or not; none where it isn't there."""
        interface = self.interface(place)
        return interface.subnets() if interface else Values.none(32)

    def never_forwarded(self) -> Values:
        """Destinations that every router drops at once, or that one does for its own subnets: multicast, and the last addresses of
        subnets."""
        found = [Pattern(0xE0000000, 0xE0000000)]
        for device in self.devices.values():
            for interface in device.interfaces.values():
                found += [Pattern(FULL, address | FULL ^ mask) for address, mask in interface.addresses if mask.bit_count() < 31]
        return Values.of_patterns(found, 32)


def network_of(folder: str, table: str) -> Network:
    """Reads both."""
    return Network(folder, table, folder_of(folder), links_of(table))
