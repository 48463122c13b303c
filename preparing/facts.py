"""What the covered lines of a configuration say: its hostname, its interfaces with their addresses, its static routes."""
import functools
from dataclasses import dataclass, field
from typing import Optional

from .addresses import address_of, is_number, length_of, mask_of
from .faults import Refused
from .texts import Line


@dataclass
class Interface:
    """An interface as its sections say: addresses with their prefix lengths, the primary one first, and whether it is shut."""

    name: str
    primary: Optional[tuple] = None
    secondary: list = field(default_factory=list)
    shut: bool = False

    def subnets(self):
        """All addresses with their lengths."""
        return ([self.primary] if self.primary else []) + self.secondary


@dataclass(frozen=True)
class Static:
    """A static route of a text."""

    prefix: int
    length: int
    interface: str
    hop: int
    distance: int
    vrf: str
    line: Line

    def exit(self):
        """What two routes of one prefix have in common where the later line replaces the earlier one."""
        return self.prefix, self.length, self.interface, self.hop, self.vrf


def hostname_of(path, blocks):
    """The hostname of a configuration."""
    names = [block for block in blocks if block.command() == "hostname"]
    if not names:
        raise Refused(path, 0, "NoHostname")
    if len(names[-1].words()) < 2:
        raise names[-1].head.refused("MissingWord")
    return names[-1].words()[1]


def is_interface(block):
    """Whether a block is the section of an interface."""
    return block.command() == "interface" and len(block.words()) > 1


def subnet_of(line, words):
    """The address and the length of an address command, at its words behind `ip address`."""
    if len(words) < 2:
        raise line.refused("MissingWord")
    address, mask = address_of(words[0]), address_of(words[1])
    if address is None or mask is None:
        raise line.refused("BadWord", words[0] if address is None else words[1])
    if length_of(mask) in (None, 0):
        raise line.refused("BadMask", words[1])
    return address, length_of(mask)


def read_interface(interface, block):
    """Takes the lines of a section into an interface."""
    for line in block.inner():
        words = line.words()
        if words[:2] == ["ip", "address"] and words[2:3] not in (["dhcp"], ["negotiated"]):
            subnet = subnet_of(line, words[2:])
            if words[4:5] == ["secondary"]:
                interface.secondary.append(subnet)
            else:
                interface.primary = subnet
        elif words == ["no", "ip", "address"]:
            interface.primary, interface.secondary = None, []
        elif words in (["shutdown"], ["no", "shutdown"]):
            interface.shut = words == ["shutdown"]


def interfaces_of(blocks):
    """The interfaces of a configuration by their names."""
    interfaces = {}
    for block in blocks:
        if is_interface(block) and block.words()[1] != "Null0":
            name = block.words()[1]
            read_interface(interfaces.setdefault(name, Interface(name)), block)
    return interfaces


def is_static(block):
    """Whether a line is a static route."""
    words = block.words() if block.command() == "ip" else []
    return words[1:2] == ["route"] and words[2:3] not in (["profile"], ["static"])


@functools.lru_cache(maxsize=1 << 12)
def static_of(line):
    """The static route of a line, which several steps ask for."""
    words, vrf = line.words()[2:], None
    if words[:1] == ["vrf"]:
        vrf, words = (words[1:2] or [""])[0], words[2:]
    if words[:1] == ["topology"]:
        raise line.refused("NotCovered", "topology")
    if len(words) < 3:
        raise line.refused("MissingWord")
    prefix, mask = address_of(words[0]), address_of(words[1])
    if prefix is None or mask is None:
        raise line.refused("BadWord", words[0] if prefix is None else words[1])
    length = length_of(mask)
    if length is None:
        raise line.refused("BadMask", words[1])
    if prefix & ~mask_of(length):
        raise line.refused("HostBits", words[0])
    interface, hop, rest = exit_of(words[2:])
    return Static(prefix, length, interface, hop, distance_of(line, rest), vrf, line)


def exit_of(words):
    """The interface and the next hop that the words begin with, and the words behind them."""
    interface = hop = None
    if address_of(words[0]) is None and words[0] != "dhcp":
        interface, words = words[0], words[1:]
    if words and interface != "Null0" and address_of(words[0]) is not None:
        hop, words = address_of(words[0]), words[1:]
    return interface, hop, words


def distance_of(line, words):
    """The distance among the words at the end of a route; the others are looked at, so that nothing is taken for another thing."""
    distance, words = 1, list(words)
    while words:
        word = words.pop(0)
        if word in ("name", "tag", "track"):
            if not words:
                raise line.refused("MissingWord")
            words.pop(0)
        elif is_number(word) and 1 <= int(word) <= 255:
            distance = int(word)
        elif word == "global":
            raise line.refused("NotCovered", word)
        elif word not in ("permanent", "multicast", "dhcp"):
            raise line.refused("ExtraWord", word)
    return distance
