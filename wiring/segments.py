"""Which interfaces are linked: those that have a subnet in common, and what neighbours say, which decides where there are both."""
from __future__ import annotations

from collections import defaultdict
from dataclasses import dataclass, field

from preparing.addresses import dotted

from .names import MANAGEMENT, is_point_to_point, parts_of
from .neighbors import Seen
from .network import Device, Port, Subnet, ports_of

# The least room of a subnet, in addresses, in which hosts are looked for beside its routers.
ROOM_FOR_HOSTS = 8


@dataclass
class Segment:
    """Interfaces that hear one another: two or more ports in order, and why."""

    ports: list[Port]
    why: str

    def kind(self) -> str:
        """`p2p` for two ends on interfaces that have one other end, or with a subnet of two addresses; else `lan`."""
        pair = len(self.ports) == 2
        narrow = all(subnet.length >= 31 for port in self.ports for subnet in port.subnets())
        return "p2p" if pair and (narrow or all(is_point_to_point(port.name) for port in self.ports)) else "lan"

    def line(self) -> str:
        """The line of the link table."""
        return " ".join([self.kind()] + [word for port in self.ports for word in port.end()])


@dataclass
class Edge:
    """An interface where packets may come in from outside, or not: why, and whether the line is only proposed."""

    port: Port
    why: str
    proposed: bool = False

    def line(self) -> str:
        """The line of the link table, as a comment where it is only proposed."""
        return ("! ingress %s %s" if self.proposed else "ingress %s %s") % self.port.end()


@dataclass
class Wiring:
    """A link table that was found: segments and edges in order, and what contradicts."""

    segments: list[Segment] = field(default_factory=list)
    edges: list[Edge] = field(default_factory=list)
    contradictions: list[str] = field(default_factory=list)


class Joined:
    """Ports in groups that grow together (union and find)."""

    def __init__(self) -> None:
        self.above: dict[tuple[str, str], tuple[str, str]] = {}

    def top(self, end: tuple[str, str]) -> tuple[str, str]:
        """The end that stands for a group."""
        while end in self.above:
            end = self.above[end]
        return end

    def join(self, first: tuple[str, str], second: tuple[str, str]) -> None:
        """Makes one group of two."""
        one, other = self.top(first), self.top(second)
        if one != other:
            self.above[max(one, other)] = min(one, other)


def direct_pairs(devices: dict[str, Device], seen: Seen, told: list[str]) -> tuple[set[tuple], dict[tuple[str, str], set[str]]]:
    """The pairs of ends that neighbours tell of, and for each end the devices that are seen behind it, where all of them are the
    network's."""
    pairs: set[tuple] = set()
    behind: dict[tuple[str, str], set[str]] = defaultdict(set)
    foreign: set[tuple[str, str]] = set()
    for sight in seen.sights:
        ports = devices[sight.device].carried_by(sight.interface)
        if sight.other is None:
            foreign |= {port.end() for port in ports}
            continue
        for port in ports:
            behind[port.end()].add(sight.other)
        others = devices[sight.other].carried_by(sight.port)
        found = {tuple(sorted((port.end(), other.end()))) for port in ports for other in others
                 if set(port.subnets()) & set(other.subnets())}
        if not found and len(ports) == len(others) == 1:
            found = {tuple(sorted((ports[0].end(), others[0].end())))}
            if ports[0].end() < others[0].end() or not seen.of(sight.other, sight.port):
                told.append("%s: %s %s and %s %s are neighbours, and their subnets don't meet: %s and %s" % (
                    (sight.place,) + ports[0].end() + others[0].end() + (addresses(ports[0]), addresses(others[0]))))
        pairs |= found
    return pairs, {end: names for end, names in behind.items() if end not in foreign}


def addresses(port: Port) -> str:
    """The addresses of a port with their lengths."""
    return ", ".join("%s/%d" % (dotted(address), subnet.length) for address, subnet in port.addresses)


def by_subnet(ports: list[Port]) -> dict[Subnet, list[Port]]:
    """The ports of each subnet, in order."""
    groups: dict[Subnet, list[Port]] = defaultdict(list)
    for port in ports:
        for subnet in dict.fromkeys(port.subnets()):
            groups[subnet].append(port)
    return groups


def shared_subnets(groups: dict[Subnet, list[Port]], behind: dict[tuple[str, str], set[str]], told: list[str]) -> list[tuple[Port, Port]]:
    """The pairs of ports that a subnet joins: not where two have one address, and not against what neighbours say."""
    pairs = []
    for subnet, ports in sorted(groups.items()):
        if len({port.device for port in ports}) < 2:
            continue
        twice = same_address(subnet, ports)
        if twice:
            told.append("%s: %s have the address %s, so this subnet joins nothing: say with neighbours or by hand which of them are linked"
                        % (subnet.text(), " and ".join("%s %s" % port.end() for port in twice[1]), dotted(twice[0])))
            continue
        pairs += [(one, other) for one, other in chained(ports, behind)]
    return pairs


def same_address(subnet: Subnet, ports: list[Port]) -> tuple[int, list[Port]] | None:
    """The least address of the subnet that two ports have, with these, or None."""
    holders: dict[int, list[Port]] = defaultdict(list)
    for port in ports:
        for address, other in port.addresses:
            if other == subnet:
                holders[address].append(port)
    return next(((address, found) for address, found in sorted(holders.items()) if len(found) > 1), None)


def chained(ports: list[Port], behind: dict[tuple[str, str], set[str]]) -> list[tuple[Port, Port]]:
    """Pairs that join the ports of a subnet: each with each other that its neighbours don't exclude. Without neighbours a chain is
    enough."""
    if not any(port.end() in behind for port in ports):
        return list(zip(ports, ports[1:]))
    return [(one, other) for place, one in enumerate(ports) for other in ports[place + 1:]
            if other.device in behind.get(one.end(), {other.device}) and one.device in behind.get(other.end(), {one.device})]


def find_wiring(devices: dict[str, Device], seen: Seen) -> Wiring:
    """The link table of the devices: which interfaces are linked, and where packets may come in."""
    wiring = Wiring(contradictions=list(seen.contradictions))
    ports, joined = ports_of(devices), Joined()
    groups = by_subnet(ports)
    pairs, behind = direct_pairs(devices, seen, wiring.contradictions)
    for one, other in shared_subnets(groups, behind, wiring.contradictions):
        joined.join(one.end(), other.end())
    for first, second in sorted(pairs):
        joined.join(first, second)
    members: dict[tuple[str, str], list[Port]] = defaultdict(list)
    for port in ports:
        members[joined.top(port.end())].append(port)
    for group in members.values():
        if len({port.device for port in group}) > 1:
            wiring.segments.append(Segment(group, why_linked(group, pairs)))
    wiring.edges = edges_of(ports, {port.end() for segment in wiring.segments for port in segment.ports})
    wiring.contradictions += overlaps(groups)
    return wiring


def why_linked(group: list[Port], pairs: set[tuple]) -> str:
    """Why the ports of a segment are linked: their common subnets, and neighbours."""
    ends = {port.end() for port in group}
    shared = [subnet for subnet, ports in sorted(by_subnet(group).items()) if len(ports) > 1]
    texts = [", ".join(subnet.text() for subnet in shared)] if shared else []
    if any(first in ends and second in ends for first, second in pairs):
        texts.append("neighbours")
    return "; ".join(texts)


def edges_of(ports: list[Port], linked: set[tuple[str, str]]) -> list[Edge]:
    """The interfaces at which packets may come in, in order: those that are linked with no device, and those of hosts' subnets."""
    edges = []
    for port in ports:
        edge = lan_edge(port) if port.end() in linked else alone_edge(port)
        if edge is not None:
            edges.append(edge)
    return edges


def alone_edge(port: Port) -> Edge:
    """What an interface is that is linked with no device."""
    words = ", ".join(subnet.text() for subnet in dict.fromkeys(port.subnets()))
    kind = parts_of(port.name)[0]
    if kind == "loopback" or all(subnet.length == 32 for subnet in port.subnets()):
        return Edge(port, "%s: a loopback: no host is connected" % words, True)
    if kind in ("mgmt", "management", "managementethernet") or MANAGEMENT.search(port.vrf) or MANAGEMENT.search(port.description):
        return Edge(port, "%s: it looks like a management interface" % words, True)
    if kind == "tunnel":
        return Edge(port, "%s: a tunnel without another end here" % words, True)
    return Edge(port, "%s: no other device is in this subnet" % words)


def lan_edge(port: Port) -> Edge | None:
    """What an interface is that is linked with other devices: hosts may be in its subnet too."""
    words = ", ".join(subnet.text() for subnet in dict.fromkeys(port.subnets()))
    if port.has_group:
        return Edge(port, "%s: hosts use its virtual address" % words)
    has_room = any(2 ** (32 - subnet.length) >= 2 * ROOM_FOR_HOSTS for subnet in port.subnets())
    if has_room and parts_of(port.name)[0] in ("vlan", "bvi", "bdi"):
        return Edge(port, "%s: hosts may be in this subnet beside the routers" % words, True)
    return None


def overlaps(groups: dict[Subnet, list[Port]]) -> list[str]:
    """Subnets of different devices of which one lies in the other: they aren't joined, and one mask may be wrong."""
    told: list[str] = []
    open_subnets: list[Subnet] = []
    for subnet in sorted(groups):
        open_subnets = [wide for wide in open_subnets if wide.prefix + 2 ** (32 - wide.length) > subnet.prefix]
        for wide in open_subnets:
            one, other = groups[wide][0], groups[subnet][0]
            if subnet.length < 32 and {port.device for port in groups[wide]} != {port.device for port in groups[subnet]}:
                told.append("%s lies in %s: %s %s and %s %s have different masks, and aren't joined" % (
                    (subnet.text(), wide.text()) + one.end() + other.end()))
        open_subnets.append(subnet)
    return told
