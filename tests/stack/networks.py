"""Small random networks, as values from which both the texts for the verifier and the stack are made.

Addresses are numbers of 32 bits. An interface that leads out of the network is on no segment.
"""
import dataclasses
import os
import random
from dataclasses import dataclass, field
from typing import NamedTuple, Optional

ALL_ONES = 2**32 - 1
PROTOCOL_NAMES = {1: "icmp", 6: "tcp", 17: "udp"}
FLAG_BITS = {"fin": 1, "syn": 2, "rst": 4, "psh": 8, "ack": 16, "urg": 32}
NULL = "Null0"


def number(text: str) -> int:
    """The address of a text in dotted decimals."""
    return sum(int(part) << (24 - 8 * k) for k, part in enumerate(text.split(".")))


def dotted(address: int) -> str:
    """The text of an address."""
    return ".".join(str(address >> shift & 255) for shift in (24, 16, 8, 0))


def mask_of(length: int) -> int:
    """The mask whose first `length` bits are ones."""
    return ALL_ONES & ~(ALL_ONES >> length)


class Subnet(NamedTuple):
    """An address of an interface with its prefix length, 0 to 32."""

    address: int
    length: int

    @property
    def first(self) -> int:
        return self.address & mask_of(self.length)

    @property
    def last(self) -> int:
        return self.first | ALL_ONES >> self.length

    def holds(self, address: int) -> bool:
        return address & mask_of(self.length) == self.first


class Place(NamedTuple):
    router: str
    interface: str


class Segment(NamedTuple):
    """A link: `p2p` of two ends, or a `lan` of two or more."""

    kind: str
    ends: tuple[Place, ...]


@dataclass(frozen=True)
class Interface:
    subnets: tuple[Subnet, ...]
    shut: bool = False
    list_in: Optional[str] = None
    list_out: Optional[str] = None
    side: Optional[str] = None

    def live(self) -> tuple[Subnet, ...]:
        """The addresses that count: none where the interface is shut."""
        return () if self.shut else self.subnets


class Route(NamedTuple):
    """A static route. An interface `Null0` discards; one of interface and next hop may be None."""

    prefix: Subnet
    interface: Optional[str]
    next_hop: Optional[int]
    distance: int = 1


class PortTest(NamedTuple):
    word: str
    ports: tuple[int, ...]


class FlagTest(NamedTuple):
    """`match-any` or `match-all` of flags that are to be one and of flags that are to be zero, as bytes."""

    word: str
    ones: int
    zeros: int


class Block(NamedTuple):
    """The addresses that agree with `address` where `wildcard` is 0."""

    address: int
    wildcard: int


ANY = Block(0, ALL_ONES)


@dataclass(frozen=True)
class Entry:
    """An entry of an access list. A protocol None stands for `ip`; of a standard list the source alone counts."""

    permit: bool
    protocol: Optional[int] = None
    source: Block = ANY
    destination: Block = ANY
    source_port: Optional[PortTest] = None
    destination_port: Optional[PortTest] = None
    icmp: Optional[tuple[int, Optional[int]]] = None
    flags: Optional[FlagTest] = None


class Rule(NamedTuple):
    """`ip nat inside source static`: a port rule where the protocol is 6 or 17, else a plain one."""

    protocol: Optional[int]
    local: int
    local_port: int
    outer: int
    outer_port: int


class OuterRule(NamedTuple):
    """`ip nat outside source static`: the global and the local address of a host outside."""

    outer: int
    local: int


@dataclass(frozen=True)
class Router:
    name: str
    interfaces: dict[str, Interface]
    routes: tuple[Route, ...] = ()
    lists: dict[str, tuple[Entry, ...]] = field(default_factory=dict)
    rules: tuple[Rule, ...] = ()
    outer_rules: tuple[OuterRule, ...] = ()

    def live(self) -> list[tuple[str, Subnet]]:
        """The addresses of interfaces that are up, with the interfaces."""
        return [(name, subnet) for name, interface in self.interfaces.items() for subnet in interface.live()]

    def changed(self, **parts) -> "Router":
        return dataclasses.replace(self, **parts)


@dataclass(frozen=True)
class Network:
    routers: dict[str, Router]
    segments: tuple[Segment, ...]
    ingresses: tuple[Place, ...]

    def interface(self, place: Place) -> Interface:
        return self.routers[place.router].interfaces[place.interface]

    def segment_of(self, place: Place) -> Optional[Segment]:
        return next((segment for segment in self.segments if place in segment.ends), None)

    def places(self) -> list[Place]:
        return [Place(name, interface) for name, router in self.routers.items() for interface in router.interfaces]

    def with_router(self, router: Router) -> "Network":
        return dataclasses.replace(self, routers={**self.routers, router.name: router})

    def with_interface(self, place: Place, interface: Interface) -> "Network":
        router = self.routers[place.router]
        return self.with_router(router.changed(interfaces={**router.interfaces, place.interface: interface}))


# ---- texts for the verifier


def block_text(block: Block) -> str:
    if block.wildcard == ALL_ONES:
        return "any"
    if block.wildcard == 0:
        return "host " + dotted(block.address)
    return f"{dotted(block.address)} {dotted(block.wildcard)}"


def port_text(test: Optional[PortTest]) -> str:
    return "" if test is None else " " + " ".join([test.word, *map(str, test.ports)])


def flags_text(test: FlagTest) -> str:
    named = [sign + name for sign, bits in (("+", test.ones), ("-", test.zeros)) for name, bit in FLAG_BITS.items() if bits & bit]
    return " ".join([test.word, *named])


def entry_text(entry: Entry, standard: bool) -> str:
    action = "permit" if entry.permit else "deny"
    if standard:
        return f"{action} {block_text(entry.source)}"
    protocol = "ip" if entry.protocol is None else PROTOCOL_NAMES.get(entry.protocol, str(entry.protocol))
    text = f"{action} {protocol} {block_text(entry.source)}{port_text(entry.source_port)}"
    text += f" {block_text(entry.destination)}{port_text(entry.destination_port)}"
    if entry.icmp is not None:
        text += " " + " ".join(str(part) for part in entry.icmp if part is not None)
    if entry.flags is not None:
        text += " " + flags_text(entry.flags)
    return text


def is_standard(name: str) -> bool:
    """Whether a list of this name is a standard one: a number below 100."""
    return name.isdigit() and int(name) < 100


def interface_lines(name: str, interface: Interface) -> list[str]:
    lines = [f"interface {name}"]
    for k, subnet in enumerate(interface.subnets):
        lines.append(f" ip address {dotted(subnet.address)} {dotted(mask_of(subnet.length))}" + (" secondary" if k else ""))
    for word, one in (("in", interface.list_in), ("out", interface.list_out)):
        if one is not None:
            lines.append(f" ip access-group {one} {word}")
    if interface.side is not None:
        lines.append(f" ip nat {interface.side}")
    return lines + ([" shutdown"] if interface.shut else [])


def route_text(route: Route) -> str:
    words = ["ip route", dotted(route.prefix.address), dotted(mask_of(route.prefix.length))]
    words += [route.interface] if route.interface is not None else []
    words += [dotted(route.next_hop)] if route.next_hop is not None else []
    return " ".join(words + ([str(route.distance)] if route.distance != 1 else []))


def rule_text(rule: Rule) -> str:
    if rule.protocol is None:
        return f"ip nat inside source static {dotted(rule.local)} {dotted(rule.outer)}"
    name = PROTOCOL_NAMES[rule.protocol]
    return f"ip nat inside source static {name} {dotted(rule.local)} {rule.local_port} {dotted(rule.outer)} {rule.outer_port}"


def configuration(router: Router) -> str:
    """The running configuration that the verifier reads."""
    lines = [f"hostname {router.name}"]
    for name, interface in router.interfaces.items():
        lines += interface_lines(name, interface)
    lines += [rule_text(rule) for rule in router.rules]
    lines += [f"ip nat outside source static {dotted(rule.outer)} {dotted(rule.local)}" for rule in router.outer_rules]
    lines += [route_text(route) for route in router.routes]
    for name, entries in router.lists.items():
        lines.append(f"ip access-list {'standard' if is_standard(name) else 'extended'} {name}")
        lines += [f" {10 * k} {entry_text(entry, is_standard(name))}" for k, entry in enumerate(entries, 1)]
    return "\n".join(lines) + "\n"


def link_table(network: Network) -> str:
    lines = [" ".join([segment.kind, *(f"{end.router} {end.interface}" for end in segment.ends)]) for segment in network.segments]
    lines += [f"ingress {place.router} {place.interface}" for place in network.ingresses]
    return "\n".join(lines) + "\n"


def write(network: Network, folder: str) -> None:
    """Writes `FOLDER/net/R1.cfg` and its kin, and `FOLDER/links`."""
    os.makedirs(os.path.join(folder, "net"), exist_ok=True)
    for router in network.routers.values():
        with open(os.path.join(folder, "net", router.name + ".cfg"), "w") as file:
            file.write(configuration(router))
    with open(os.path.join(folder, "links"), "w") as file:
        file.write(link_table(network))


# ---- random networks


class Maker:
    """Draws networks. `routers` bounds their number."""

    def __init__(self, seed: int, routers: tuple[int, int] = (3, 5)):
        self.random = random.Random(seed)
        self.bounds = routers
        self.interfaces: dict[str, dict[str, Interface]] = {}
        self.segments: list[Segment] = []
        self.next_subnet = 0
        self.neighbours: dict[str, list[tuple[str, str, int]]] = {}

    def chance(self, part: float) -> bool:
        return self.random.random() < part

    def network(self) -> Network:
        names = [f"R{k + 1}" for k in range(self.random.randint(*self.bounds))]
        self.interfaces = {name: {} for name in names}
        self.neighbours = {name: [] for name in names}
        self.join(names)
        for name in names:
            if name in names[:2] or self.chance(0.7):
                self.add("", [name])
        self.shut_some()
        routers = {name: self.router(name) for name in names}
        network = Network(routers, tuple(self.segments), ())
        return dataclasses.replace(network, ingresses=tuple(network.places()))

    def join(self, names: list[str]) -> None:
        """Links that join all routers, and perhaps one more."""
        joined = [names[0]]
        rest = names[1:]
        if len(rest) >= 2 and self.chance(0.6):
            self.add("lan", [joined[0], rest[0], rest[1]])
            joined, rest = names[:3], rest[2:]
        for name in rest:
            self.add(self.random.choice(["p2p", "p2p", "lan"]), [self.random.choice(joined), name])
            joined.append(name)
        if len(names) > 2 and self.chance(0.6):
            self.add(self.random.choice(["p2p", "lan"]), self.random.sample(names, 2))

    def subnet(self, ends: int) -> Subnet:
        """The next subnet, with room for so many ends."""
        length = self.random.choice([24, 24, 29, 28] if ends != 2 else [24, 29, 30, 30, 31])
        self.next_subnet += 1
        return Subnet(number("10.0.0.0") + (self.next_subnet << 8) + (self.random.choice([0, 128]) if length > 24 else 0), length)

    def add(self, kind: str, names: list[str]) -> None:
        """Joins these routers, each by a new interface; with no kind, an interface that leads out of the network."""
        subnet = self.subnet(len(names))
        hosts = range(subnet.first, subnet.last + 1) if subnet.length == 31 else range(subnet.first + 1, subnet.last)
        ends = []
        for name, address in zip(names, self.random.sample(hosts, len(names))):
            interface = f"Ethernet{len(self.interfaces[name])}"
            subnets = [Subnet(address, subnet.length)]
            if self.chance(0.1):
                self.next_subnet += 1
                subnets.append(Subnet(number("10.0.0.1") + (self.next_subnet << 8), 24))
            self.interfaces[name][interface] = Interface(tuple(subnets))
            ends.append(Place(name, interface))
        if kind:
            self.segments.append(Segment(kind, tuple(ends)))
            for end in ends:
                for other in ends:
                    if end != other:
                        address = self.interfaces[other.router][other.interface].subnets[0].address
                        self.neighbours[end.router].append((other.router, end.interface, address))

    def shut_some(self) -> None:
        """Shuts now and then an end of a lan, or both ends of a point-to-point link, seldom one of them."""
        for segment in self.segments:
            if not self.chance(0.08):
                continue
            ends = segment.ends if segment.kind == "p2p" and self.chance(0.7) else (self.random.choice(segment.ends),)
            for end in ends:
                self.interfaces[end.router][end.interface] = dataclasses.replace(self.interfaces[end.router][end.interface], shut=True)

    # ---- routers

    def router(self, name: str) -> Router:
        interfaces = dict(self.interfaces[name])
        edges = [one for one in interfaces if not any(Place(name, one) in segment.ends for segment in self.segments)]
        translates = bool(edges) and self.chance(0.3)
        if translates:
            inward = self.chance(0.8)
            for one, interface in interfaces.items():
                interfaces[one] = dataclasses.replace(interface, side="inside" if (one in edges) == inward else "outside")
        lists = self.lists() if self.chance(0.55) else {}
        for one, interface in interfaces.items():
            if lists and self.chance(0.5):
                word = self.random.choice(["list_in", "list_in", "list_out"])
                named = self.random.choice([*lists, *lists, *lists, "NONE"])
                interfaces[one] = dataclasses.replace(interface, **{word: named})
        rules = self.rules(name, edges[0]) if translates else ()
        outer_rules = self.outer_rules() if translates and self.chance(0.5) else ()
        return Router(name, interfaces, self.routes(name), lists, rules, outer_rules)

    def routes(self, name: str) -> tuple[Route, ...]:
        """Routes to most subnets of the others, mostly towards them, and some that lead astray."""
        routes: list[Route] = []
        for other, interfaces in self.interfaces.items():
            for interface in interfaces.values():
                if other != name and self.chance(0.8):
                    subnet = interface.subnets[-1]
                    routes += self.ways(name, other, Subnet(subnet.first, subnet.length))
        for address in ("203.0.113.0", "198.51.100.0"):
            if self.chance(0.6):
                routes += self.ways(name, self.random.choice(list(self.interfaces)), Subnet(number(address), 24))
        if self.chance(0.6):
            routes += self.defaults(name)
        for _ in range(self.random.choice([0, 1, 1, 2])):
            routes.append(self.astray(name))
        local = {(Subnet(s.first, s.length)) for i in self.interfaces[name].values() for s in i.subnets}
        # (Of two lines that differ in their distance alone a router keeps the later one.)
        once = {route[:3]: route for route in routes}.values()
        kept = [route for route in once if route.prefix not in local or self.chance(0.1)]
        self.random.shuffle(kept)
        return tuple(kept)

    def way(self, name: str, other: str) -> Optional[tuple[str, str, int]]:
        """A neighbour on a shortest way, or on none."""
        distances = {other: 0}
        queue = [other]
        for here in queue:
            for there, _, _ in self.neighbours[here]:
                if there not in distances:
                    distances[there] = distances[here] + 1
                    queue.append(there)
        near = [one for one in self.neighbours[name] if distances.get(one[0], 99) < distances.get(name, 99)]
        ways = near if near and self.chance(0.9) else self.neighbours[name]
        return self.random.choice(ways) if ways else None

    def ways(self, name: str, other: str, prefix: Subnet) -> list[Route]:
        """One to three routes for a prefix of another router."""
        routes: list[Route] = []
        for _ in range(self.random.choice([1, 1, 1, 2, 3])):
            way = self.way(name, other)
            if way is None:
                return routes
            distance = 1 if not routes or self.chance(0.6) else self.random.choice([5, 200, 255])
            routes.append(self.route(prefix, way, other, distance))
        return routes

    def route(self, prefix: Subnet, way: tuple[str, str, int], other: str, distance: int) -> Route:
        _, interface, next_hop = way
        kind = self.random.choice(["hop", "hop", "hop", "both", "both", "interface", "recursive"])
        if kind == "recursive":
            far = self.random.choice(list(self.interfaces[other].values())).subnets[0].address
            return Route(prefix, None, far, distance)
        if kind == "hop":
            return Route(prefix, None, next_hop, distance)
        return Route(prefix, interface, next_hop if kind == "both" else None, distance)

    def defaults(self, name: str) -> list[Route]:
        """A default, and now and then one that floats or is equal."""
        prefix = Subnet(0, 0)
        ways = self.random.sample(self.neighbours[name], min(2, len(self.neighbours[name])))
        if not ways or not self.chance(0.8):
            edge = list(self.interfaces[name])[-1]
            return [Route(prefix, edge, None)]
        routes = [self.route(prefix, ways[0], ways[0][0], 1)]
        if len(ways) > 1 and self.chance(0.5):
            routes.append(self.route(prefix, ways[1], ways[1][0], self.random.choice([1, 250])))
        return routes

    def astray(self, name: str) -> Route:
        """A route that nobody asked for: to Null0, by a next hop that isn't there, of a part of a subnet."""
        base = number("10.0.0.0") + (self.random.randint(1, self.next_subnet) << 8) + self.random.choice([0, 128, 64, 4, 200])
        length = self.random.choice([16, 22, 25, 26, 30, 31, 32])
        prefix = Subnet(base & mask_of(length), length)
        interface = self.random.choice(list(self.interfaces[name]))
        subnet = self.interfaces[name][interface].subnets[0]
        kind = self.random.randrange(6)
        if kind <= 1:
            return Route(prefix, NULL, None, self.random.choice([1, 1, 5]))
        if kind == 2:
            return Route(prefix, interface, None)
        if kind == 3:
            return Route(prefix, None, self.random.choice([subnet.first, subnet.last, subnet.last - 1, subnet.address]))
        if kind == 4:
            return Route(prefix, interface, number("10.0.0.9") + (self.random.randint(1, 12) << 8))
        return Route(prefix, None, number("10.0.0.9") + (self.random.randint(1, 12) << 8))

    # ---- lists and translation

    def lists(self) -> dict[str, tuple[Entry, ...]]:
        names = self.random.sample(["7", "101", "EDGE"], self.random.choice([1, 2]))
        return {name: self.list_of(is_standard(name)) for name in names}

    def list_of(self, standard: bool) -> tuple[Entry, ...]:
        entries = [self.entry(standard) for _ in range(self.random.choice([1, 2, 3, 4, 6]))]
        if self.chance(0.75):
            entries.append(Entry(True))
        return tuple(entries)

    def block(self) -> Block:
        kind = self.random.randrange(5)
        address = number("10.0.0.0") + (self.random.randint(1, self.next_subnet) << 8) + self.random.choice([0, 1, 5, 128, 130, 200])
        if kind <= 1:
            return ANY
        if kind == 2:
            return Block(address, 0)
        wildcard = self.random.choice([0xFF, 0xFF, 0x7F, 0x3, 0xFF00, 0xFFFF, 0x1, 0xAA, 0x700])
        return Block(address & ~wildcard, wildcard)

    def ports(self) -> PortTest:
        word = self.random.choice(["eq", "eq", "neq", "gt", "lt", "range"])
        port = self.random.choice([22, 80, 443, 1023, 5000])
        if word == "eq":
            return PortTest(word, tuple(sorted({port, *self.random.sample([53, 80, 8080], self.random.choice([0, 0, 1, 2]))})))
        return PortTest(word, (port, port + self.random.choice([0, 1, 100])) if word == "range" else (port,))

    def entry(self, standard: bool) -> Entry:
        permit = self.chance(0.45)
        if standard:
            return Entry(permit, source=self.block())
        protocol = self.random.choice([None, 6, 6, 6, 17, 17, 1, 1, 50])
        parts: dict = {}
        if protocol in (6, 17):
            if self.chance(0.3):
                parts["source_port"] = self.ports()
            if self.chance(0.6):
                parts["destination_port"] = self.ports()
        if protocol == 6 and self.chance(0.5):
            parts["flags"] = self.random.choice([
                FlagTest("match-any", 16 | 4, 0), FlagTest("match-all", 2, 16), FlagTest("match-any", 1, 8), FlagTest("match-all", 2, 0),
                FlagTest("match-all", 17, 34)])
        if protocol == 1 and self.chance(0.7):
            parts["icmp"] = self.random.choice([(8, None), (0, None), (3, 1), (3, None), (13, 0)])
        return Entry(permit, protocol, self.block(), self.block(), **parts)

    def rules(self, name: str, edge: str) -> tuple[Rule, ...]:
        """Rules for hosts behind an interface, each local and each global side once."""
        subnet = self.interfaces[name][edge].subnets[0]
        hosts = [address for address in range(subnet.first + 1, min(subnet.last, subnet.first + 9)) if address != subnet.address]
        self.random.shuffle(hosts)
        last = int(name[1:]) * 10
        rules = [Rule(None, hosts[0], 0, number("203.0.113.0") + last, 0)]
        if self.chance(0.7) and len(hosts) > 1:
            protocol = self.random.choice([6, 17])
            outer = number("203.0.113.0") + last + self.random.choice([0, 1])
            rules.append(Rule(protocol, hosts[1], self.random.choice([80, 443]), outer, self.random.choice([80, 8080])))
        if self.chance(0.3) and len(hosts) > 2:
            rules.append(Rule(6, hosts[0], 22, number("203.0.113.0") + last + 1, 2222))
        self.random.shuffle(rules)
        return tuple(rules)

    def outer_rules(self) -> tuple[OuterRule, ...]:
        rules = [OuterRule(number("198.51.100.7"), number("10.0.1.77")), OuterRule(number("198.51.100.8"), number("198.51.100.77"))]
        return tuple(self.random.sample(rules, self.random.choice([1, 2])))
