"""Headers, drawn at borders of the fields that matter in a network as well as by chance."""
import random
from typing import NamedTuple

from networks import ALL_ONES, FLAG_BITS, Block, Entry, Network, Place, PortTest, dotted, mask_of


class Header(NamedTuple):
    """The fields that decide a packet's way. For ICMP `sport` is type * 256 + code and `dport` 0; flags are TCP's alone."""

    dst: int
    src: int
    proto: int
    dport: int
    sport: int
    flags: int

    def word(self) -> str:
        """The header as the verifier's `trace` takes it."""
        return f"{dotted(self.dst)},{dotted(self.src)},{self.proto},{self.dport},{self.sport},{self.flags}"


class Packet(NamedTuple):
    """A header that enters at a place with a TTL, 1 to 255."""

    place: Place
    header: Header
    ttl: int


# ICMP's types that ask or answer; about one of any other type Linux sends no message.
ICMP_QUERIES = (0, 8, 13, 14, 15, 16, 17, 18)
# Where special ranges begin and end: this network, loopback, link-local, multicast, reserved, broadcast.
SPECIAL = [0x00000000, 0x00000001, 0x00FFFFFF, 0x01000000, 0x7F000001, 0xA9FE0001, 0xDFFFFFFF, 0xE0000001, 0xE0000005, 0xEFFFFFFF, 0xF0000001,
           ALL_ONES]


def around(address: int, length: int) -> set[int]:
    """The first and the last address of a prefix, their neighbours, and one amid."""
    first = address & mask_of(length)
    last = first | ALL_ONES >> length
    return {one & ALL_ONES for one in (first - 1, first, first + 1, (first + last) // 2, last - 1, last, last + 1)}


def borders(network: Network) -> list[int]:
    """The addresses at borders of what a network's lines name."""
    found: set[int] = set()
    for router in network.routers.values():
        for _, subnet in router.live():
            found |= around(subnet.address, subnet.length) | {subnet.address}
        for route in router.routes:
            if route.prefix.length:
                found |= around(route.prefix.address, route.prefix.length)
            if route.next_hop is not None:
                found.add(route.next_hop)
        for entries in router.lists.values():
            for entry in entries:
                for block in (entry.source, entry.destination):
                    if block.wildcard != ALL_ONES:
                        found |= {block.address, block.address | block.wildcard, block.address ^ 1, block.address ^ 0x100}
        for rule in router.rules:
            found |= {rule.local, rule.outer, rule.outer + 1}
        for outer in router.outer_rules:
            found |= set(outer)
    return sorted(found)


def is_reached(network: Network, place: Place) -> bool:
    """Whether something can come in at a place: at the end of a point-to-point link only from an end that is up."""
    segment = network.segment_of(place)
    return segment is None or segment.kind == "lan" or all(network.interface(end).live() for end in segment.ends)


class Drawer:
    """Draws packets for a network."""

    def __init__(self, network: Network, seed: int):
        self.network = network
        self.random = random.Random(seed)
        self.borders = borders(network)
        self.places = [place for place in network.ingresses if is_reached(network, place)]
        routers = network.routers.values()
        self.lists = [entries for router in routers for entries in router.lists.values() if entries]
        self.rules = [rule for router in routers for rule in router.rules]
        self.ports = sorted({port for rule in self.rules if rule.protocol for port in (rule.local_port, rule.outer_port)} | {80, 443, 5000})
        self.hosts = [subnet.first + 2 for router in routers for _, subnet in router.live() if subnet.length < 30]
        self.far = [address for address in self.borders if network_is_far(address)] or self.borders

    def chance(self, part: float) -> bool:
        return self.random.random() < part

    def packet(self) -> Packet:
        place = self.random.choice(self.places)
        ttl = 255 if self.chance(0.7) else self.random.choice([1, 1, 2, 2, 3, 3, 4, 5, 6, 64, 254])
        return Packet(place, self.header(place), ttl)

    def address(self) -> int:
        draw = self.random.random()
        if draw < 0.6:
            return self.random.choice(self.borders)
        if draw < 0.9:
            return self.random.choice(self.hosts)
        if draw < 0.97:
            return self.random.choice(self.borders) ^ 1 << self.random.randrange(12)
        return self.random.choice(SPECIAL) if self.chance(0.5) else self.random.randrange(2**32)

    def header(self, place: Place) -> Header:
        """A header by chance, one that an entry matches, or one that a rule of translation matches; with a field at a border."""
        header = self.by_chance()
        router = self.network.routers[place.router]
        names = [one for interface in router.interfaces.values() for one in (interface.list_in, interface.list_out)]
        lists = [router.lists[name] for name in names if name in router.lists] or self.lists
        if lists and self.chance(0.5):
            header = self.matching(self.random.choice(self.random.choice(lists)), header)
        elif self.rules and self.chance(0.4):
            rule = self.random.choice(self.rules)
            proto = rule.protocol or header.proto
            if self.chance(0.5):
                header = header._replace(dst=rule.outer, **({"proto": proto, "dport": rule.outer_port} if rule.protocol else {}))
            else:
                header = header._replace(src=rule.local, **({"proto": proto, "sport": rule.local_port} if rule.protocol else {}))
        return self.sensible(header)

    def by_chance(self) -> Header:
        proto = self.random.choice([6, 6, 6, 17, 17, 1, 1, 50, 47, 89, self.random.randrange(256)])
        port = self.random.choice([*self.ports, 0, 1, 22, 1023, 1024, 65535, self.random.randrange(65536)])
        flags = self.random.choice([0, 2, 16, 18, 4, 17, 24, self.random.randrange(256)])
        kind = self.random.choice([8, 8, 0, 13, 3, 11, self.random.randrange(256)])
        sport = kind << 8 | self.random.choice([0, 0, 1, 3]) if proto == 1 else self.random.choice([5000, self.random.randrange(65536)])
        return Header(self.address(), self.address(), proto, port, sport, flags)

    def matching(self, entry: Entry, header: Header) -> Header:
        """The header, changed so that the entry matches it, and then perhaps so that a field of it just doesn't."""
        changed = header._replace(src=self.within(entry.source, header.src), dst=self.within(entry.destination, header.dst))
        if entry.protocol is not None:
            changed = changed._replace(proto=entry.protocol)
        if entry.source_port is not None:
            changed = changed._replace(sport=self.port(entry.source_port))
        if entry.destination_port is not None:
            changed = changed._replace(dport=self.port(entry.destination_port))
        if entry.icmp is not None:
            kind, code = entry.icmp
            kind += self.random.choice([0, 0, 0, 1])
            changed = changed._replace(sport=kind << 8 | (code if code is not None and self.chance(0.6) else self.random.choice([0, 1, 3])))
        if entry.flags is not None:
            flags = entry.flags.ones if self.chance(0.7) else self.random.choice(list(FLAG_BITS.values()))
            changed = changed._replace(flags=flags ^ self.random.choice([0, 0, 8, 16, 2, 1]))
        if self.chance(0.2):
            changed = changed._replace(proto=self.random.choice([6, 17, 1, 50]))
        return changed

    def within(self, block: Block, address: int) -> int:
        """An address of the block, or mostly at its border, just outside; the address itself where the block has all."""
        if block.wildcard == ALL_ONES:
            return address
        inside = block.address | self.random.choice([0, block.wildcard, self.random.randrange(2**32) & block.wildcard])
        return inside ^ (1 << self.random.randrange(16)) if self.chance(0.3) else inside

    def port(self, test: PortTest) -> int:
        """A port at a border of the test."""
        return min(65535, max(0, self.random.choice(test.ports) + self.random.choice([-1, 0, 0, 0, 1])))

    def sensible(self, header: Header) -> Header:
        """The header without ports and flags that a packet of its protocol can't have."""
        if header.proto == 6:
            return header
        if header.proto == 17:
            return header._replace(flags=0)
        return header._replace(flags=0, dport=0, sport=header.sport if header.proto == 1 else 0)


def network_is_far(address: int) -> bool:
    """Whether the address is one of those of translation."""
    return address >> 24 != 10
