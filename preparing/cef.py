"""`show ip cef` as a second source: what forwards has to be what the table of routes says."""
from .addresses import ALL_ONES, address_of, dotted, mask_of
from .faults import Refused
from .route_tables import parsed

DROPS = ("drop", "discard")
# Prefixes that a device has besides its routes (RFC 1122: this network, loopback; multicast and what lies above it).
BESIDES = ((0, 8), (127 << 24, 8), (224 << 24, 4), (224 << 24, 24), (240 << 24, 4))


def read_cef(path):
    """The prefixes of the text, each with its line and its ways: pairs of an interface and a next hop, or a word."""
    prefixes, last = {}, None
    for row in parsed("show_ip_cef.textfsm", path):
        number = int(row["line"])
        if row["prefix"]:
            prefix = address_of(row["prefix"])
            if prefix is None or int(row["length"]) > 32:
                raise Refused(path, number, "BadWord", row["prefix"])
            last = prefix, int(row["length"])
            if last in prefixes:
                raise Refused(path, number, "PrefixTwice", row["prefix"])
            prefixes[last] = (number, set())
        if last is None:
            raise Refused(path, number, "PrefixMissing", row["hop"] or row["word"])
        hop = address_of(row["hop"]) if row["hop"] else None
        if row["hop"] and hop is None:
            raise Refused(path, number, "BadWord", row["hop"])
        prefixes[last][1].add((row["interface"], hop) if row["hop"] else row["word"] if not row["interface"] else (row["interface"], row["word"]))
    if not prefixes:
        raise Refused(path, 0, "NoTable")
    return prefixes


class Lookup:
    """The routes of a table by their prefixes, and where they lead."""

    def __init__(self, table):
        self.ways = {}
        # Where a next hop leads, by the hop and by how often it may still be looked up again.
        self.known = {}
        for route in table.routes:
            self.ways.setdefault((route.prefix, route.length), []).append(route)

    def longest(self, address):
        """The ways of the longest prefix that holds an address."""
        for length in range(32, -1, -1):
            ways = self.ways.get((address & mask_of(length), length))
            if ways:
                return ways
        return []

    def resolved(self, ways, depth=32):
        """Where these ways lead: pairs of an interface and a next hop, `drop` for Null0; a next hop alone is looked up."""
        found = set()
        for way in ways:
            if way.interface == "Null0" or depth == 0:
                found.add("drop")
            elif way.interface is not None:
                found.add((way.interface, way.hop))
            else:
                if (way.hop, depth) not in self.known:
                    self.known[way.hop, depth] = self.resolved(self.longest(way.hop), depth - 1) or {"drop"}
                further = self.known[way.hop, depth]
                found |= {one if one == "drop" or one[1] is not None else (one[0], way.hop) for one in further}
        return found

    def wanted(self, prefix, length):
        """What the forwarding of a prefix has to be, or None where the table doesn't have it."""
        ways = self.ways.get((prefix, length))
        return None if ways is None else self.resolved(ways)

    def is_own(self, address):
        """Whether the table has the address as one of the device's own."""
        return any(way.code in ("C", "L") for way in self.ways.get((address, 32), []))


def forwarding(ways):
    """The ways of a prefix in one form: a drop has many words, and an attached prefix has no next hop."""
    found = set()
    for way in ways:
        if way in DROPS or way == "no route" or way in (("Null0", "attached"), ("Null0", "drop"), ("Null0", "discard")):
            found.add("drop")
        elif isinstance(way, tuple):
            found.add((way[0], None if way[1] == "attached" else way[1]))
        else:
            found.add(way)
    return found


def is_besides(prefix, length, ways):
    """Whether a prefix is one that a device has without a route: an address of its own, a neighbour, the drops of all devices."""
    if (prefix, length) in BESIDES or (prefix, length) == (0, 0) and ways == {"no route"}:
        return True
    own = all(way in ("receive", "multicast") or isinstance(way, tuple) and way[1] in ("receive", "attached") for way in ways)
    return length == 32 and (own or prefix in (0, ALL_ONES))


def compare(path, table):
    """Refuses the first prefix in which the two sources differ."""
    prefixes, lookup = read_cef(path), Lookup(table)
    for (prefix, length), (number, ways) in prefixes.items():
        wanted = lookup.wanted(prefix, length)
        found = forwarding(ways)
        if wanted is None and is_besides(prefix, length, ways) or wanted == found:
            continue
        if wanted is not None and length == 32 and is_besides(prefix, length, ways) and lookup.is_own(prefix):
            continue
        if wanted is None and found == {"drop"} and (prefix, length) == (0, 0):
            continue
        raise Refused(path, number, "ForwardingDiffers", "%s/%d" % (dotted(prefix), length))
    for route in table.routes:
        if (route.prefix, route.length) not in prefixes:
            raise Refused(table.path, route.line, "ForwardingDiffers", route.text())
