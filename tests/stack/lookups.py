"""The kernel's lookup beside `trace`: a router of many routes, and addresses at borders of their prefixes.

The kernel is asked for the whole route that it takes (`ip route get fibmatch`), with all of its ways, for a packet that comes in at an
interface. So the ways are compared as sets.
"""
import json
import os
import random
import shutil
from collections import Counter
from typing import Optional

from classes import NULL_BESIDE, REWRITINGS, SEVERAL, best_prefix, installed_routes, rewritten
from headers import Header, Packet, around
from networks import ALL_ONES, NULL, Interface, Network, Place, Route, Router, Subnet, dotted, mask_of, number
from runs import Judge, Tally
from topology import Topology
from verifier import State

ENTRY = "Ethernet0"
SOURCE = number("77.7.7.7")


class Maker:
    """Draws a router with four to six interfaces that lead out, and some dozens of routes whose prefixes hold one another."""

    def __init__(self, seed: int):
        self.random = random.Random(seed)

    def chance(self, part: float) -> bool:
        return self.random.random() < part

    def network(self) -> Network:
        interfaces = {}
        for k in range(self.random.randint(4, 6)):
            length = self.random.choice([24, 24, 29, 30, 31, 28, 16 if k == 0 else 26])
            base = number("10.0.0.0") + (k << 16) + (self.random.choice([0, 64, 128]) << 8 if length > 16 else 0)
            address = base + (self.random.randint(0, 1) if length == 31 else self.random.randint(1, 2 ** (32 - length) - 2))
            interfaces[f"Ethernet{k}"] = Interface((Subnet(address, length),), shut=k > 1 and self.chance(0.1))
        routes: dict[tuple, Route] = {}
        for _ in range(self.random.randint(20, 60)):
            route = self.route(interfaces, list(routes.values()))
            routes[route[:3]] = route
        router = simple(Router("R1", interfaces, tuple(routes.values())))
        return Network({"R1": router}, (), (Place("R1", ENTRY),))

    def prefix(self, routes: list[Route]) -> Subnet:
        """A prefix: by chance, the same as one before, or one within or around one before."""
        length = self.random.choice([0, 8, 12, 15, 16, 17, 20, 22, 23, 24, 25, 26, 29, 30, 31, 32])
        base = self.random.choice(["10.1.0.0", "10.2.64.0", "10.3.128.0", "172.16.0.0", "192.0.2.0", "9.255.255.255"])
        address = number(base) + self.random.choice([0, 1, 4, 128, 255, 256, 0x8000])
        if routes and self.chance(0.6):
            other = self.random.choice(routes).prefix
            length = other.length if self.chance(0.4) else min(32, max(8, other.length + self.random.choice([-8, -1, 1, 2, 8])))
            address = other.address | self.random.choice([0, self.random.randrange(2**32) & ~mask_of(other.length)])
        return Subnet(address & mask_of(length), length)

    def route(self, interfaces: dict[str, Interface], routes: list[Route]) -> Route:
        prefix = self.prefix(routes)
        name = self.random.choice(list(interfaces))
        subnet = interfaces[name].subnets[0]
        near = [subnet.first, subnet.first + 1, subnet.last - 1, subnet.address ^ 1, subnet.address]
        neighbour = subnet.last if self.chance(0.03) else self.random.choice(near)
        distance = self.random.choice([1, 1, 1, 1, 5, 200, 255])
        kind = self.random.randrange(10)
        if kind < 4:
            return Route(prefix, None, neighbour, distance)
        if kind < 6:
            return Route(prefix, name, None, distance)
        if kind < 7:
            # (Of an own address beside an interface IOS refuses the line.)
            return Route(prefix, name, neighbour if neighbour != subnet.address and self.chance(0.5) else number("198.51.100.9"), distance)
        if kind < 8:
            return Route(prefix, NULL, None, distance)
        if routes:
            far = self.random.choice(routes).prefix
            return Route(prefix, None, far.first | self.random.randrange(2**32) & ~mask_of(far.length), distance)
        return Route(prefix, None, neighbour, distance)


def mixed(router: Router) -> set[tuple[Subnet, int]]:
    """The prefixes and distances at which Null0 stands beside another way, be that one valid or not."""
    found: dict[tuple[Subnet, int], set[bool]] = {}
    for route in router.routes:
        found.setdefault((route.prefix, route.distance), set()).add(route.interface == NULL)
    return {group for group, kinds in found.items() if len(kinds) > 1}


def tangled(router: Router, installed: dict[Subnet, list[Route]], route: Route) -> list[Route]:
    """The routes, of those by which this one is looked up and itself, of which FRR makes something by the order in which routes came."""
    if route.interface is not None or route.next_hop is None:
        return []
    prefix = best_prefix(installed, route.next_hop)
    if prefix is None or prefix == route.prefix:
        return []
    discards = [one for one in installed[prefix] if one.interface == NULL]
    if discards and (prefix, discards[0].distance) in mixed(router):
        return discards
    if discards and len(installed[route.prefix]) > 1:
        return [route]
    hops = [best_prefix(installed, one.next_hop) for one in installed[prefix] if one.interface is None and one.next_hop is not None]
    return [] if all(hop is not None and installed[hop][0].distance == 0 for hop in hops) else [route]


def simple(router: Router) -> Router:
    """The router without what FRR decides by the order in which routes came: next hops that are looked up more than twice before a connected
    subnet has them, and a discard beside another way where a next hop is looked up, or found so. A route in its own prefix may be."""
    while True:
        installed = installed_routes(router)
        left_out = [one for same in installed.values() for route in same for one in tangled(router, installed, route)]
        if not left_out:
            return router
        router = router.changed(routes=tuple(route for route in router.routes if route != left_out[0]))


def addresses(network: Network, draw: random.Random, count: int) -> list[int]:
    """Addresses at the borders of all prefixes, and by chance."""
    router = network.routers["R1"]
    found: set[int] = {0, 1, ALL_ONES, number("224.0.0.5"), number("239.255.255.255"), number("240.0.0.1"), number("223.255.255.255")}
    for prefix in [route.prefix for route in router.routes] + [subnet for _, subnet in router.live()]:
        found |= around(prefix.address, prefix.length)
    found |= {route.next_hop for route in router.routes if route.next_hop is not None} | {subnet.address for _, subnet in router.live()}
    border = sorted(found)
    chosen = border if len(border) <= count else draw.sample(border, count)
    while len(chosen) < count:
        prefix = draw.choice(router.routes).prefix
        inside = prefix.address | draw.randrange(2**32) & ~mask_of(prefix.length)
        chosen.append(inside ^ draw.choice([0, 0, 0, 1 << draw.randrange(32)]))
    return chosen


def told(state: State) -> frozenset[str]:
    """What the trace's state says of the lookup: words of its ways, `drop`, or `own`."""
    ways = set()
    for line in state.lines:
        words = line.split()
        if words[0] == "out":
            ways.add(f"{words[1]} {words[3]}")
        elif words[0] in ("discard", "broadcast"):
            ways.add("drop")
        elif words[0] == "local":
            ways.add("own")
    return frozenset(ways)


def route_ways(route: dict, address: int) -> frozenset[str]:
    """The ways of a route as the kernel tells it, in the same words."""
    kind = route.get("type", "unicast")
    if kind != "unicast":
        return frozenset({"own" if kind == "local" else "taken" if kind == "broadcast" else "drop"})
    hops = route.get("nexthops") or [route]
    return frozenset(f"{hop['dev']} {hop.get('gateway', dotted(address))}" for hop in hops)


def ask_kernel(topology: Topology, asked: list[int]) -> list[frozenset[str]]:
    """What the kernel does with each address; `drop` where it answers with an error."""
    lines = [f"route get fibmatch {dotted(address)} from {dotted(SOURCE)} iif {ENTRY}" for address in asked]
    done = topology.routers["R1"].run(["ip", "-j", "-force", "-batch", "-"], "\n".join(lines) + "\n", fails=True)
    failed = {int(line.rpartition(":")[2]) for line in done.stderr.splitlines() if line.startswith("Command failed")}
    answers = iter(done.stdout.splitlines())
    found = []
    for k, address in enumerate(asked, 1):
        if k in failed:
            found.append(frozenset({"drop"}))
        else:
            found.append(route_ways(json.loads(next(line for line in answers if line.startswith("[")))[0], address))
    return found


def classify(network: Network, address: int, rules: frozenset[str], kernel: frozenset[str], judge: Judge) -> Optional[str]:
    """The class of a lookup that differs, or None."""
    if rules == {"drop"} and kernel == {"taken"}:
        return "broadcast or multicast that the router takes"
    if address == 0 or address >> 24 == 127:
        return "source or destination that no host can have"
    if address >> 28 == 15:
        ordinary = number("77.0.0.0") | address & 0xFFFFFF
        same = frozenset(way.replace(dotted(address), dotted(ordinary)) for way in kernel)
        as_rules = ways_of(network, ordinary, judge)
        if same == as_rules:
            return "destination in 240.0.0.0/4"
        return SEVERAL if classify(network, ordinary, as_rules, same, judge) else None
    for name, rewrite in [("", lambda same: same), *REWRITINGS.items(), (SEVERAL, rewritten)]:
        for kept in (None, True, False):
            read = rewrite(network if kept is None else one_kept(network, kept))
            if read != network and ways_of(read, address, judge) == kernel:
                return name if kept is None else SEVERAL if name else NULL_BESIDE
    return None


def one_kept(network: Network, discard: bool) -> Network:
    """The network in which of Null0 and other ways of one prefix and distance only the one, or the others, are left, as FRR does it."""
    router = network.routers["R1"]
    groups = mixed(router)
    return network.with_router(router.changed(routes=tuple(
        route for route in router.routes if (route.prefix, route.distance) not in groups or (route.interface == NULL) == discard)))


def ways_of(network: Network, address: int, judge: Judge) -> frozenset[str]:
    packet = Packet(Place("R1", ENTRY), Header(address, SOURCE, 50, 0, 0, 0), 255)
    return told(judge.trace(network, packet).states[0])


def try_router(network: Network, stack: Network, seed: int, count: int, program: str, folder: str, tally: Tally) -> Counter:
    """Builds a router's stack and compares so many lookups; gives how many ways they had."""
    os.makedirs(folder)
    os.chmod(folder, 0o755)
    topology = Topology(stack, os.path.join(folder, "run"))
    judge = Judge(program, folder, tally)
    sizes: Counter = Counter()
    try:
        asked = addresses(network, random.Random(seed), count)
        for address, kernel in zip(asked, ask_kernel(topology, asked)):
            tally.lookups += 1
            rules = ways_of(network, address, judge)
            sizes[len(rules)] += 1
            if rules == kernel:
                tally.agreed["lookup of several ways" if len(rules) > 1 else "lookup"] += 1
                continue
            name = classify(network, address, rules, kernel, judge)
            if name is None:
                tally.differs(f"router {seed}: {dotted(address)}: rules {' | '.join(sorted(rules))}, kernel {' | '.join(sorted(kernel))}")
            else:
                tally.classes["lookup: " + name] += 1
    finally:
        topology.close()
        shutil.rmtree(folder, ignore_errors=True)
    return sizes
