"""Named classes of differences: places where the rules and the stack differ by choice.

A class is no excuse for whatever the stack does. One of headers says exactly what the stack does in place of what the rules do. One of
lines rewrites the network as a router reads it, and explains a difference only where the verifier, asked of the rewritten network, says
what the stack did.
"""
import dataclasses
from typing import Callable, NamedTuple, Optional

from headers import Packet
from networks import ALL_ONES, NULL, Maker, Network, Place, Route, Router, Subnet, dotted, mask_of, number
from verifier import State, Trace

Retrace = Callable[[Network, Packet], Trace]
Rewriting = Callable[[Network], Network]


class Case(NamedTuple):
    """A packet of a network, what the verifier says of it, and what the stack did."""

    network: Network
    packet: Packet
    trace: Trace
    observed: str


# ---- routes as the rules take them


def connected(router: Router) -> list[Route]:
    return [Route(Subnet(subnet.first, subnet.length), name, None, 0) for name, subnet in router.live()]


def valid_routes(router: Router) -> set[Route]:
    """The least set of valid routes, connected ones with distance 0 (`DEFINITIONS.md`, Routes)."""
    own = {subnet.address for _, subnet in router.live()}
    usable = [route for route in router.routes if route.distance < 255 and route.next_hop not in own]
    valid = set(connected(router))
    valid |= {route for route in usable if route.interface == NULL}
    valid |= {route for route in usable if route.interface in router.interfaces and router.interfaces[route.interface].live()}
    size = -1
    while size != len(valid):
        size = len(valid)
        prefixes = {route.prefix for route in valid}
        valid |= {route for route in usable if route.interface is None and any(prefix.holds(route.next_hop or 0) for prefix in prefixes)}
    return valid


def installed_routes(router: Router) -> dict[Subnet, list[Route]]:
    """The valid routes of each prefix that have its least distance, in the order of the router's lines."""
    found: dict[Subnet, list[Route]] = {}
    valid = valid_routes(router)
    in_turn = [route for route in dict.fromkeys([*connected(router), *router.routes]) if route in valid]
    for route in sorted(in_turn, key=lambda one: one.distance):
        same = found.setdefault(route.prefix, [])
        if not same or same[0].distance == route.distance:
            same.append(route)
    return found


def best_prefix(installed: dict[Subnet, list[Route]], address: int) -> Optional[Subnet]:
    for length in range(32, -1, -1):
        prefix = Subnet(address & mask_of(length), length)
        if prefix in installed:
            return prefix
    return None


def prefixes_behind(installed: dict[Subnet, list[Route]], route: Route) -> set[Subnet]:
    """The prefixes by which a route by next hop alone is looked up, one after the other."""
    found: set[Subnet] = set()
    waiting = [route]
    while waiting:
        one = waiting.pop()
        if one.interface is None and one.next_hop is not None:
            prefix = best_prefix(installed, one.next_hop)
            if prefix is not None and prefix not in found:
                found.add(prefix)
                waiting += installed[prefix]
    return found


def gateways(installed: dict[Subnet, list[Route]], route: Route) -> set[int]:
    """The next hops that a route gives in the end; none for a destination that is its own next hop, and for a discard."""
    if route.interface is not None or route.next_hop is None:
        return {route.next_hop} if route.next_hop is not None else set()
    found: set[int] = set()
    waiting = [route.next_hop]
    for address in waiting:
        prefix = best_prefix(installed, address)
        for behind in installed[prefix] if prefix is not None else []:
            if behind.interface is None and behind.next_hop is not None and behind.next_hop not in waiting:
                waiting.append(behind.next_hop)
            elif behind.interface not in (None, NULL):
                found.add(address if behind.next_hop is None else behind.next_hop)
    return found


def without_circles(router: Router) -> Router:
    """The router without routes that are looked up in one another, of which FRR keeps those that came first. One in its own prefix may be."""
    while True:
        installed = installed_routes(router)
        circular = [route for same in installed.values() for route in same if route.interface is None and route.next_hop is not None
                    and best_prefix(installed, route.next_hop) != route.prefix and route.prefix in prefixes_behind(installed, route)]
        if not circular:
            return router
        router = router.changed(routes=tuple(route for route in router.routes if route != circular[0]))


# ---- networks as a router reads them


def every_router(change: Callable[[Router], Router]) -> Rewriting:
    def rewrite(network: Network) -> Network:
        return dataclasses.replace(network, routers={name: change(router) for name, router in network.routers.items()})

    return rewrite


def without_own_prefix(router: Router) -> Router:
    """No route by next hop alone that is found by its own prefix."""
    while True:
        installed = installed_routes(router)
        circular = [route for route in router.routes if route in valid_routes(router) and route.interface is None
                    and route.prefix in prefixes_behind(installed, route)]
        if not circular:
            return router
        router = router.changed(routes=tuple(route for route in router.routes if route not in circular))


def is_no_neighbour(router: Router, address: int) -> bool:
    """Whether no neighbour can have the address: a broadcast address of a subnet, or one outside the unicast ranges."""
    last = {subnet.last for _, subnet in router.live() if subnet.length <= 30}
    return address in last or address == 0 or address >= number("224.0.0.0")


def refused_routes(router: Router, installed: dict[Subnet, list[Route]]) -> list[Route]:
    """The routes that lead straight to an address that no neighbour can have: the kernel refuses them, with all ways of their prefixes."""
    found = []
    for route in (route for routes in installed.values() for route in routes):
        behind = None if route.interface is not None or route.next_hop is None else best_prefix(installed, route.next_hop)
        straight = behind is None or all(one.interface is not None and one.next_hop is None for one in installed[behind])
        if straight and any(is_no_neighbour(router, gateway) for gateway in gateways(installed, route)):
            found.append(route)
    return found


def without_broadcast_hops(router: Router) -> Router:
    """No route of a prefix of which one way has a next hop that no neighbour can have, and none whose next hop is found by such a prefix."""
    while True:
        installed = installed_routes(router)
        bad = {route.prefix for route in refused_routes(router, installed)}
        if not bad:
            return router
        kept = [route for route in router.routes if route.prefix not in bad and not (
            route.interface is None and route.next_hop is not None and best_prefix(installed, route.next_hop) in bad)]
        router = router.changed(routes=tuple(kept))


def unnamed_address(router: Router, installed: dict[Subnet, list[Route]], prefix: Subnet) -> Optional[int]:
    """An address of an installed prefix that is in no longer one and isn't the router's own; None where the first thousands have none."""
    own = {subnet.address for _, subnet in router.live()}
    longer = [one for one in installed if one.length > prefix.length]
    for address in range(prefix.first, min(prefix.last, prefix.first + 9999) + 1):
        if address not in own and not any(one.holds(address) for one in longer):
            return address
    return None


def with_own_hops(router: Router) -> Router:
    """FRR refuses a next hop that is the router's own address only where a connected route finds it. Where another one does, the route counts:
    it is written by another address of that one's prefix."""
    while True:
        installed = installed_routes(router)
        own = {subnet.address for _, subnet in router.live()}
        for k, route in enumerate(router.routes):
            prefix = best_prefix(installed, route.next_hop) if route.interface is None and route.next_hop in own else None
            if prefix is not None and route.distance < 255 and prefix != route.prefix and installed[prefix][0].distance != 0:
                other = unnamed_address(router, installed, prefix)
                if other is not None:
                    router = router.changed(routes=router.routes[:k] + (route._replace(next_hop=other),) + router.routes[k + 1:])
                    break
        else:
            return router


def both_ends_shut(network: Network) -> Network:
    """No end of a point-to-point link is up where the other one isn't."""
    for segment in network.segments:
        if segment.kind == "p2p" and not all(network.interface(end).live() for end in segment.ends):
            for end in segment.ends:
                network = network.with_interface(end, dataclasses.replace(network.interface(end), shut=True))
    return network


def drawn_network(seed: int, routers: tuple[int, int] = (3, 5)) -> Network:
    """The random network of a number, with so many routers."""
    return every_router(without_circles)(Maker(seed, routers).network())


REWRITINGS: dict[str, Rewriting] = {
    "next hop in the route's own prefix": every_router(without_own_prefix),
    "next hop that no neighbour can have": every_router(without_broadcast_hops),
    "next hop that is the router's own address": every_router(with_own_hops),
    "one end of a p2p is shut": both_ends_shut,
}
SEVERAL = "several of these at once"


def rewritten(network: Network) -> Network:
    """The network with all rewritings, until none changes it."""
    before = None
    while before != network:
        before = network
        for rewrite in REWRITINGS.values():
            network = rewrite(network)
    return network


# ---- headers


def addresses_at(state: State) -> tuple[set[int], set[int]]:
    """The sources and the destinations that the packet has at a state, before and after translation from outside."""
    sources, destinations = {state.header.src}, {state.header.dst}
    for line in state.lines:
        words = line.split()
        if words[:2] == ["nat", "src"]:
            sources.add(number(words[2]))
        if words[:2] == ["nat", "dst"]:
            destinations.add(number(words[2]))
    return sources, destinations


def is_loopback(address: int) -> bool:
    return address >> 24 == 127


def is_martian(case: Case, retrace: Retrace) -> bool:
    """Linux drops what comes from or is for addresses that no host on a network can have."""
    for state in case.trace.states:
        sources, destinations = addresses_at(state)
        from_nobody = any(is_loopback(source) or source in (0, ALL_ONES) or source >> 28 == 14 for source in sources)
        if from_nobody or any(is_loopback(destination) or destination == 0 for destination in destinations):
            return case.observed == "drop"
    return False


def is_taken(case: Case, retrace: Retrace) -> bool:
    """What is for a broadcast address of a router's subnet, for all hosts or for all routers' neighbours, Linux takes as its own."""
    for state in case.trace.states:
        router = case.network.routers[state.place.router]
        heard = {subnet.last for _, subnet in router.live() if subnet.length <= 30} | {ALL_ONES, number("224.0.0.1")}
        if "broadcast" in state.lines and any(f"taken {router.name} {name}" == case.observed
                                              for name in map(dotted, addresses_at(state)[1] & heard)):
            return True
    return False


def is_reserved(case: Case, retrace: Retrace) -> bool:
    """Linux forwards 240.0.0.0/4 like any address: as the rules do one that no line names."""
    header = case.packet.header
    if header.dst >> 28 != 15 or header.dst == ALL_ONES:
        return False
    ordinary = header._replace(dst=number("77.0.0.0") | header.dst & 0xFFFFFF)
    return case.observed in retrace(case.network, case.packet._replace(header=ordinary)).outcomes


HEADERS: dict[str, Callable[[Case, Retrace], bool]] = {
    "source or destination that no host can have": is_martian,
    "broadcast or multicast that the router takes": is_taken,
    "destination in 240.0.0.0/4": is_reserved,
}
NULL_BESIDE = "Null0 beside another way"


def classify(case: Case, retrace: Retrace) -> Optional[str]:
    """The name of the class that a difference is in, or None."""
    for name, explains in HEADERS.items():
        if explains(case, retrace):
            return name
    for name, rewrite in [*REWRITINGS.items(), (SEVERAL, rewritten)]:
        network = rewrite(case.network)
        if network == case.network:
            continue
        trace = retrace(network, case.packet)
        if case.observed in trace.outcomes:
            return name
        if any(explains(case._replace(network=network, trace=trace), retrace) for explains in HEADERS.values()):
            return SEVERAL
    return None


def shut_places(network: Network, places: list[Place]) -> Network:
    """The network with these interfaces shut."""
    for place in places:
        network = network.with_interface(place, dataclasses.replace(network.interface(place), shut=True))
    return network
