"""Would an error be seen? Each kind of rule is spoiled once, on the stack's side alone, and the run must notice.

A spoiler gives a network that differs from the one that the verifier reads in one rule of its kind, or None where there is no such rule.
"""
import dataclasses
import os
import random
from typing import Callable, Iterator, Optional

from classes import drawn_network, rewritten
from failures import try_failures
from filters import LIST_FIRST, PLAIN_FIRST, TRANSLATION_FIRST
from headers import Drawer, Packet
from networks import ANY, NULL, Block, Entry, FlagTest, Interface, Network, PortTest, Route, Router, Rule, Subnet
from orders import deciding
from runs import Tally, Trial

Spoiler = Callable[[Network, random.Random], Optional[Network]]


def of_routers(changes: Callable[[Router], Iterator[Router]]) -> Spoiler:
    """One of all changes of a router, by chance."""

    def spoil(network: Network, draw: random.Random) -> Optional[Network]:
        changed = [one for router in network.routers.values() for one in changes(router)]
        return network.with_router(draw.choice(changed)) if changed else None

    return spoil


def routes(fits: Callable[[Router, Route], bool], spoilt: Callable[[Router, Route], Optional[Route]]) -> Spoiler:
    """One route that fits becomes another one, or none."""

    def changes(router: Router) -> Iterator[Router]:
        for k, route in enumerate(router.routes):
            if route.distance < 255 and fits(router, route):
                other = spoilt(router, route)
                if other != route:
                    yield router.changed(routes=router.routes[:k] + ((other,) if other is not None else ()) + router.routes[k + 1:])

    return of_routers(changes)


def other_neighbour(router: Router, route: Route) -> Route:
    """The route by a neighbour in another subnet."""
    for name, subnet in router.live():
        if name != route.interface and (route.next_hop is None or not subnet.holds(route.next_hop)):
            hop = subnet.address ^ 1
            if route.interface is None:
                return route._replace(next_hop=hop)
            return route._replace(interface=name, next_hop=None if route.next_hop is None else hop)
    return route


def is_best(router: Router, route: Route) -> bool:
    """Whether a route of a greater distance stands behind this one."""
    return any(other.prefix == route.prefix and 255 > other.distance > route.distance for other in router.routes)


def alone(router: Router, route: Route) -> bool:
    return sum(other.prefix == route.prefix for other in router.routes) == 1


def interfaces(spoilt: Callable[[Interface], Optional[Interface]]) -> Spoiler:
    def changes(router: Router) -> Iterator[Router]:
        for name, interface in router.interfaces.items():
            other = spoilt(interface)
            if other is not None:
                yield router.changed(interfaces={**router.interfaces, name: other})

    return of_routers(changes)


def longer_mask(interface: Interface) -> Optional[Interface]:
    subnet = interface.subnets[0]
    if interface.shut or subnet.length > 28:
        return None
    return dataclasses.replace(interface, subnets=(Subnet(subnet.address, subnet.length + 1), *interface.subnets[1:]))


def other_address(interface: Interface) -> Optional[Interface]:
    subnet = interface.subnets[0]
    if interface.shut or subnet.length > 29:
        return None
    address = subnet.address + 1 if subnet.address + 1 < subnet.last else subnet.address - 1
    return dataclasses.replace(interface, subnets=(Subnet(address, subnet.length), *interface.subnets[1:]))


def turned(interface: Interface) -> Optional[Interface]:
    """A list in the other direction."""
    if interface.shut or (interface.list_in is None) == (interface.list_out is None):
        return None
    return dataclasses.replace(interface, list_in=interface.list_out, list_out=interface.list_in)


def other_side(interface: Interface) -> Optional[Interface]:
    if interface.side is None or interface.shut:
        return None
    return dataclasses.replace(interface, side="inside" if interface.side == "outside" else "outside")


def used_lists(router: Router) -> list[str]:
    named = {one for interface in router.interfaces.values() if interface.live() for one in (interface.list_in, interface.list_out)}
    return [name for name in router.lists if name in named]


def entries(spoilt: Callable[[Entry], Optional[Entry]]) -> Spoiler:
    """One entry of a list that is on an interface."""

    def changes(router: Router) -> Iterator[Router]:
        for name in used_lists(router):
            for k, entry in enumerate(router.lists[name]):
                other = spoilt(entry)
                if other is not None:
                    listed = router.lists[name]
                    yield router.changed(lists={**router.lists, name: listed[:k] + (other,) + listed[k + 1:]})

    return of_routers(changes)


def lists(spoilt: Callable[[tuple[Entry, ...]], Optional[tuple[Entry, ...]]]) -> Spoiler:
    def changes(router: Router) -> Iterator[Router]:
        for name in used_lists(router):
            other = spoilt(router.lists[name])
            if other is not None:
                yield router.changed(lists={**router.lists, name: other})

    return of_routers(changes)


def other_block(block: Block) -> Optional[Block]:
    """A block whose last fixed bit is the other one."""
    if block.wildcard == ANY.wildcard:
        return None
    bit = ~block.wildcard & (block.wildcard + 1)
    return Block(block.address ^ bit, block.wildcard)


def wider(block: Block) -> Optional[Block]:
    """A block with one more open bit."""
    if block.wildcard == ANY.wildcard:
        return None
    bit = ~block.wildcard & (block.wildcard + 1)
    return Block(block.address & ~bit, block.wildcard | bit)


def block_spoiler(field: str, change: Callable[[Block], Optional[Block]]) -> Spoiler:
    def spoilt(entry: Entry) -> Optional[Entry]:
        block = change(getattr(entry, field))
        return dataclasses.replace(entry, **{field: block}) if block is not None else None

    return entries(spoilt)


def port_spoiler(word: str) -> Spoiler:
    """A port test of this word with ports that are greater by one."""

    def spoilt(entry: Entry) -> Optional[Entry]:
        for field in ("destination_port", "source_port"):
            test = getattr(entry, field)
            if test is not None and test.word == word:
                return dataclasses.replace(entry, **{field: PortTest(word, tuple(port + 1 for port in test.ports))})
        return None

    return entries(spoilt)


def flag_spoiler(word: str) -> Spoiler:
    """A test of flags of this word becomes the other one, or of one flag its contrary."""

    def spoilt(entry: Entry) -> Optional[Entry]:
        test = entry.flags
        if test is None or test.word != word:
            return None
        if bin(test.ones | test.zeros).count("1") == 1:
            return dataclasses.replace(entry, flags=FlagTest(word, test.zeros, test.ones))
        return dataclasses.replace(entry, flags=FlagTest("match-any" if word == "match-all" else "match-all", test.ones, test.zeros))

    return entries(spoilt)


def icmp_spoiler(with_code: bool) -> Spoiler:
    def spoilt(entry: Entry) -> Optional[Entry]:
        if entry.icmp is None or (entry.icmp[1] is not None) != with_code:
            return None
        kind, code = entry.icmp
        return dataclasses.replace(entry, icmp=(kind, None) if with_code else (kind + 5, code))

    return entries(spoilt)


def swapped(listed: tuple[Entry, ...]) -> Optional[tuple[Entry, ...]]:
    """The list with its last entry of another action in front."""
    other = [entry for entry in listed[1:] if entry.permit != listed[0].permit]
    return (other[-1], *(entry for entry in listed if entry is not other[-1])) if other else None


def rules(fits: Callable[[Rule], bool], spoilt: Callable[[Rule], Optional[Rule]]) -> Spoiler:
    def changes(router: Router) -> Iterator[Router]:
        for k, rule in enumerate(router.rules):
            if fits(rule):
                other = spoilt(rule)
                yield router.changed(rules=router.rules[:k] + ((other,) if other is not None else ()) + router.rules[k + 1:])

    return of_routers(changes)


def outer_rules(router: Router) -> Iterator[Router]:
    for k, rule in enumerate(router.outer_rules):
        yield router.changed(outer_rules=router.outer_rules[:k] + (rule._replace(local=rule.local ^ 1),) + router.outer_rules[k + 1:])


def shut_one(network: Network, draw: random.Random) -> Optional[Network]:
    places = [place for place in network.places() if network.interface(place).live()]
    place = draw.choice(places)
    return network.with_interface(place, dataclasses.replace(network.interface(place), shut=True))


def opened(network: Network, draw: random.Random) -> Optional[Network]:
    """All interfaces that are shut are up."""
    shut = [place for place in network.places() if network.interface(place).shut]
    for place in shut:
        network = network.with_interface(place, dataclasses.replace(network.interface(place), shut=False))
    return network if shut else None


def crossed(network: Network, draw: random.Random) -> Optional[Network]:
    """An end of a lan that isn't on it any more."""
    lans = [segment for segment in network.segments if segment.kind == "lan"]
    wide = [segment for segment in lans if all(network.interface(end).live() for end in segment.ends)]
    if not wide:
        return None
    segment = draw.choice(wide)
    rest = segment._replace(ends=segment.ends[1:])
    return dataclasses.replace(network, segments=tuple(rest if one == segment else one for one in network.segments))


def without_list(place_list: str) -> Spoiler:
    """An interface without its list."""

    def spoilt(interface: Interface) -> Optional[Interface]:
        return dataclasses.replace(interface, **{place_list: None}) if interface.live() and getattr(interface, place_list) else None

    return interfaces(spoilt)


NETWORKS: dict[str, Spoiler] = {
    "next hop of a route": routes(lambda _, route: route.interface is None, other_neighbour),
    "interface of a route": routes(lambda _, route: route.interface not in (None, NULL) and route.next_hop is None, other_neighbour),
    "interface and next hop of a route": routes(lambda _, route: None not in (route.interface, route.next_hop), other_neighbour),
    "prefix of a route": routes(lambda router, route: 0 < route.prefix.length < 32 and alone(router, route),
                                lambda _, route: route._replace(prefix=Subnet(route.prefix.address, route.prefix.length + 1))),
    "a route": routes(alone, lambda _, route: None),
    "a default": routes(lambda router, route: route.prefix.length == 0 and alone(router, route), lambda _, route: None),
    "distance of a route": routes(is_best, lambda _, route: route._replace(distance=254)),
    "distance 255": of_routers(lambda router: (
        router.changed(routes=router.routes[:k] + (route._replace(distance=1),) + router.routes[k + 1:])
        for k, route in enumerate(router.routes) if route.distance == 255)),
    "Null0": routes(lambda _, route: route.interface == NULL, lambda _, route: None),
    "mask of an interface": interfaces(longer_mask),
    "address of an interface": interfaces(other_address),
    "an interface that is up": shut_one,
    "an interface that is shut": opened,
    "an end of a lan": crossed,
    "an input list": without_list("list_in"),
    "an output list": without_list("list_out"),
    "direction of a list": interfaces(turned),
    "action of an entry": entries(lambda entry: dataclasses.replace(entry, permit=not entry.permit)),
    "protocol of an entry": entries(lambda entry: dataclasses.replace(entry, protocol=51) if entry.protocol == 50 else None),
    "source of an entry": block_spoiler("source", other_block),
    "destination of an entry": block_spoiler("destination", other_block),
    "wildcard of an entry": block_spoiler("source", wider),
    "eq of ports": port_spoiler("eq"),
    "neq of ports": port_spoiler("neq"),
    "gt of ports": port_spoiler("gt"),
    "lt of ports": port_spoiler("lt"),
    "range of ports": port_spoiler("range"),
    "type of ICMP": icmp_spoiler(False),
    "code of ICMP": icmp_spoiler(True),
    "match-any of flags": flag_spoiler("match-any"),
    "match-all of flags": flag_spoiler("match-all"),
    "order of entries": lists(swapped),
    "end of a list": lists(lambda listed: (*listed, Entry(True)) if listed and listed[-1] != Entry(True) else None),
    "plain rule of translation": rules(lambda rule: rule.protocol is None, lambda rule: rule._replace(local=rule.local ^ 0x10)),
    "a rule of translation": rules(lambda rule: rule.protocol is None, lambda rule: None),
    "local port of a port rule": rules(lambda rule: bool(rule.protocol), lambda rule: rule._replace(local_port=rule.local_port + 1)),
    "global port of a port rule": rules(lambda rule: bool(rule.protocol), lambda rule: rule._replace(outer_port=rule.outer_port + 1)),
    "outer rule of translation": of_routers(outer_rules),
    "side of an interface": interfaces(other_side),
}

# What is spoiled of the order in which the stack takes its steps (`filters.ruleset`).
ORDERS = {
    "input list before translation": TRANSLATION_FIRST,
    "output list behind translation": LIST_FIRST,
    "port rules before plain ones": PLAIN_FIRST,
}
# What enters with one hop more to go.
TTL = "TTL"

# What `prepare` writes beside a default's next hop is left out.
AS_WRITTEN = "interface beside a default's next hop"
ALL = [*NETWORKS, *ORDERS, TTL, AS_WRITTEN]
# So many networks of three routers are built at most, with so many packets, until an error is seen. Of a spoiled rule the packets are those,
# of so many that are drawn, of which the second opinion says that the rule decides.
TRIES, PACKETS, DRAWN, SENT = 12, 500, 1500, 40
# The first network to try, where what is spoiled seldom decides a packet.
FIRST = {AS_WRITTEN: 8}


def spoiled(name: str, network: Network, draw: random.Random) -> Optional[Network]:
    """The network of the stack, or None where there is nothing to spoil, or nothing that the classes would tell apart."""
    if name in NETWORKS:
        other = NETWORKS[name](network, draw)
        return other if other is not None and rewritten(other) != rewritten(network) else None
    if name == "port rules before plain ones":
        both = any({rule.protocol is None for rule in router.rules} == {True, False} for router in network.routers.values())
        return network if both else None
    if name in ORDERS:
        translating = [router for router in network.routers.values() if router.rules and used_lists(router)]
        return network if translating else None
    return network


def is_noticed(name: str, program: str, folder: str, tally: Tally) -> Optional[int]:
    """The number of a network in which a run with this spoiler notices, and without it finds no difference, of some that have what it
    spoils, or None."""
    if name == AS_WRITTEN:
        return default_is_noticed(program, folder, tally)
    tried = 0
    first = FIRST.get(name, 1)
    for seed in range(first, first + 400):
        network = drawn_network(seed, (3, 3))
        stack = spoiled(name, network, random.Random(seed))
        if stack is None:
            continue
        drawer = Drawer(network, seed)
        drawn = [drawer.packet() for _ in range(PACKETS if name == TTL else DRAWN)]
        if name != TTL:
            drawn = deciding(network, stack, ORDERS.get(name, ""), drawn, SENT)
            if not drawn:
                continue
        tried += 1
        with tally.settled(f"network {seed}"):
            place = os.path.join(folder, f"spoiled{seed}")
            found = first_difference(Trial(network, stack, program, place, tally, ORDERS.get(name, ""), int(name == TTL)), drawn)
            if found is not None and first_difference(Trial(network, network, program, place, tally), [found]) is None:
                return seed
        if tried == TRIES:
            break
    return None


def first_difference(trial: Trial, drawn: list[Packet]) -> Optional[Packet]:
    """The first of these packets that differs, in a trial that ends with it."""
    try:
        return trial.first_difference(drawn)
    finally:
        trial.close()


def default_is_noticed(program: str, folder: str, tally: Tally) -> Optional[int]:
    """The number of a network in which a run notices that defaults by next hop alone, as they were written, stay where their subnet is down."""
    for seed in range(FIRST[AS_WRITTEN], FIRST[AS_WRITTEN] + TRIES):
        as_prepared = Tally()
        with tally.settled(f"failures {seed}"):
            try_failures(seed, PACKETS // 5, program, os.path.join(folder, f"written{seed}"), tally, as_written=True)
            if tally.outside:
                try_failures(seed, PACKETS // 5, program, os.path.join(folder, f"prepared{seed}"), as_prepared)
                return seed if not as_prepared.outside else None
    return None
