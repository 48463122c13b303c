"""What `prepare` writes of defaults, beside the stack when interfaces go down.

The stack has the routes as they were written: defaults by next hop alone, one of which floats. The verifier reads the texts that `prepare`
made of them, in which an interface stands beside each such next hop, with ` shutdown` where an interface went down. FRR is told nothing:
the interface loses its addresses and goes down, and zebra finds its ways anew.
"""
import os
import random
import shutil
import subprocess
from typing import Optional

from classes import Case, HEADERS, REWRITINGS, shut_places
from daemons import settle
from headers import Drawer, Packet
from networks import NULL, Maker, Network, Place, Route, Subnet, dotted, write
from runs import Judge, Tally, Trial
from verifier import Trace, Verifier

TOP = os.path.dirname(os.path.dirname(os.path.dirname(os.path.abspath(__file__))))
# The classes that explain a difference here: all but the one that `prepare` is to remove.
ALLOWED = ("next hop that no neighbour can have", "one end of a p2p is shut")


class FloatingMaker(Maker):
    """Networks whose routers have defaults by next hop alone, one that floats behind it or one beside it."""

    def defaults(self, name: str) -> list[Route]:
        prefix = Subnet(0, 0)
        ways = {interface: hop for _, interface, hop in self.neighbours[name]}
        chosen = self.random.sample(list(ways), min(len(ways), 2))
        distances = [1, self.random.choice([250, 250, 1])]
        return [Route(prefix, None, ways[one], distance) for one, distance in zip(chosen, distances)]

    def route(self, prefix: Subnet, way: tuple[str, str, int], other: str, distance: int) -> Route:
        _, interface, next_hop = way
        return Route(prefix, interface if self.chance(0.4) else None, next_hop, distance)

    def astray(self, name: str) -> Route:
        route = super().astray(name)
        return route._replace(interface=NULL, next_hop=None)

    def shut_some(self) -> None:
        """All interfaces are up until the run takes one down."""


def prepared(network: Network, folder: str, as_written: bool) -> str:
    """The folder of the texts that `prepare` makes of the network's, defaults as written or not; FOLDER/links has the table."""
    write(network, folder)
    out = os.path.join(folder, "prepared")
    words = [os.path.join(TOP, "prepare"), os.path.join(folder, "net"), out, *(["--as-written"] if as_written else [])]
    done = subprocess.run(words, capture_output=True, text=True)
    if done.returncode != 0:
        raise RuntimeError(f"prepare: {done.stderr.strip()}")
    return out


class PreparedVerifier(Verifier):
    """The verifier on prepared texts in which some interfaces are shut."""

    def __init__(self, program: str, texts: str, links: str, places: list[Place], folder: str):
        self.program, self.folder, self.calls = program, folder, 0
        self.kept: dict[Packet, Trace] = {}
        shutil.copytree(texts, os.path.join(folder, "net"))
        shutil.copy(links, os.path.join(folder, "links"))
        for place in places:
            with open(os.path.join(folder, "net", place.router + ".cfg"), "a") as file:
                file.write(f"interface {place.interface}\n shutdown\n")


class FailureJudge(Judge):
    """Asks the prepared texts of the network as it is after a failure, and of rewritten networks their own texts."""

    def use(self, network: Network, verifier: Verifier) -> None:
        self.made = [(network, verifier)]


def failures(network: Network, draw: random.Random, count: int) -> list[list[Place]]:
    """No failure, and some of both ends of a link or of an end of a lan."""
    found: list[list[Place]] = []
    for segment in network.segments:
        if segment.kind == "p2p":
            found.append(list(segment.ends))
        else:
            found.extend([end] for end in segment.ends)
    days: list[list[Place]] = [[]]
    return days + draw.sample(found, min(count, len(found)))


def change(trial: Trial, network: Network, places: list[Place], up: bool) -> None:
    """Makes the stack that of this network, in which these interfaces are down, or up again with their addresses."""
    topology = trial.topology
    topology.network = network
    for place in places:
        lines = [f"link set {place.interface} {'up' if up else 'down'}"]
        if up:
            subnets = network.interface(place).subnets
            lines += [f"address add {dotted(subnet.address)}/{subnet.length} dev {place.interface}" for subnet in subnets]
        else:
            lines.insert(0, f"address flush dev {place.interface}")
        topology.routers[place.router].ip(lines)
    topology.wait_for_links()
    settle(topology.daemons)


class FailureTrial(Trial):
    """A network of which interfaces go down while it runs."""

    def classified(self, case: Case) -> Optional[str]:
        for name, explains in HEADERS.items():
            if explains(case, self.judge.trace):
                return name
        for name in ALLOWED:
            network = REWRITINGS[name](case.network)
            if network != case.network and case.observed in self.judge.trace(network, case.packet).outcomes:
                return name
        return None


def try_failures(seed: int, count: int, program: str, folder: str, tally: Tally, as_written: bool = False) -> None:
    """Tries packets on a network without failure and on some days with one.

    Args:
        as_written: leaves defaults by next hop alone, as the spoiler has it.
    """
    network = FloatingMaker(seed).network()
    draw = random.Random(seed)
    trial = FailureTrial(network, network, program, folder, tally)
    before = len(tally.differences)
    try:
        texts = prepared(network, os.path.join(folder, "raw"), as_written)
        for day, places in enumerate(failures(network, draw, 3)):
            failed = shut_places(network, places)
            change(trial, failed, places, up=False)
            links = os.path.join(folder, "raw", "links")
            verifier = PreparedVerifier(program, texts, links, places, os.path.join(folder, f"day{day}"))
            judge = FailureJudge(program, os.path.join(folder, f"judge{day}"), tally)
            judge.use(failed, verifier)
            trial.network, trial.judge = failed, judge
            drawer = Drawer(failed, seed * 16 + day)
            trial.try_packets([drawer.packet() for _ in range(count)])
            change(trial, network, places, up=True)
            tally.days += 1
    finally:
        trial.close()
    tally.differences[before:] = [f"failures {seed}: {text}" for text in tally.differences[before:]]
