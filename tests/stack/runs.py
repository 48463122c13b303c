"""Packets through one network: what the stack did of each, beside what the verifier says."""
import contextlib
import os
import shutil
from collections import Counter
from dataclasses import dataclass, field
from typing import Iterator, Optional

import packets
from classes import Case, classify
from headers import ICMP_QUERIES, Drawer, Header, Packet
from namespaces import NotSettled
from networks import Network, dotted
from topology import QUIET, Caught, Topology
from verifier import Trace, Verifier

FIELDS = ("src", "dst", "sport", "dport")
# A packet that differs is sent by itself so many times, and waited for so many seconds, before it is a difference.
ALONE = (0.05, 0.3, 1.5)


@dataclass
class Tally:
    """What a run has counted."""

    built: int = 0
    unsettled: list[str] = field(default_factory=list)
    networks: int = 0
    packets: int = 0
    lookups: int = 0
    days: int = 0
    agreed: Counter = field(default_factory=Counter)
    classes: Counter = field(default_factory=Counter)
    counted: int = 0
    again: int = 0
    calls: int = 0
    differences: list[str] = field(default_factory=list)
    outside: int = 0

    def differs(self, text: str) -> None:
        self.outside += 1
        if len(self.differences) < 50:
            self.differences.append(text)

    @contextlib.contextmanager
    def settled(self, name: str) -> Iterator[None]:
        """Counts a stack that is built and tried here; one that doesn't settle is noted, since what it does says nothing of the rules."""
        self.built += 1
        try:
            yield
        except NotSettled as error:
            self.unsettled.append(f"{name}: {error}")

    def is_restless(self) -> bool:
        """Whether so many stacks didn't settle that the run says nothing: more than two, and more than a tenth."""
        return len(self.unsettled) > max(2, self.built // 10)


class Judge:
    """The verifier on a network and on its rewritten ones, each in a folder of its own."""

    def __init__(self, program: str, folder: str, tally: Tally):
        self.program = program
        self.folder = folder
        self.tally = tally
        self.made: list[tuple[Network, Verifier]] = []

    def trace(self, network: Network, packet: Packet) -> Trace:
        found = next((verifier for made, verifier in self.made if made is network or made == network), None)
        if found is None:
            found = Verifier(self.program, network, os.path.join(self.folder, f"texts{len(self.made)}"))
            self.made.append((network, found))
        before = found.calls
        trace = found.trace(packet)
        self.tally.calls += found.calls - before
        return trace


def exit_text(place: str, sent: Header, seen: Header) -> str:
    """The outcome of a packet that left at a place, as the verifier words it."""
    text = f"exit {place}"
    for name in FIELDS:
        value = getattr(seen, name)
        if value != getattr(sent, name):
            text += f" {name} {dotted(value) if name in ('src', 'dst') else value}"
    return text


def outcome_of(network: Network, sent: Header, caught: Caught) -> str:
    """The outcome that a packet shows which was caught: as the verifier words it, or `taken R A` of an address that isn't the router's."""
    seen = caught.seen
    if caught.interface is not None:
        return exit_text(f"{caught.router} {caught.interface}", sent, seen.header)
    if seen.about is not None:
        return "expired" if seen.about == (packets.EXPIRED, 0) else "drop"
    for name, subnet in network.routers[caught.router].live():
        if subnet.address == seen.header.dst:
            return f"local {caught.router} {name}"
    return f"taken {caught.router} {dotted(seen.header.dst)}"


def observed(network: Network, sent: Header, caught: list[Caught]) -> str:
    """What became of a packet: a drop where it was never caught. One that was caught twice is never an outcome."""
    texts = sorted(outcome_of(network, sent, one) for one in caught)
    return " and ".join(texts) if texts else "drop"


def is_never_told(header: Header) -> bool:
    """Whether no router sends a message about such a packet: one of ICMP that neither asks nor answers."""
    return header.proto == packets.ICMP and header.sport >> 8 not in ICMP_QUERIES


class Trial:
    """A network that is built, and packets through it.

    Args:
        network: what the verifier reads.
        stack: what the stack is built of: the same network, or a spoiled one.
        order, more_hops: what of the stack's steps is spoiled (`Topology`).
    """

    def __init__(self, network: Network, stack: Network, program: str, folder: str, tally: Tally, order: str = "", more_hops: int = 0):
        self.network = network
        self.tally = tally
        self.folder = folder
        os.makedirs(folder)
        os.chmod(folder, 0o755)
        self.judge = Judge(program, folder, tally)
        self.number = 0
        try:
            self.topology = Topology(stack, os.path.join(folder, "run"), order, more_hops)
        except BaseException:
            shutil.rmtree(folder, ignore_errors=True)
            raise

    def close(self) -> None:
        self.topology.close()
        shutil.rmtree(self.folder, ignore_errors=True)

    def carried(self, drawn: list[Packet], quiet: float = QUIET) -> list[str]:
        """What the stack does with these packets, by what came out until nothing came for so many seconds."""
        numbered = list(enumerate(drawn, self.number))
        self.number += len(drawn)
        for _ in range(3):
            self.topology.forget()
            self.topology.carry(numbered, quiet)
            if not self.topology.overrun:
                break
        return [observed(self.network, packet.header, self.topology.caught.get(number, [])) for number, packet in numbered]

    def try_packets(self, drawn: list[Packet]) -> None:
        """Judges these packets, each alone once more where it differs."""
        self.tally.packets += len(drawn)
        left = []
        for packet, text in zip(drawn, self.carried(drawn)):
            if self.judged(packet, text) is not None:
                left.append(packet)
        for packet in left:
            difference = self.judged_alone(packet)
            if difference is None:
                self.tally.again += 1
            else:
                self.tally.differs(difference)

    def judged_alone(self, packet: Packet) -> Optional[str]:
        """Counts a packet that agrees, or is in a class, one of the times that it is sent by itself; gives the words of a difference."""
        difference = None
        for quiet in ALONE:
            difference = self.judged(packet, self.alone(packet, quiet))
            if difference is None:
                return None
        return difference

    def first_difference(self, drawn: list[Packet]) -> Optional[Packet]:
        """The first of these packets that differs outside the classes, also when it is sent alone, or None."""
        self.tally.packets += len(drawn)
        return next((packet for packet, text in zip(drawn, self.carried(drawn))
                     if self.judged(packet, text) is not None and self.judged_alone(packet) is not None), None)

    def alone(self, packet: Packet, quiet: float) -> str:
        """What becomes of a packet that is sent by itself. An expiry of which no router tells is seen by the kernels' counters."""
        before = self.topology.expiries()
        text = self.carried([packet], quiet)[0]
        if text == "drop" and is_never_told(packet.header) and self.topology.expiries() == before + 1:
            self.tally.counted += 1
            return "expired"
        return text

    def classified(self, case: Case) -> Optional[str]:
        """The class of a difference, or None."""
        return classify(case, self.judge.trace)

    def judged(self, packet: Packet, text: str) -> Optional[str]:
        """Counts what agrees or is in a class; gives the words of a difference."""
        trace = self.judge.trace(self.network, packet)
        if text in trace.outcomes:
            kind = text.split()[0]
            self.tally.agreed["translated" if len(text.split()) > 3 else kind] += 1
            return None
        found = self.classified(Case(self.network, packet, trace, text))
        if found is not None:
            self.tally.classes[found] += 1
            return None
        place = " ".join(packet.place)
        return f"{place} {packet.header.word()} --ttl {packet.ttl}: rules {' | '.join(trace.outcomes)}, stack {text}"


def try_network(network: Network, stack: Network, seed: int, count: int, program: str, folder: str, tally: Tally) -> None:
    """Builds the stack of a network and tries so many packets."""
    trial = Trial(network, stack, program, folder, tally)
    before = len(tally.differences)
    try:
        drawer = Drawer(network, seed)
        trial.try_packets([drawer.packet() for _ in range(count)])
        tally.networks += 1
    finally:
        trial.close()
    tally.differences[before:] = [f"network {seed}: {text}" for text in tally.differences[before:]]
