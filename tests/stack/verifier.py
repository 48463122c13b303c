"""What the verifier says of a packet: `review trace`, one process for each, since it takes one header."""
import os
import subprocess
from typing import NamedTuple, Sequence

import networks
from headers import Header, Packet
from networks import Network, Place, number


class State(NamedTuple):
    """A state of a trace: where the packet is, its header there, and what is told of it."""

    place: Place
    header: Header
    lines: tuple[str, ...]


class Trace(NamedTuple):
    outcomes: tuple[str, ...]
    states: tuple[State, ...]


class Refused(Exception):
    """The verifier doesn't accept the network."""


def header_of(words: Sequence[str]) -> Header:
    """The header of `dst A src A proto N dport N sport N flags N`."""
    values = dict(zip(words[::2], words[1::2]))
    numbers = [int(values[name]) for name in ("proto", "dport", "sport", "flags")]
    return Header(number(values["dst"]), number(values["src"]), *numbers)


def trace_of(text: str) -> Trace:
    """The trace of what `review trace` writes."""
    states: list[State] = []
    outcomes: tuple[str, ...] = ()
    for line in text.splitlines():
        words = line.split()
        if words[0] == "state":
            states.append(State(Place(words[3], words[4]), header_of(words[5:]), ()))
        elif words[0] == "outcome":
            outcomes = tuple(line[len("outcome "):].split(" | "))
        else:
            states[-1] = states[-1]._replace(lines=states[-1].lines + (line,))
    return Trace(outcomes, tuple(states))


class Verifier:
    """The program on the texts of a folder, as `networks.write` makes them."""

    def __init__(self, program: str, network: Network, folder: str):
        self.program = program
        self.folder = folder
        self.kept: dict[Packet, Trace] = {}
        self.calls = 0
        networks.write(network, folder)

    def trace(self, packet: Packet) -> Trace:
        """The trace of a packet.

        Raises:
            Refused: with the line that the program writes.
        """
        if packet not in self.kept:
            self.calls += 1
            words = [self.program, "trace", os.path.join(self.folder, "net"), os.path.join(self.folder, "links")]
            words += [*packet.place, packet.header.word(), "--ttl", str(packet.ttl)]
            done = subprocess.run(words, capture_output=True, text=True)
            if done.returncode != 0:
                raise Refused(done.stderr.strip() or f"status {done.returncode}")
            self.kept[packet] = trace_of(done.stdout)
        return self.kept[packet]
