"""The ways of one packet today and as planned, of the lines of two traces: a table of hops, and the links that each way takes."""
from __future__ import annotations

from dataclasses import dataclass, field
from typing import NamedTuple, Sequence

from showing.texts import short

# Of one way so many hops are told.
MOST_HOPS = 24


@dataclass
class Hop:
    """A state of a trace: a device with the interface where the packet comes in, what the device does with it, and where each of its
    choices leads. `leads` has for each choice the interface out, or "" where there is none, and the number of the next state, or None."""

    number: int
    device: str
    interface: str
    header: str
    decides: list[str] = field(default_factory=list)
    ends: list[str] = field(default_factory=list)
    leads: list[tuple[str, int | None]] = field(default_factory=list)
    lost: bool = False
    arrives: bool = False

    @property
    def place(self) -> str:
        return "%s %s" % (self.device, short(self.interface))

    def told(self) -> tuple[object, ...]:
        """All that the trace says of it."""
        return self.device, self.interface, self.header, tuple(self.decides), tuple(self.ends), tuple(self.leads)


class Row(NamedTuple):
    """A row of the table: the hop of each side, None where its way is over."""

    today: Hop | None
    planned: Hop | None


class Table(NamedTuple):
    """Hops that both ways begin with, and those of each behind. `more` says how many hops aren't told."""

    same: list[Hop]
    rows: list[Row]
    more: int
    today: list[Hop]
    planned: list[Hop]


def list_words(words: Sequence[str], way: str) -> str:
    """What a list decides: `list USERS in permits at 20`."""
    name, verdict, entry = " ".join(words[:-2]), words[-2], words[-1]
    decides = "denies at its end" if entry == "end" else "%s at %s" % ("permits" if verdict == "permit" else "denies", entry)
    return "list %s %s %s" % (name, way, decides)


def take(hop: Hop, line: str) -> None:
    """What a line of a trace says of its state."""
    word, _, rest = line.partition(" ")
    words = rest.split(" ")
    if word == "input":
        if rest != "none":
            hop.decides.append(list_words(words, "in"))
            if words[-2:-1] == ["deny"]:
                end(hop, "dropped")
    elif word == "nat":
        (hop.ends if hop.leads else hop.decides).append("translated: %s" % rest)
    elif word == "out":
        interface, _, after = rest.partition(" next ")
        hop.leads.append((interface, None))
        hop.ends.append("\u2192 %s, next hop %s" % (short(interface), after))
    elif word == "output":
        if rest != "none":
            hop.ends.append(list_words(words, "out"))
            if words[-2:-1] == ["deny"]:
                hop.ends.append("dropped")
                hop.lost = True
    elif word == "go":
        go(hop, rest)
    else:
        ended(hop, word, rest)


def go(hop: Hop, rest: str) -> None:
    """A packet that goes on to a state that has a number, or whose time to live ends."""
    if rest == "-":
        hop.ends.append("its time to live ends here")
        hop.lost = True
    else:
        hop.leads[-1] = (hop.leads[-1][0], int(rest))


def end(hop: Hop, text: str, lost: bool = True) -> None:
    """A choice that leads nowhere else."""
    hop.leads.append(("", None))
    hop.ends.append(text)
    hop.lost, hop.arrives = hop.lost or lost, hop.arrives or not lost


def ended(hop: Hop, word: str, rest: str) -> None:
    """What ends a way."""
    if word == "closed":
        end(hop, "the interface is shut, without address or absent: dropped")
    elif word == "broadcast":
        end(hop, "a broadcast or multicast address: dropped")
    elif word == "discard":
        end(hop, "no route, or one to Null0: dropped")
    elif word == "local":
        device, _, interface = rest.partition(" ")
        end(hop, "for %s %s itself: arrives" % (device, short(interface)), False)
    elif word == "exit":
        device, interface = rest.split(" ")[:2]
        hop.ends.append("leaves the network out of %s %s" % (device, short(interface)))
        hop.arrives = True
    elif word == "lost":
        hop.ends.append("nobody takes it there: dropped")
        hop.lost = True
    else:
        hop.ends.append(" ".join(filter(None, (word, rest))))


def hops_of(lines: Sequence[str]) -> list[Hop]:
    """The states of a trace in their order."""
    hops: list[Hop] = []
    for line in lines:
        words = line.split(" ")
        if words[0] == "state":
            hops.append(Hop(int(words[1]), words[3], words[4], " ".join(words[5:])))
        elif hops and words[0] not in ("outcome", ""):
            take(hops[-1], line)
    for hop in hops:
        for _, number in hop.leads:
            if number is not None and number <= hop.number:
                hop.ends.append("\u21bb back to %s" % hops[number - 1].device)
                hop.lost = True
            elif number is not None and len(hop.leads) > 1:
                hop.ends.append("\u2192 %s" % hops[number - 1].device)
    return hops


def table_of(today: Sequence[str], planned: Sequence[str]) -> Table:
    """Both traces from where they part; the lines are those of `review trace`."""
    both = hops_of(today), hops_of(planned)
    part = 0
    while part < min(map(len, both)) and both[0][part].told() == both[1][part].told():
        part += 1
    if part and part == len(both[0]) == len(both[1]):
        # (where both ways are the same, the last hop still says why the packet gets no further)
        part -= 1
    rests = both[0][part:], both[1][part:]
    count = max(map(len, rests))
    rows = [Row(*(rest[at] if at < len(rest) else None for rest in rests)) for at in range(min(count, MOST_HOPS))]
    return Table(both[0][:part], rows, max(0, count - MOST_HOPS), *both)


def links_of(hops: Sequence[Hop]) -> list[tuple[str, str]]:
    """The places that a way takes from one device to the next: out of which interface, and in at which one."""
    found = [("%s %s" % (hop.device, interface), "%s %s" % (hops[number - 1].device, hops[number - 1].interface))
             for hop in hops for interface, number in hop.leads if number is not None]
    return list(dict.fromkeys(found))
