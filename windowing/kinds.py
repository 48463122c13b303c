"""What a change does to packets, by what an engineer fears of it.

The kinds are those of the proved document of a report (`document_kinds`), but for two that it can't know: it has neither lans nor next
hops.
"""
from __future__ import annotations

from functools import lru_cache
from typing import Mapping, NamedTuple

# From the most feared to the least feared. `view` has these without `unanswered` and `moves on a lan`: it knows neither lans nor next hops.
KINDS = ("loops", "closes", "unanswered", "opens", "sometimes", "translated otherwise", "moves", "moves on a lan", "loop gone")

# What becomes of the packets, in words.
KIND_WORDS = {
    "loops": "goes round until it expires",
    "closes": "no longer gets through",
    "unanswered": "leaves over a lan to a next hop that nobody has",
    "opens": "gets through now",
    "sometimes": "loses some of its equal-cost paths now",
    "translated otherwise": "ends where it did, with other addresses or ports",
    "moves": "ends elsewhere",
    "moves on a lan": "leaves by another router of its lan",
    "loop gone": "no longer goes round, and gets no further than before",
}


class Outcome(NamedTuple):
    """How a walk of a packet ends: `drop`, `expired`, `local` or `exit`, at a place `R1 Ethernet0` ("" for the first two), and of an exit
    the fields that are replaced, as pairs of a name and a text."""

    end: str
    place: str
    replaced: tuple[tuple[str, str], ...]


@lru_cache(maxsize=None)
def outcome_of(text: str) -> Outcome:
    """An outcome as a report writes it."""
    words = text.split(" ")
    return Outcome(words[0], " ".join(words[1:3]), tuple(zip(words[3::2], words[4::2])))


class Side(NamedTuple):
    """What one network does with some headers: all of it, what gets through, and what of that nobody answers."""

    all: frozenset[Outcome]
    through: frozenset[Outcome]
    unanswered: frozenset[Outcome]

    @property
    def loses_some(self) -> bool:
        return any(outcome.end in ("drop", "expired") for outcome in self.all)

    @property
    def places(self) -> frozenset[tuple[str, str]]:
        return frozenset((outcome.end, outcome.place) for outcome in self.through)


def side_of(texts: tuple[str, ...], unanswered: frozenset[str] = frozenset()) -> Side:
    """A side of these outcomes, of which some are known to be answered by nobody."""
    found = frozenset(map(outcome_of, texts))
    through = frozenset(outcome for outcome in found if outcome.end in ("local", "exit"))
    return Side(found, through, through & frozenset(map(outcome_of, unanswered)))


Lans = Mapping[str, str]  # a place that is an end of a lan, and a name of that lan, which is the same for all its ends


def is_on_one_lan(old: Side, new: Side, lans: Lans) -> bool:
    """Whether all that gets through leaves over lans, and over the same ones in both networks."""
    before, after = ({lans.get(place) if end == "exit" else None for end, place in side.places} for side in (old, new))
    return before == after and None not in before


def kind_of(known: str, old: Side, new: Side, lans: Lans) -> str:
    """The kind of a change from one side to another one, for headers that have one side in each network, by the kind that is `known` of its
    outcomes alone.

    An exit is answered by nobody where it leaves over a lan for an address that is not in a subnet of its interface: it was sent to a next
    hop that no end of the lan has.

    - `unanswered`: an exit that nobody answers, which the old network doesn't have, where the kind is neither `loops` nor `closes`
    - `moves on a lan`: what moves, and leaves over the same lans in both networks
    """
    if known not in ("loops", "closes") and new.unanswered - old.unanswered:
        return "unanswered"
    return "moves on a lan" if known == "moves" and is_on_one_lan(old, new, lans) else known
