"""Cuts a report into parts: by its outcomes, by sources that can be at the ingress, and by the kind of the change."""
from __future__ import annotations

from typing import Callable, Iterable, Mapping

import cubes
from cubes import Headers, Values
from document_kinds import Ends
from kinds import Outcome, Side, kind_of, outcome_of, side_of
from model import Part
from networks import Network
from sources import cut


class Lans:
    """The lans of both networks: a name of each, and which addresses an end of one answers for."""

    def __init__(self, old: Network, new: Network) -> None:
        self.networks = (old, new)
        self.ends = [{place for lan in network.links.lans for place in lan} for network in self.networks]
        self.names: dict[str, str] = {}
        # (a lan of both tables has one name, if they have an end in common)
        for network in (new, old):
            for lan in network.links.lans:
                name = next((self.names[place] for place in lan if place in self.names), " ".join(lan))
                for place in lan:
                    self.names.setdefault(place, name)

    def strangers(self, outcome: Outcome, side: int) -> Headers:
        """The headers for which an exit of the old (0) or the new network (1) is answered by nobody, if they have this outcome."""
        if outcome.end != "exit" or outcome.place not in self.ends[side]:
            return Headers.none()
        outside = ~self.networks[side].subnets(outcome.place)
        replaced = dict(outcome.replaced).get("dst")
        if replaced is not None:
            return Headers.all() if cubes.address_of(replaced) in outside else Headers.none()
        return Headers.where(destination=outside)


def sides_of(headers: Headers, texts: tuple[str, ...], lans: Lans, side: int) -> list[tuple[Headers, Side]]:
    """The headers, cut so that of each piece the same outcomes are answered by nobody."""
    pieces: list[tuple[Headers, frozenset[str]]] = [(headers, frozenset())]
    for text in texts:
        strangers = lans.strangers(outcome_of(text), side)
        if strangers:
            pieces = [(some & strangers, marks | {text}) for some, marks in pieces] + [(some - strangers, marks) for some, marks in pieces]
            pieces = [piece for piece in pieces if piece[0]]
    return [(some, side_of(texts, marks)) for some, marks in pieces]


# The kinds of pairs of outcomes, as the proved document has them (`document_kinds`).
KindsOf = Callable[[Iterable[Ends]], Mapping[Ends, str]]
# At each ingress, in the report's order, the headers for each pair of old and new outcomes as a report writes them.
Places = Mapping[str, Mapping[tuple[str, str], Headers]]


def places_of(report: str) -> Places:
    """Reads a report."""
    return {ingress: cubes.by_outcome(rows) for ingress, rows in cubes.sections(report)}


def parts_of(places: Places, sources: Mapping[str, Values], lans: Lans, kinds: KindsOf) -> list[Part]:
    """The parts of a report, in its order; of each those of plausible sources first."""
    found: list[Part] = []
    known = kinds(pair for alike in places.values() for pair in alike)
    for ingress, alike in places.items():
        for (old, new), headers in alike.items():
            before, after = tuple(old.split(" | ")), tuple(new.split(" | "))
            for some, old_side in sides_of(headers, before, lans, 0):
                for piece, new_side in sides_of(some, after, lans, 1):
                    kind = kind_of(known[old, new], old_side, new_side, lans.names)
                    here, foreign = cut(piece, sources, ingress)
                    both = ((here, True), (foreign, False))
                    found += [Part(ingress, part, before, after, plausible, kind) for part, plausible in both if part]
    return found
