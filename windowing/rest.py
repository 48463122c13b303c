"""What a change still does without some of its lines, by a comparison of the old network with the new one without them."""
from __future__ import annotations

from typing import Mapping, Sequence

from comparing import Found
from cubes import Headers, Values
from findings import findings_of, groups_of
from jobs import Refused
from model import Part
from parts import KindsOf, Lans, parts_of
from verdict import FOREIGN, kinds_words


def kinds_of(parts: Sequence[Part], sources: Mapping[str, Values]) -> str:
    """The kinds of the findings that parts are told as."""
    return kinds_words(findings_of(groups_of([(part, None) for part in parts], sources)))


def divided(parts: Sequence[Part], report: Found) -> tuple[list[Part], list[Part]]:
    """Parts, cut into what the report says too and what it doesn't."""
    same: list[Part] = []
    other: list[Part] = []
    for part in parts:
        there = report.places.get(part.ingress, {}).get((" | ".join(part.old), " | ".join(part.new)), Headers.none())
        pairs = ((same, part.headers & there), (other, part.headers - there))
        for some, headers in pairs:
            if headers:
                some.append(part._replace(headers=headers))
    return same, other


def rest_of(found: Found | Refused, report: Found, sources: Mapping[str, Values], lans: Lans, kinds: KindsOf) -> str:
    """What is told of the change without some lines, of which the comparison `found` what it does. `report` is that of the change."""
    if isinstance(found, Refused):
        return "the new network is refused"
    parts = parts_of(found.places, sources, lans, kinds)
    same, other = divided([part for part in parts if part.plausible], report)
    told = ["the change still does the rest: " + kinds_of(same, sources)] if same else []
    if other:
        told.append("%s something else instead: %s" % ("and" if same else "it does", kinds_of(other, sources)))
    return ", ".join(told) or "packets don't change" + (" but for " + FOREIGN if parts else "")
