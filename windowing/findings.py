"""Puts parts of a report together to what a person decides on.

A part becomes groups, so that equal ones at several ingresses are one group; groups are told together as a finding. Nothing is lost on
the way: the groups at an ingress with some outcomes are disjoint and together the parts that it has with these.
"""
from __future__ import annotations

from typing import Callable, Iterable, Mapping, NamedTuple, Sequence

from cubes import ALL_FIELDS, Box, Headers, Values
from kinds import KINDS
from model import Cause, Finding, Group, Part

ITS, FOREIGN, OWN = "its", "foreign", "own"


def without_source(headers: Headers) -> Headers:
    """The headers with any source in the place of theirs."""
    return Headers.of_boxes(box._replace(source=ALL_FIELDS[1]) for box in headers.boxes())


def divided(headers: Headers, sources: Headers) -> list[tuple[Headers, bool]]:
    """Headers within `sources`, which open all other fields, cut in two: those that are there with every one of the sources, then with
    any source in their place and True; and the rest."""
    if not headers:
        return []
    if headers == sources:
        return [(Headers.all(), True)]
    opened = without_source(headers)
    if opened & sources == headers:
        return [(opened, True)]
    whole = opened - without_source((opened & sources) - headers)
    rest = headers - whole
    return [piece for piece in ((whole, True), (rest, False)) if piece[0]]


class Judged(NamedTuple):
    """What an expectation says of headers of one part: whether it allows all, some or none of them, what it doesn't allow, and its
    lines."""

    expected: str | None
    unexpected: Headers
    lines: tuple[int, ...]


# What is expected of headers of a part: a function of the part and the headers.
Judge = Callable[[Part, Headers], Judged]


def no_judge(_: Part, headers: Headers) -> Judged:
    """Nothing was said to be expected."""
    return Judged(None, headers, ())


def pieces_of(part: Part, sources: Mapping[str, Values], judge: Judge) -> list[tuple[Headers, str, Judged]]:
    """A part as pieces for groups: headers, which sources they stand for, and what is expected of them, with the sources of that in the
    same words."""
    here = Headers.where(source=sources[part.ingress] if part.plausible else ~sources[part.ingress])
    found = []
    for headers, whole in divided(part.headers, here):
        exact = headers & here if whole else headers
        judged = judge(part, exact)
        word = (ITS if part.plausible else FOREIGN) if whole else OWN
        if whole and judged.unexpected == exact:
            judged = judged._replace(unexpected=headers)
        elif whole and judged.unexpected:
            opened = without_source(judged.unexpected)
            if opened & here == judged.unexpected:
                judged = judged._replace(unexpected=opened)
            else:
                headers, word = exact, OWN
        found.append((headers, word, judged))
    return found


def groups_of(parts: Iterable[tuple[Part, Cause | None]], sources: Mapping[str, Values], judge: Judge = no_judge) -> list[Group]:
    """The groups of parts: those that are equal at several ingresses are one. In the order of the parts."""
    places: dict[Group, list[str]] = {}
    for part, cause in parts:
        for headers, word, judged in pieces_of(part, sources, judge):
            group = Group(part.kind, part.plausible, (), headers, word, part.old, part.new, cause, *judged)
            places.setdefault(group, []).append(part.ingress)
    return [group._replace(ingresses=tuple(dict.fromkeys(found))) for group, found in places.items()]


def findings_of(groups: Iterable[Group]) -> list[Finding]:
    """Groups of one kind, at the same ingresses, of the same lines and equally expected are one finding, each group in exactly one.
    Findings that then have the same headers, at other ingresses, are one too. The most feared come first; of one kind those at most
    ingresses."""
    together: dict[tuple[object, ...], Finding] = {}
    for group in groups:
        new = Finding(group.kind, group.plausible, group.ingresses, group.cause, group.expected, group.expectations, [])
        key = (group.kind, group.plausible, group.ingresses, group.cause, group.expected, group.expectations)
        together.setdefault(key, new).groups.append(group)
    alike: dict[tuple[object, ...], Finding] = {}
    for finding in together.values():
        headers = tuple(finding.headers(word, unexpected) for word in (ITS, FOREIGN, OWN) for unexpected in (False, True))
        same = alike.setdefault((finding.kind, finding.plausible, finding.cause, finding.expected, finding.expectations, headers), finding)
        if same is not finding:
            same.groups += finding.groups
            same.ingresses += tuple(place for place in finding.ingresses if place not in same.ingresses)
    return sorted(alike.values(), key=lambda finding: (KINDS.index(finding.kind), -len(finding.ingresses)))


def numbered(findings: Sequence[Finding], first: int = 1) -> list[Finding]:
    """The same, with numbers from the first one on."""
    for number, finding in enumerate(findings, first):
        finding.number = number
    return list(findings)


def expanded(group: Group, ingress: str, sources: Mapping[str, Values]) -> Headers:
    """The headers of a group at one of its ingresses."""
    if group.sources == OWN:
        return group.headers
    here = sources[ingress] if group.sources == ITS else ~sources[ingress]
    return group.headers & Headers.where(source=here)


def boxes_by_ends(headers: Headers) -> dict[tuple[Values, Values], list[Box]]:
    """The boxes of headers, those of one source and destination together."""
    found: dict[tuple[Values, Values], list[Box]] = {}
    for box in headers.boxes():
        found.setdefault((box.source, box.destination), []).append(box)
    return found
