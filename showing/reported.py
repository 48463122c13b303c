"""The page of a report: what it needs, out of the document of `view --json`, for the template."""
from __future__ import annotations

from collections import Counter
from dataclasses import dataclass, field
from typing import Any, Mapping, NamedTuple, Sequence

from showing.grouped import KINDS, Kind, Line, Why, kind_of, lines_of
from showing.hops import links_of
from showing.page import File
from showing.picture import Picture, Walk, Wiring, ends_of, picture_of
from showing.rendering import data_of, part, rendered, ways_style
from showing.texts import counted, full_place, short_place, shown

# So many groups of each kind stand on the page without its script, so many ingresses in the matrix, so many ways in the picture, and so many
# outcomes.
MOST_LINES, MOST_INGRESSES, MOST_WAYS, MOST_OUTCOMES = 200, 60, 200, 300
UNTITLED = "What the change does to packets"


@dataclass
class Beside:
    """What the page tells that isn't in the document: its title, the command, the files that were read, the programs, and the wiring, where
    a table says it; and by groups why they are there."""

    title: str = ""
    command: str = ""
    files: list[File] = field(default_factory=list)
    programs: list[File] = field(default_factory=list)
    wiring: Wiring | None = None
    explained: Mapping[tuple[str, str, str], Why] = field(default_factory=dict)
    explanations: tuple[int, int] | None = None


class Section(NamedTuple):
    """The groups of a kind: how many there are, in how many rows, and the first of them."""

    kind: Kind
    name: str
    groups: int
    rows: int
    lines: list[Line]
    more: int


class Outcome(NamedTuple):
    """An outcome, with the groups and rows that have it today and as planned; None where a network has it in no group."""

    text: str
    old: tuple[int, int] | None
    new: tuple[int, int] | None


def sections_of(summary: Mapping[str, Any], lines: Sequence[Line]) -> list[Section]:
    """The kinds that there are, by the counts of the summary."""
    found: list[Section] = []
    by_kind: dict[Kind, list[Line]] = {}
    for line in lines:
        by_kind.setdefault(line.kind, []).append(line)
    for one in summary["kinds"]:
        kind = kind_of(one["kind"])
        if one["groups"]:
            some = by_kind.get(kind, [])
            found.append(Section(kind, kind.name.replace(" ", "-"), one["groups"], sum(line.rows for line in some), some[:MOST_LINES],
                                 max(0, len(some) - MOST_LINES)))
    return sorted(found, key=lambda section: KINDS.index(section.kind) if section.kind in KINDS else len(KINDS))


def outcomes_of(summary: Mapping[str, Any]) -> list[Outcome]:
    """The outcomes of both networks side by side, in the order of their texts."""
    sides: dict[str, dict[str, tuple[int, int]]] = {}
    for one in summary["outcomes"]:
        sides.setdefault(one["outcome"], {})[one["version"]] = one["groups"], one["rows"]
    return [Outcome(shown(text), found.get("old"), found.get("new")) for text, found in sorted(sides.items())]


def matrix_of(document: Mapping[str, Any], sections: Sequence[Section]) -> list[tuple[int, str, str, list[int], int]]:
    """For each ingress where something changes its number, its names, how many groups of each kind it has, and how many rows."""
    found = []
    for place, ingress in enumerate(document["ingresses"]):
        if ingress["groups"]:
            kinds = [kind_of(group["kind"]) for group in ingress["groups"]]
            found.append((place, shown(short_place(ingress)), shown(full_place(ingress)),
                          [kinds.count(section.kind) for section in sections], sum(group["rows"] for group in ingress["groups"])))
    return found


def verdict_of(document: Mapping[str, Any], sections: Sequence[Section]) -> tuple[str, str, str]:
    """The colour, the sign and the sentence that say what the report means."""
    count = len(document["ingresses"])
    if not sections:
        return "green", "\u2713", "No packet is treated differently at any of %s." % counted(count, "ingress", "ingresses")
    red = any(section.kind.colour == "red" for section in sections)
    kinds = ", ".join("%s %s" % (section.kind.name, format(section.groups, ",")) for section in sections)
    places = "%s of %s" % (format(count - document["summary"]["untouched"], ","), counted(count, "ingress", "ingresses"))
    return "red" if red else "amber", "\u2715" if red else "?", "To be decided: packets change at %s (%s)." % (places, kinds)


def walks_of(lines: Sequence[Line]) -> list[Walk]:
    """The ways of the first groups that are explained."""
    some = [line for line in lines if line.why][:MOST_WAYS]
    return [Walk(line.number, links_of(line.why.hops.today), links_of(line.why.hops.planned), ends_of(line.why.hops))
            for line in some if line.why]


def picture_for(document: Mapping[str, Any], wiring: Wiring, lines: Sequence[Line]) -> Picture:
    """The network, with the devices where packets enter, those that an outcome names, and the ways."""
    texts = Wiring([(tuple(map(shown, ends)), is_lan) for ends, is_lan in wiring.segments], list(map(shown, wiring.devices)))
    named = {shown(outcome["device"]) for ingress in document["ingresses"] for group in ingress["groups"]
             for outcome in [*group["old"], *group["new"]] if "device" in outcome}
    ingresses = {shown(one["device"]) for one in document["ingresses"]}
    found = {shown(one["device"]) for one in document["ingresses"] if one["groups"]}
    return picture_of(texts, named, ingresses, found, walks_of(lines))


def data_for(document: Mapping[str, Any], lines: Sequence[Line]) -> dict[str, str]:
    """What the page's script knows: the ingresses, the kinds with their counts, and apart from these the groups in the order of the page."""
    counts = Counter(line.kind for line in lines)
    kinds = {kind: at for at, kind in enumerate(counts)}
    places = [[shown(short_place(one)), shown(full_place(one))] for one in document["ingresses"]]
    some = {"places": places, "kinds": [[*kind, kind.name.replace(" ", "-"), count] for kind, count in counts.items()], "total": len(lines)}
    return {"data": data_of(some), "rest": data_of([line.data(kinds) for line in lines])}


def page_of(document: Mapping[str, Any], beside: Beside) -> bytes:
    """The page of a report's document (docs/report-schema.json). NoJinja where Jinja2 isn't there."""
    lines = lines_of(document, beside.explained)
    summary = document["summary"]
    sections = sections_of(summary, lines)
    colour, sign, words = verdict_of(document, sections)
    picture = picture_for(document, beside.wiring, lines) if beside.wiring else None
    matrix, ends = matrix_of(document, sections), outcomes_of(summary)
    untouched = [shown(full_place(one)) for one in document["ingresses"] if not one["groups"]]
    context = {
        "title": shown(beside.title) or UNTITLED, "colour": colour, "sign": sign, "words": words, "groups": summary["groups"],
        "rows": document["affected"], "ingresses": len(document["ingresses"]), "sections": sections, "matrix": matrix[:MOST_INGRESSES],
        "more_ingresses": max(0, len(matrix) - MOST_INGRESSES), "untouched": untouched, "untouched_count": summary["untouched"],
        "outcomes": ends[:MOST_OUTCOMES], "outcome_count": len(ends), "picture": picture, "explanations": beside.explanations, "command": shown(beside.command),
        "files": [File(*map(shown, one)) for one in beside.files], "programs": [File(*map(shown, one)) for one in beside.programs]}
    styles = [part("style.css"), part("view.css"), ways_style("g", [way.finding for way in picture.ways] if picture else [])]
    return rendered("report.html.j2", context, styles, part("report.js"), data_for(document, lines))
