"""The groups of a report, as a page has them: in order, each with its words, and as data for the page's script."""
from __future__ import annotations

from dataclasses import dataclass
from typing import Any, Iterator, Mapping, NamedTuple, Sequence

from showing import outcomes
from showing.hops import Table
from showing.texts import full_place, short_place, shown


class Kind(NamedTuple):
    """What a change does to packets: its name, the sign and the colour that stand for it, and what becomes of the packets."""

    name: str
    sign: str
    colour: str
    becomes: str


# From the most feared to the least feared, as `view` orders them.
KINDS = (
    Kind("loops", "\u21bb", "red", "go round until they expire"),
    Kind("closes", "\u2715", "red", "no longer get through"),
    Kind("opens", "\u25c7", "amber", "get through now"),
    Kind("sometimes", "\u00bd", "amber", "lose some of their equal-cost paths, or no longer do"),
    Kind("translated otherwise", "\u21c4", "blue", "end where they did, with other addresses or ports"),
    Kind("moves", "\u2192", "blue", "end elsewhere"),
    Kind("loop gone", "\u25cb", "grey", "go round no more, and get no further than before"))
FIELDS = ("dst", "src", "proto", "dport", "sport", "flags")


class Why(NamedTuple):
    """Why a group is there: a packet of it, in words, and its ways in both networks."""

    packet: str
    hops: Table


@dataclass
class Line:
    """A group: its number on the page, from 1, its ingress by its number in the document, its kind, and its words."""

    number: int
    place: int
    kind: Kind
    at: str
    ingress: str
    source: str
    destination: str
    what: str
    other: str
    words: str
    old: str
    new: str
    rows: int
    patterns: str
    why: Why | None = None

    def data(self, kinds: Mapping[Kind, int]) -> list[Any]:
        """What the page's script knows of the group; the kinds are numbered."""
        found = [self.place, kinds[self.kind], self.source, self.destination, self.what, self.other, self.words, self.old, self.new,
                 self.rows, self.patterns]
        return found + [why_data(self.why)] if self.why else found


BY_NAME = {kind.name: (at, kind) for at, kind in enumerate(KINDS)}


def kind_of(name: str) -> Kind:
    """The kind of a name; one that this page doesn't know stands for itself, in grey."""
    return BY_NAME[name][1] if name in BY_NAME else Kind(name, "\u00b7", "grey", name)


def rank(name: str) -> int:
    """The place of a kind among all."""
    return BY_NAME[name][0] if name in BY_NAME else len(KINDS)


class Sides:
    """The outcomes of sides in words, each made once: of a report with many groups most have the same few."""

    def __init__(self) -> None:
        self.known: dict[str, tuple[str, str]] = {}

    def words(self, side: Sequence[Mapping[str, Any]]) -> tuple[str, str]:
        """The outcomes as the report has them, and in short."""
        text = outcomes.report_texts(side)
        if text not in self.known:
            self.known[text] = shown(text), shown(outcomes.side_words(side))
        return self.known[text]


def key_of(ingress: Mapping[str, Any], group: Mapping[str, Any]) -> tuple[str, str, str]:
    """By what an explanation (docs/why-schema.json) names a group."""
    text = "%s  %s: %s -> %s" % (group["kind"], group["words"], outcomes.report_texts(group["old"]), outcomes.report_texts(group["new"]))
    return ingress["device"], ingress["interface"], text


def service(words: str) -> str:
    """What is in a group's words beside its addresses."""
    parts = [part for part in words.split("  ") if part != "any header" and not part.startswith(("dst ", "src "))]
    # (messages that have no name begin with their protocol's)
    return " ".join(parts[1:] if parts[:1] == ["icmp"] and parts[1:] and parts[1].startswith("icmp ") else parts)


def in_order(document: Mapping[str, Any]) -> Iterator[tuple[int, Mapping[str, Any], Mapping[str, Any]]]:
    """Each group with its ingress and that one's number: by kind, the most feared one first, and then as the document has them."""
    found = [(rank(group["kind"]), place, ingress, group) for place, ingress in enumerate(document["ingresses"])
             for group in ingress["groups"]]
    # (those of one kind keep their order)
    found.sort(key=lambda one: one[0])
    for _, place, ingress, group in found:
        yield place, ingress, group


def lines_of(document: Mapping[str, Any], explained: Mapping[tuple[str, str, str], Why]) -> list[Line]:
    """The groups of a document (docs/report-schema.json) in the order of the page."""
    places = [(shown(short_place(one)), shown(full_place(one))) for one in document["ingresses"]]
    lines, sides = [], Sides()
    for number, (place, ingress, group) in enumerate(in_order(document), 1):
        kind, values, words = group["kind"], group["values"], shown(group["words"])
        (old, old_words), (new, new_words) = sides.words(group["old"]), sides.words(group["new"])
        lines.append(Line(
            number, place, kind_of(kind), *places[place], source=values["src"], destination=values["dst"], what=service(words),
            other=outcomes.other_end(kind, old_words, new_words), words=words, old=old, new=new, rows=group["rows"],
            patterns=";".join([" ".join(group["fields"][name]) for name in FIELDS]),
            why=explained.get(key_of(ingress, group)) if explained else None))
    return lines


def why_data(why: Why) -> dict[str, Any]:
    """An explanation for the page's script: where both ways begin alike, and for each row of hops both sides as place and texts."""
    rows = [[[hop.place, hop.decides, hop.ends] if hop else None for hop in row] for row in why.hops.rows]
    return {"packet": why.packet, "same": [hop.place for hop in why.hops.same], "rows": rows, "more": why.hops.more}
