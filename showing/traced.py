"""The page of a packet in two networks, out of the document of `view --traces --json` (docs/traces-schema.json)."""
from __future__ import annotations

from dataclasses import dataclass
from typing import Any, Mapping, Sequence

from showing import answered
from showing.explained import packet_words
from showing.hops import Table, links_of, table_of
from showing.picture import Picture, Walk, Wiring, ends_of, picture_of
from showing.rendering import part, rendered
from showing.texts import all_shown, shown

TITLE = "A packet in two networks"


@dataclass
class Beside(answered.Beside):
    """What a page tells that isn't in its document, with the wiring of both networks."""

    wiring: Wiring | None = None


def outcome_of(trace: Sequence[str]) -> str:
    """What becomes of the packet, by the last line of its trace."""
    return trace[-1].removeprefix("outcome ")


def verdict_of(document: Mapping[str, Any], table: Table) -> tuple[str, str, str]:
    """The colour, the sign and the sentence that say where the networks part."""
    old, new = outcome_of(document["old"]), outcome_of(document["new"])
    if document["old"] == document["new"]:
        return "green", "\u2713", "Both networks do the same with this packet: %s." % old
    hop = next((one for row in table.rows for one in row if one), None)
    place = " at %s" % hop.device if hop else ""
    if old == new:
        return "amber", "?", "The networks part%s, and both end alike: %s." % (place, old)
    return "amber", "?", "The networks part%s: %s today, %s as planned." % (place, old, new)


def first_difference(old: Sequence[str], new: Sequence[str]) -> int:
    """The place of the first line by which two traces part."""
    return next((at for at, (one, other) in enumerate(zip(old, new)) if one != other), min(len(old), len(new)))


def picture_for(document: Mapping[str, Any], wiring: Wiring, table: Table) -> Picture:
    """The network with both ways; the devices thick at which the networks part."""
    texts = Wiring([(tuple(map(shown, ends)), is_lan) for ends, is_lan in wiring.segments], list(map(shown, wiring.devices)))
    parts = {hop.device for row in table.rows[:1] for hop in row if hop} if document["old"] != document["new"] else set()
    ingress = {document["device"]}
    return picture_of(texts, parts, ingress, ingress, [Walk(1, links_of(table.today), links_of(table.planned), ends_of(table))])


def page_of(document: Mapping[str, Any], beside: Beside) -> bytes:
    """The page. NoJinja where Jinja2 isn't there."""
    document = all_shown(dict(document))
    table = table_of(document["old"], document["new"])
    colour, sign, words = verdict_of(document, table)
    parts = document["parts"]
    context = {
        "document": document, "title": TITLE, "colour": colour, "sign": sign, "words": words, "hops_table": table,
        "packet": packet_words(document["packet"]), "both": document["old"][:parts], "old": document["old"][parts:],
        "new": document["new"][parts:], "differs": first_difference(document["old"][parts:], document["new"][parts:]),
        "outcomes": (outcome_of(document["old"]), outcome_of(document["new"])),
        "picture": picture_for(document, beside.wiring, table) if beside.wiring else None,
        **answered.evidence_of(beside.command, beside.files, beside.programs)}
    return rendered("traces.html.j2", context, [part("style.css"), part("view.css"), "\n.way, .ends { display: inline; }\n"])
