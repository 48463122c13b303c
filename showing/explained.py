"""Why the groups of a report are there, out of the document of `view --why --json` (docs/why-schema.json)."""
from __future__ import annotations

from typing import Any, Mapping

from showing.grouped import FIELDS, Why
from showing.hops import table_of
from showing.texts import shown


def packet_words(packet: Mapping[str, Any]) -> str:
    """The fields of a packet as a report has them."""
    return " ".join("%s %s" % (name, packet[name]) for name in FIELDS)


def explained_of(document: Mapping[str, Any]) -> dict[tuple[str, str, str], Why]:
    """Each explanation, by what it names its group."""
    found = {}
    for one in document["explanations"]:
        hops = table_of(*([shown(line) for line in one[side]] for side in ("old", "new")))
        found[one["device"], one["interface"], one["group"]] = Why(packet_words(one["packet"]), hops)
    return found
