"""Link tables: read, and written with a comment why above each line."""
from __future__ import annotations

from dataclasses import dataclass

from preparing.texts import Line, read_lines, says_something

from .network import Device
from .segments import Wiring


@dataclass
class Row:
    """A line of a link table: its kind, its ends, and its place."""

    kind: str
    ends: list[tuple[str, str]]
    line: Line


def read_table(path: str) -> list[Row]:
    """The lines of a link table, as the verifier reads them.

    Raises Refused, with the verifier's kinds: BadWord, MissingWord, EndTaken, NoIngress.
    """
    rows: list[Row] = []
    taken: dict[str, set[tuple[str, str]]] = {"ingress": set(), "link": set()}
    for line in read_lines(path):
        if not says_something(line):
            continue
        words = line.words()
        if words[0] not in ("p2p", "lan", "ingress"):
            raise line.refused("BadWord", words[0])
        ends = list(zip(words[1::2], words[2::2]))
        most = {"p2p": 2, "ingress": 1}.get(words[0], len(ends))
        if len(words) % 2 == 0 or len(ends) < {"ingress": 1}.get(words[0], 2):
            raise line.refused("MissingWord")
        if len(ends) > most:
            raise line.refused("BadWord", words[1 + 2 * most])
        place = taken["ingress" if words[0] == "ingress" else "link"]
        for end in ends:
            if end in place:
                raise line.refused("EndTaken", end[1])
            place.add(end)
        rows.append(Row(words[0], ends, line))
    if not any(row.kind == "ingress" for row in rows):
        raise Line("", path, 0).refused("NoIngress")
    return rows


def table_lines(wiring: Wiring, devices: dict[str, Device], folder: str) -> list[str]:
    """A link table as lines: a comment why above each line, what is only proposed as comments."""
    sure = [edge for edge in wiring.edges if not edge.proposed]
    counts = len(devices), len(wiring.segments), len(sure)
    lines = ["! link table of %s, written by wire: %d devices, %d links, %d ingresses" % (folder, *counts)]
    lines += ["! CONTRADICTION: %s" % told for told in wiring.contradictions]
    for segment in wiring.segments:
        lines += ["! %s" % segment.why, segment.line()]
    lines += ["!", "! where packets come in"]
    for edge in sure:
        lines += ["! %s" % edge.why, edge.line()]
    proposed = [edge for edge in wiring.edges if edge.proposed]
    if proposed:
        lines += ["!", "! remove the mark if packets come in here too"]
        for edge in proposed:
            lines += ["! %s" % edge.why, edge.line()]
    return lines
