"""The page on which a change is decided: what it needs, out of the document of `window`, for the template."""
from __future__ import annotations

import os
import re
from collections import Counter
from dataclasses import dataclass, field
from typing import Any, Iterable, Mapping, NamedTuple, Sequence

from showing.hops import Table, links_of, table_of
from showing.outcomes import side_words
from showing.picture import Picture, Walk, Wiring, ends_of as ends_in, picture_of
from showing.rendering import part, rendered, ways_style
from showing.texts import all_shown, full_place, short_place, shown

# Of so many findings of each section all is told; of each at most so many ends and lines. What is left out is counted.
MOST_FINDINGS, MOST_ENDS, MOST_CAUSES, MOST_INGRESSES = 300, 6, 12, 60
# Each kind's sign, and its colour: red is lost, amber gets through, blue goes another way.
KINDS = {
    "loops": ("\u21bb", "red"), "closes": ("\u2715", "red"), "unanswered": ("?", "red"), "opens": ("\u25c7", "amber"),
    "sometimes": ("\u00bd", "amber"), "translated otherwise": ("\u21c4", "blue"), "moves": ("\u2192", "blue"),
    "moves on a lan": ("\u2192", "blue"), "loop gone": ("\u25cb", "grey")}
# The verdict's colour and sign.
VERDICTS = {"unexpected": ("red", "\u2715"), "decide": ("amber", "?"), "expected": ("green", "\u2713"), "nothing": ("green", "\u2713")}
_FLOW = re.compile(r"from (.*?) to (.*?): (.*)")


class File(NamedTuple):
    """A folder or a file that was read: what it is, how it is called, what is in it, and the sum of its bytes by sha256."""

    what: str
    called: str
    content: str
    sha256: str


@dataclass
class Beside:
    """What the page tells that isn't in the document. `traces` has for a finding's number the lines of `review trace` in both networks for
    its example; all texts are of bytes, as the document's are."""

    made: str
    command: str
    files: list[File] = field(default_factory=list)
    programs: list[File] = field(default_factory=list)
    limits: list[str] = field(default_factory=list)
    wiring: Wiring = Wiring([], [])
    traces: Mapping[int, tuple[list[str], list[str]]] = field(default_factory=dict)


class Mark(NamedTuple):
    """A count that is a link to what it counts."""

    colour: str
    sign: str
    number: int
    words: str
    target: str


class Flow(NamedTuple):
    """Packets in words: the source, the destination and what they are; `words` is all of it where it can't be told apart."""

    source: str
    destination: str
    what: str
    words: str


class Card(NamedTuple):
    """What is expected and doesn't happen, or a finding."""

    number: int
    sign: str
    colour: str
    kind: str
    becomes: str
    flows: list[Flow]
    unexpected: list[Flow]
    ends: list[tuple[str, str]]
    more_ends: int
    other: str
    ingresses: list[str]
    at: str
    how: str
    causes: list[dict[str, Any]]
    more_causes: int
    expected: str
    expectations: list[str]
    packet: str
    enters: str
    note: str
    groups: int
    hops: Table | None


def flow_of(words: str) -> Flow:
    """Words of the document taken apart."""
    found = _FLOW.fullmatch(words)
    return Flow(found[1], found[2], found[3], words) if found else Flow("", "", "", words)


def ends_of(finding: Mapping[str, Any]) -> list[tuple[str, str]]:
    """The pairs of ends of a finding's groups, today's and the planned one, each once."""
    pairs = dict.fromkeys((side_words(group["old"]), side_words(group["new"])) for group in finding["groups"])
    return [(shown(old), shown(new)) for old, new in pairs]


def other_end(kind: str, ends: Sequence[tuple[str, str]]) -> str:
    """The end that the kind doesn't say, in short: of `closes` where packets went."""
    sides = []
    for side, word in ((0, "was"), (1, "now")):
        texts = list(dict.fromkeys(pair[side] for pair in ends))
        sides.append("%s %s" % (word, texts[0] if len(texts) == 1 else "%d ends" % len(texts)))
    if kind in ("closes", "loops", "loop gone"):
        return sides[0]
    return sides[1] if kind == "opens" else ", ".join(sides)


def at_words(places: Sequence[Mapping[str, Any]]) -> str:
    """The ingress, or how many there are."""
    return short_place(dict(places[0])) if len(places) == 1 else "%d ingresses" % len(places) if places else "no ingress"


class Page:
    """A document and what stands beside it, as the template takes them."""

    def __init__(self, document: Mapping[str, Any], beside: Beside) -> None:
        self.document = all_shown(dict(document))
        self.beside = beside
        self.lines = {line["number"]: line for line in self.document["lines"]}
        self.expected_file = os.path.basename(self.document["expected"]["path"]) if self.document["expected"] else ""
        self.tables = {number: table_of(*([shown(line) for line in lines] for lines in both)) for number, both in beside.traces.items()}

    # ---- findings

    def findings(self) -> list[dict[str, Any]]:
        """Those of sources that can be there."""
        return [finding for finding in self.document["findings"] if finding["plausible"]]

    def foreign(self) -> list[dict[str, Any]]:
        """Those of sources that can't."""
        return [finding for finding in self.document["findings"] if not finding["plausible"]]

    def undecided(self) -> list[dict[str, Any]]:
        """Those that aren't wholly expected."""
        return [finding for finding in self.findings() if finding["expected"] != "whole"]

    def as_expected(self) -> list[dict[str, Any]]:
        return [finding for finding in self.findings() if finding["expected"] == "whole"]

    def expectations(self, lines: Iterable[int]) -> list[str]:
        """Lines of the file of what is expected, with their places."""
        words = {one["line"]: one["words"] for one in self.document["expected"]["lines"]} if self.document["expected"] else {}
        return ["%s:%d %s" % (self.expected_file, line, words.get(line, "")) for line in lines]

    def finding_card(self, finding: Mapping[str, Any]) -> Card:
        """A finding for the template."""
        sign, colour = KINDS[finding["kind"]]
        cause, ends, example = finding["cause"], ends_of(finding), finding["example"]
        causes = [self.lines[number] for number in cause["lines"]] if cause else []
        how = {"by": "by", "any": "by any of", "all": "only together"}[cause["how"]] if cause and len(causes) > 1 else "by"
        lines = finding["expectations"]
        if finding["expected"] == "no" and self.document["expected"]["nothing else"]:
            lines = [self.document["expected"]["nothing else"]]
        return Card(
            number=finding["number"], sign=sign, colour=colour, kind=finding["kind"], becomes=finding["becomes"],
            flows=list(map(flow_of, finding["words"])), unexpected=list(map(flow_of, finding["unexpected words"])),
            ends=ends[:MOST_ENDS], more_ends=max(0, len(ends) - MOST_ENDS), other=other_end(finding["kind"], ends),
            ingresses=list(map(full_place, finding["ingresses"])), at=at_words(finding["ingresses"]), how=how, causes=causes[:MOST_CAUSES],
            more_causes=max(0, len(causes) - MOST_CAUSES), expected=finding["expected"] or "", expectations=self.expectations(lines),
            packet=example["words"], enters=full_place(example), note=example["note"] or "", groups=len(finding["groups"]),
            hops=self.tables.get(finding["number"]))

    def missing_card(self, missing: Mapping[str, Any]) -> Card:
        """What is expected and doesn't happen, for the template."""
        example = missing["example"]
        return Card(
            number=missing["number"], sign="\u2205", colour="red", kind="missing", becomes=missing["why"],
            flows=list(map(flow_of, missing["words"])), unexpected=[], ends=[], more_ends=0, other=missing["why"],
            ingresses=list(map(full_place, missing["ingresses"])), at=at_words(missing["ingresses"]), how="by", causes=[], more_causes=0,
            expected="missing", expectations=self.expectations([missing["line"]]), packet=example["words"] if example else "",
            enters=full_place(example) if example else "", note="", groups=0, hops=self.tables.get(missing["number"]))

    def section(self, findings: Sequence[Mapping[str, Any]]) -> tuple[list[Card], int]:
        """Cards, and how many findings aren't told one by one."""
        return [self.finding_card(finding) for finding in findings[:MOST_FINDINGS]], max(0, len(findings) - MOST_FINDINGS)

    # ---- marks and matrix

    def fails_now(self) -> list[dict[str, Any]]:
        """The questions that fail, and held before or weren't asked."""
        return [one for one in self.document["questions"] or () if one["after"] is False and one["before"] is not False]

    def touched_edges(self) -> list[dict[str, Any]]:
        """The edges with which the change has to do, but for those where nothing changes."""
        return [edge for edge in self.document["edges"] if edge["why"] and edge["kinds"] != []]

    def idle(self) -> list[dict[str, Any]]:
        """The lines without effect that are to be decided."""
        return [line for line in self.document["lines"] if line["idle"] and not line["idle"]["backup"] and not line["idle"]["quiet"]]

    def marks(self) -> list[Mark]:
        """How many there are of each; zeros are left out."""
        words = ("unexpected", "unexpected") if self.document["expected"] else ("finding", "findings")
        fatal = any(KINDS[finding["kind"]][1] == "red" for finding in self.undecided()) or bool(self.document["expected"])
        some = (("red", "\u2205", len(self.document["missing"]), "missing", "missing", "missing"),
                ("red" if fatal else "amber", "!", len(self.undecided()), *words, "unexpected"),
                ("red", "?", len(self.fails_now()), "question fails now", "questions fail now", "questions"),
                ("amber", "\u25b2", len(self.document["warnings"]["new"]), "new warning", "new warnings", "warnings"),
                ("violet", "\u2013", len(self.idle()), "line without effect", "lines without effect", "idle"),
                ("amber", "\u25cc", len(self.touched_edges()), "edge that is no ingress", "edges that are no ingress", "edges"),
                ("plain", "\u2713", len(self.as_expected()), "as expected", "as expected", "expected"),
                ("plain", "\u25b2", len(self.document["warnings"]["both"]), "standing warning", "standing warnings", "warnings"))
        return [Mark(colour, sign, number, one if number == 1 else several, target)
                for colour, sign, number, one, several, target in some if number]

    def matrix(self) -> tuple[list[str], list[tuple[str, str, list[list[int]]]], int]:
        """The kinds that there are, and for each ingress with a finding its names and the numbers of each kind; how many more there are."""
        found: dict[tuple[str, str], dict[str, list[int]]] = {}
        for one in [*({**missing, "kind": "missing"} for missing in self.document["missing"]), *self.findings()]:
            for place in one["ingresses"]:
                found.setdefault((short_place(place), full_place(place)), {}).setdefault(one["kind"], []).append(one["number"])
        kinds = [kind for kind in ("missing", *KINDS) if any(kind in by_kind for by_kind in found.values())]
        rows = [(name, full, [by_kind.get(kind, []) for kind in kinds]) for (name, full), by_kind in found.items()]
        return kinds, rows[:MOST_INGRESSES], max(0, len(rows) - MOST_INGRESSES)

    def by_line(self) -> dict[int, list[int]]:
        """For each line the numbers of the findings that come of it."""
        found: dict[int, list[int]] = {}
        for finding in self.findings():
            for line in (finding["cause"] or {"lines": []})["lines"]:
                found.setdefault(line, []).append(finding["number"])
        return found

    def told_one_by_one(self) -> set[int]:
        """The numbers of what has a card."""
        some = self.undecided()[:MOST_FINDINGS] + self.as_expected()[:MOST_FINDINGS]
        return {one["number"] for one in [*self.document["missing"], *some]}

    # ---- picture

    def walks(self) -> list[Walk]:
        """The ways of the findings that were traced."""
        return [Walk(number, links_of(table.today), links_of(table.planned), ends_in(table)) for number, table in self.tables.items()]

    def picture(self) -> Picture:
        """The network with the ways."""
        given = self.beside.wiring
        wiring = Wiring([(tuple(map(shown, ends)), is_lan) for ends, is_lan in given.segments], list(map(shown, given.devices)))
        changed = {line["device"] for line in self.document["lines"]}
        ingresses = {place["device"] for place in self.document["ingresses"]}
        some = [*self.document["missing"], *self.findings()]
        found = {place["device"] for one in some for place in one["ingresses"]}
        return picture_of(wiring, changed, ingresses, found, self.walks())

    # ---- all of it

    def context(self) -> dict[str, Any]:
        """What the template is given."""
        document, beside = self.document, self.beside
        unexpected, more_unexpected = self.section(self.undecided())
        expected, more_expected = self.section(self.as_expected())
        foreign, more_foreign = self.section(self.foreign())
        caused = self.by_line()
        anywhere = {line for finding in document["findings"] for line in (finding["cause"] or {"lines": []})["lines"]}
        lines = document["lines"]
        kinds, rows, more_rows = self.matrix()
        questions = document["questions"] or []
        touched = self.touched_edges()
        known = {id(edge) for edge in touched}
        foreign_kinds = Counter(finding["kind"] for finding in self.foreign() for _ in finding["groups"])
        return {
            "document": document, "verdict": VERDICTS[document["verdict"]["word"]], "kinds": KINDS,
            "behind": [self.lines[number] for number in document["verdict"]["lines"]], "marks": self.marks(),
            "missing": [self.missing_card(missing) for missing in document["missing"]],
            "unexpected": unexpected, "more_unexpected": more_unexpected, "expected": expected, "more_expected": more_expected,
            "foreign": foreign, "more_foreign": more_foreign,
            "foreign_kinds": [(kind, foreign_kinds[kind]) for kind in KINDS if foreign_kinds[kind]],
            "groups": sum(len(finding["groups"]) for finding in document["findings"]),
            "rows": sum(place["rows"] for place in document["ingresses"]),
            "effective": [(line, caused.get(line["number"], [])) for line in lines if line["number"] in anywhere],
            "idle": self.idle(),
            "backups": [line for line in lines if line["idle"] and line["idle"]["backup"]],
            "quiet_lines": [line for line in lines if line["idle"] and line["idle"]["quiet"]],
            "beside_lines": [line for line in lines if line["beside"] and line["number"] not in anywhere],
            "holding": [line for line in lines if line["holds back"]], "noted": [line for line in lines if line["note"]],
            "matrix_kinds": kinds, "matrix": rows, "more_rows": more_rows, "cards": self.told_one_by_one(),
            "fails_now": self.fails_now(),
            "fail_both": [one for one in questions if one["after"] is False and one["before"] is False],
            "hold_now": [one for one in questions if one["after"] is True and one["before"] is not True],
            "hold": [one for one in questions if one["after"] is True and one["before"] is True],
            "retired": [one for one in questions if one["after"] is None],
            "edges": touched, "quiet_edges": [edge for edge in document["edges"] if id(edge) not in known],
            "picture": self.picture(), "made": shown(beside.made), "command": shown(beside.command),
            "limits": list(map(shown, beside.limits)),
            "files": [File(*map(shown, one)) for one in beside.files], "programs": [File(*map(shown, one)) for one in beside.programs]}


# ---- rendering


def page_of(document: Mapping[str, Any], beside: Beside) -> bytes:
    """The page of a document of `window`. NoJinja where Jinja2 isn't there."""
    context = Page(document, beside).context()
    styles = [part("style.css"), ways_style("f", [way.finding for way in context["picture"].ways])]
    return rendered("decision.html.j2", context, styles, part("script.js"))
