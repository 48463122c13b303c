"""What the modules of the window hand to one another."""
from __future__ import annotations

from dataclasses import dataclass, field
from typing import NamedTuple

from cubes import Headers, Values
from field_words import listed


class Part(NamedTuple):
    """Headers that enter at one ingress and are treated differently: all with these outcomes, as the report writes them, and all of sources
    that can be at the ingress, or none of them. The parts of a report are disjoint and together its rows."""

    ingress: str
    headers: Headers
    old: tuple[str, ...]
    new: tuple[str, ...]
    plausible: bool
    kind: str


class Line(NamedTuple):
    """A changed line, or several that are told together. `place` and `text` are those of the first new line, or of the first old one where
    there is no new one; `sign` is + for a line that is new, - for one that is gone and ~ for one in the place of `other`. The line is that
    of number `at` in the file `path`. `also` has the places of the others. `where` says the section, as `list USERS`. `parts` has all
    lines, each as place, sign and words, of which the first `own` ones are told; the others are alike on further `devices`, or are
    `joined`, since the new network without these alone is refused."""

    number: int
    place: str
    sign: str
    text: str
    other: str
    kind: str
    device: str
    also: tuple[str, ...] = ()
    where: str = ""
    parts: tuple[tuple[str, str, str], ...] = ()
    own: int = 0
    devices: tuple[str, ...] = ()
    joined: tuple[str, ...] = ()
    path: str = ""
    at: int = 0

    def said(self, most: int = 2) -> str:
        """The line in a few words, with at most so many of its parts: `DIST1.cfg:80 + 45 permit tcp any any [list USERS]`. Where one part
        is told, a new one stands for the old ones that it replaces."""
        mine = self.parts[:self.own]
        new = [part for part in mine if part[1] == "+"]
        old = [part for part in mine if part[1] == "-"][:max(most // 2, most - len(new))]
        told = old + new[:most - len(old)]
        text = "; ".join("%s %s %s" % part for part in told)
        more = len(new if new and most == 1 else mine) - len(told)
        text += " and %d more" % more if more else ""
        text += " [%s]" % self.where if self.where else ""
        text += ", and alike on %s" % listed(self.devices[1:], 3) if len(self.devices) > 1 else ""
        return text + (", together with %s" % listed(self.joined, 1) if self.joined else "")


class Cause(NamedTuple):
    """The changed lines of which headers come: `by` all of them, each needed; `any` of them alone; `all` of them, only together."""

    how: str
    lines: tuple[int, ...]


class Group(NamedTuple):
    """Headers with the same outcomes, at one or several ingresses.

    `sources` says which sources: "its" stands for all that can be at each of the ingresses, "foreign" for all others, and the headers
    are then open in the source; "own" for those that the headers have. `unexpected` is what of the headers no expectation allows.
    """

    kind: str
    plausible: bool
    ingresses: tuple[str, ...]
    headers: Headers
    sources: str
    old: tuple[str, ...]
    new: tuple[str, ...]
    cause: Cause | None
    expected: str | None  # "whole", "part", "no"; None where nothing was said to be expected
    unexpected: Headers
    expectations: tuple[int, ...]  # lines of the file that allow some of it


@dataclass
class Finding:
    """Groups that a person decides on together: of one kind, at the same ingresses, of the same lines and equally expected."""

    kind: str
    plausible: bool
    ingresses: tuple[str, ...]
    cause: Cause | None
    expected: str | None
    expectations: tuple[int, ...]
    groups: list[Group]
    number: int = 0
    note: str = ""  # what a trace of its example shows besides

    def headers(self, sources: str, unexpected: bool = False) -> Headers:
        """What its groups of one kind of sources have together."""
        found = Headers.none()
        for group in self.groups:
            if group.sources == sources:
                found = found | (group.unexpected if unexpected else group.headers)
        return found

    def ends(self) -> list[tuple[tuple[str, ...], tuple[str, ...]]]:
        """The pairs of outcomes of its groups, each once."""
        return list(dict.fromkeys((group.old, group.new) for group in self.groups))


class Missing(NamedTuple):
    """What was expected and doesn't happen: the line of the file, the ingresses, the headers ("own" or "its" as in a group), and why."""

    line: int
    kind: str
    ingresses: tuple[str, ...]
    headers: Headers
    sources: str
    why: str


class Edge(NamedTuple):
    """An interface where packets could come in and that is no ingress: its place, its addresses, what the change has to do with it ("" for
    nothing), and the kinds of what changes for packets that come in there (None where nobody looked)."""

    place: str
    addresses: tuple[str, ...]
    why: str
    kinds: tuple[str, ...] | None


class Warnings(NamedTuple):
    """The doctor's warnings: those of the change, those of both networks, those of the old one alone, and those that a baseline accepts."""

    new: list[str]
    both: list[str]
    gone: list[str]
    accepted: list[str]


class Question(NamedTuple):
    """A question with its file and its line there, and whether it holds before and after the change (None where that network wasn't
    asked), with the packet that shows that it doesn't, as `ask` writes it."""

    path: str
    line: int
    text: str
    before: bool | None
    after: bool | None
    packet_before: str
    packet_after: str

    @property
    def fails_now(self) -> bool:
        """Whether it fails, and held before or wasn't asked then."""
        return self.after is False and self.before is not False


class Expected(NamedTuple):
    """The file of what is expected: its path, its lines with their numbers, and the number of the line `nothing else`, if that is there."""

    path: str
    lines: tuple[tuple[int, str], ...]
    nothing_else: int | None


class Idle(NamedTuple):
    """A changed line without effect, and why. A backup is one that a failure would bring into use; a quiet one says nothing of packets, as
    a description."""

    line: int
    reason: str
    backup: bool = False
    quiet: bool = False

    @property
    def counts(self) -> bool:
        """Whether it is to be decided."""
        return not self.backup and not self.quiet


@dataclass
class Result:
    """All that is to be told of a change window.

    `lines` are the changed lines, `idle` those without effect, `holds_back` those that keep as it was what the others would change,
    `beside` those that would do something alone and take no part beside the others, and `notes` what is to be known of a line. `rest` says
    what the change does without the lines that the verdict names. `sources` has those that can be at each ingress; `identical` says how
    many files the two folders have, where they are equal byte for byte and so are their tables."""

    title: str
    old: str
    new: str
    tables: tuple[str, ...]
    rows: dict[str, int]
    sources: dict[str, Values]
    identical: int | None = None
    findings: list[Finding] = field(default_factory=list)
    foreign: list[Finding] = field(default_factory=list)
    missing: list[Missing] = field(default_factory=list)
    expected: Expected | None = None
    warnings: Warnings = Warnings([], [], [], [])
    edges: list[Edge] = field(default_factory=list)
    edges_known: int = 0
    questions: list[Question] | None = None
    lines: list[Line] = field(default_factory=list)
    idle: list[Idle] = field(default_factory=list)
    holds_back: list[int] = field(default_factory=list)  # lines without which more would change
    beside: list[Idle] = field(default_factory=list)  # lines whose part others do already
    notes: dict[int, str] = field(default_factory=dict)  # what is to be known of a line besides
    rest: str | None = None
    lines_untold: str = ""  # why nobody looked at lines, where that was asked
    as_given: bool = True  # whether the doctor tells of the folders as they were given what it told here
    prepared: list[str] = field(default_factory=list)  # what is to be known of prepared texts before the verdict
    last: list[str] = field(default_factory=list)  # and at the end

    @property
    def undecided(self) -> list[Finding]:
        """The findings that aren't wholly expected."""
        return [finding for finding in self.findings if finding.expected != "whole"]
