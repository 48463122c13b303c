"""From the files of a change window to what is to be told of it: the proved programs are asked, and their answers put together."""
from __future__ import annotations

import filecmp
import os
import re
from dataclasses import dataclass, field
from typing import Callable, Container, Mapping, Sequence

import answers
import asking
import edges
import expecting
import findings
import warned
from cubes import Headers, Values
from document_kinds import DocumentKinds
from field_words import header_text
from model import Cause, Edge, Expected, Finding, Part, Result, Warnings
from networks import Network, network_of
from parts import Lans, Places, parts_of, places_of
from programs import Stop, run
from sources import asked_sources, empty_folder, read_sources, write
from telling import example_of
from words import Words

# At so many edges that are no ingress it is looked what changes there; `--all-edges` takes all of them.
MOST_EDGES = 64
# Of so many findings the next hop that nobody has is asked.
MOST_NOTES = 12

# Which lines parts come of: a part is cut so that all its headers have one answer.
CausesOf = Callable[[Sequence[Part]], Sequence[tuple[Part, "Cause | None"]]]


def as_it_is(line: str) -> str:
    """A line of a program, of files that are the engineer's own."""
    return line


def no_causes(parts: Sequence[Part]) -> list[tuple[Part, Cause | None]]:
    """Nobody looked at lines."""
    return [(part, None) for part in parts]


@dataclass
class Deciding:
    """One window: its words, a folder for files that go with it, and what is known so far."""

    words: Words
    folder: str
    rewritten: Callable[[str], str] = as_it_is  # tells a warning by the engineer's own files
    added: tuple[str, ...] = ()  # edges that are taken as ingresses
    old: Network | None = None
    new: Network | None = None
    reports: int = 0
    behaviours: dict[str, Mapping[str, Headers]] = field(default_factory=dict)

    def __post_init__(self) -> None:
        self.kinds = DocumentKinds(self.folder).of

    def path(self, name: str) -> str:
        """A file of the folder."""
        return os.path.join(self.folder, name)

    def tables(self) -> list[str]:
        """The link tables, with the edges that are taken as ingresses."""
        tables = self.words.tables()
        return [self.path("links-%d" % at) for at in range(len(tables))] if self.added else tables

    def networks(self) -> tuple[Network, Network]:
        """Both networks, read once. Only after the verifier has read them."""
        if self.old is None or self.new is None:
            self.old, self.new = network_of(self.words.old, self.words.links), network_of(self.words.new, self.words.tables()[-1])
        return self.old, self.new

    def ingresses(self) -> list[str]:
        """The ingresses of both tables, in the order of a report."""
        old, new = self.networks()
        return list(dict.fromkeys([*old.links.ingresses, *new.links.ingresses]))

    # ---- the programs

    def compare(self, old: str, new: str, *tables: str) -> str:
        """The report of a comparison."""
        self.reports += 1
        path = self.path("report-%d" % self.reports)
        run("review", ["compare", old, new, *tables], path)
        with open(path, encoding="utf-8", errors="surrogateescape", newline="\n") as stream:
            return stream.read()

    def add_edges(self) -> None:
        """Takes each edge as an ingress, where that is asked for. The tables are copied, with lines behind theirs."""
        old, new = self.networks()
        found = tuple(edge.place for edge in edges.not_looked_at(old, new, ())[0])
        if not found:
            return
        self.added = found
        for table, copy, network in zip(self.words.tables(), self.tables(), (old, new)):
            with open(table, encoding="utf-8", errors="surrogateescape", newline="\n") as stream:
                text = stream.read()
            write(copy, (text if text.endswith("\n") or not text else text + "\n") + "".join("ingress %s\n" % place for place in found))
            network.links.ingresses += found

    def behaviour(self, place: str) -> Mapping[str, Headers]:
        """What the new network does with all headers that enter at a place, but for those that it drops on every way."""
        if place not in self.behaviours:
            _, new = self.networks()
            names = dict.fromkeys([*new.devices, *new.links.devices(), place.split(" ")[0]])
            empty = empty_folder(self.path("empty-%d" % len(self.behaviours)), names)
            table = write(self.path("behaviour-links"), new.links.segments() + "ingress %s\n" % place)
            alike = places_of(self.compare(empty, new.folder, table))[place]
            self.behaviours[place] = {outcomes: headers for (_, outcomes), headers in alike.items()}
        return self.behaviours[place]

    # ---- what is told

    def identical(self) -> int | None:
        """How many configurations the two folders have, where all are equal byte for byte and so are the tables."""
        tables = self.words.tables()
        if len(tables) > 1 and not filecmp.cmp(tables[0], tables[1], shallow=False):
            return None
        names = [sorted(name for name in os.listdir(folder) if name.endswith(".cfg")) for folder in (self.words.old, self.words.new)]
        if names[0] != names[1]:
            return None
        _, differ, failed = filecmp.cmpfiles(self.words.old, self.words.new, names[0], shallow=False)
        return None if differ or failed else len(names[0])

    def warnings(self, told: Sequence[str], identical: bool) -> Warnings:
        """The doctor's warnings, sorted."""
        found = warned.sorted_warnings(told, self.sorting(), self.accepted())
        if identical:
            found = found._replace(new=[], both=found.new + found.both)
        return Warnings(*([self.rewritten(line) for line in lines] for lines in found))

    def sorting(self) -> warned.Sorting:
        """How warnings of these folders are sorted."""
        return warned.Sorting(self.words.old, self.words.new, self.rewritten)

    def accepted(self) -> frozenset[str]:
        """The warnings of the baseline."""
        return warned.read_accepted(self.words.accept, self.sorting()) if self.words.accept else frozenset()

    def sources(self, places: Sequence[str]) -> dict[str, Values]:
        """The sources that can be at each place; a file's word counts before what is asked."""
        said = read_sources(self.words.sources, self.ingresses()) if self.words.sources else {}
        rest = [place for place in places if place not in said]
        asked = asked_sources(self.networks(), rest, self.path(""), self.compare) if rest else {}
        return {place: said[place] if place in said else asked[place] for place in places}

    def looked(self, found: Sequence[edges.Found], sources: Mapping[str, Values], lans: Lans) -> list[Edge]:
        """What changes for packets that come in at edges with which the change has to do, though they are no ingresses."""
        some = [edge.place for edge in found if edge.why][:MOST_EDGES]
        kinds: dict[str, tuple[str, ...]] = {}
        if some:
            old, new = self.networks()
            tables = [write(self.path("edges-%d" % at), network.links.segments() + "".join("ingress %s\n" % place for place in some))
                      for at, network in enumerate((old, new)[:len(self.words.tables())])]
            parts = parts_of(places_of(self.compare(self.words.old, self.words.new, *tables)), sources, lans, self.kinds)
            kinds = {place: tuple(dict.fromkeys(part.kind for part in parts if part.plausible and part.ingress == place)) for place in some}
        return [Edge(edge.place, edge.addresses, edge.why, kinds.get(edge.place)) for edge in found]

    def completed(self, network: Network, side: str) -> str:
        """A folder of the network's files in which each device of the link table has a file: one that is in the other network alone has
        nothing but its name there. So a comparison takes it."""
        missing = [name for name in network.links.devices() if name not in network.devices]
        if not missing:
            return network.folder
        folder = self.path("completed-" + side)
        if not os.path.isdir(folder):
            empty_folder(folder, missing)
            for device in network.devices.values():
                os.symlink(os.path.abspath(device.path), os.path.join(folder, "device-" + os.path.basename(device.path)))
        return folder

    def answers(self) -> list[asking.Question] | None:
        """What both networks answer to the questions; None where nobody asks."""
        words = self.words
        if not words.questions and not words.questions_new:
            return None
        old, new = self.networks()
        asked = asking.asked_of(words.questions, words.questions_new, old.devices, new.devices)

        def ask(network: str, questions: str) -> Sequence[str]:
            path, this = self.path("answers-" + network), old if network == "old" else new
            folder = self.completed(this, network)
            try:
                run("review", ["ask", folder, this.table, questions], path)
            except Stop as stop:
                raise Stop(stop.status, stop.told.replace(os.fsencode(folder), os.fsencode(this.folder))) from None
            return answers.lines_of(path)

        return asking.ask_all(asked, self.folder, ask)

    def note(self, finding: Finding, sources: dict[str, Values]) -> str:
        """The next hop that nobody has, of a packet that leaves over a lan."""
        _, new = self.networks()
        place, header = example_of(finding, sources)
        path, table = self.path("trace"), write(self.path("trace-links"), new.links.segments() + "ingress %s\n" % place)
        run("review", ["trace", self.completed(new, "new"), table, *place.split(" "), header_text(header)], path)
        return stranger_of(answers.lines_of(path), {place for lan in new.links.lans for place in lan})

    def decide(self, report: str, places: Places, warnings: Sequence[str], causes_of: CausesOf = no_causes) -> Result:
        """All of it, of the report of the comparison, which says `places`, and the doctor's warnings."""
        words, rows = self.words, rows_of(report)
        ingresses = list(rows)
        expectations = expecting.read_expectations(words.expect, ingresses) if words.expect else None
        outcomes = {text for alike in places.values() for pair in alike for side in pair for text in side.split(" | ")}
        found_edges, edges_known = edges.not_looked_at(*self.networks(), outcomes)
        sources = self.sources(ingresses + [edge.place for edge in found_edges if edge.why][:MOST_EDGES])
        here = {place: sources[place] for place in ingresses}
        lans = Lans(*self.networks())
        parts = parts_of(places, sources, lans, self.kinds)
        title = words.title or "%s -> %s" % (words.old, words.new)
        result = Result(title, words.old, words.new, tuple(words.tables()), rows, here)
        if expectations:
            self.miss(result, expectations, parts)
        self.find(result, causes_of(parts), expecting.judge_of(expectations) if expectations else findings.no_judge)
        result.identical = self.identical()
        result.warnings = self.warnings(warnings, result.identical is not None)
        result.edges, result.edges_known = self.looked(found_edges, sources, lans), edges_known
        result.questions = self.answers()
        return result

    def miss(self, result: Result, expectations: expecting.Expectations, parts: Sequence[Part]) -> None:
        """What is expected, and what of it doesn't happen."""
        old, new = self.networks()
        missed = expecting.Missed(parts, result.sources, self.behaviour, old.never_forwarded() | new.never_forwarded())
        result.missing = [missing for one in expectations.lines if one.wanted for missing in missed.of(one)]
        result.expected = Expected(expectations.path, tuple((one.line, one.text) for one in expectations.lines), expectations.nothing_else)

    def find(self, result: Result, caused: Sequence[tuple[Part, Cause | None]], judge: findings.Judge) -> None:
        """The findings, with numbers behind those of what is missing: what isn't expected first, and foreign sources last."""
        for plausible in (True, False):
            some = [(part, cause) for part, cause in caused if part.plausible == plausible]
            found = findings.findings_of(findings.groups_of(some, result.sources, judge if plausible else findings.no_judge))
            first = len(result.missing) + len(result.findings) + 1
            found = findings.numbered(sorted(found, key=lambda finding: finding.expected == "whole"), first)
            if plausible:
                result.findings = found
            else:
                result.foreign = found
        for finding in [finding for finding in result.findings if finding.kind == "unanswered"][:MOST_NOTES]:
            finding.note = self.note(finding, result.sources)


def stranger_of(trace: Sequence[str], ends: Container[str]) -> str:
    """The first next hop of a trace that no end of its lan has, for an address of somebody else; "" where there is none."""
    device, out, destination = "", ["", "", "", ""], ""
    for words in (line.split(" ") for line in trace):
        if words[0] == "state":
            device, destination = words[3], words[6]
        elif words[0] == "out":
            out = words
        elif words[0] == "exit" and "%s %s" % (device, out[1]) in ends and out[3] != destination:
            return "sent out of %s %s to the next hop %s, which nobody there has" % (device, out[1], out[3])
    return ""


def rows_of(report: str) -> dict[str, int]:
    """How many rows a report has at each ingress, in its order."""
    return {found[1]: int(found[2]) for found in re.finditer(r"^ingress (.*) rows ([0-9]+)$", report, re.MULTILINE)}


def helped(stop: Stop, tables: Sequence[str], refused_in: Callable[[str, bytes], bool]) -> Stop:
    """A refusal of a link table with the network that is meant and the option that helps; any other one as it is."""
    line = stop.told.rstrip(b"\n").rsplit(b"\n", 1)[-1]
    table = next((os.fsencode(table) for table in tables if line.startswith(b"refused %s line " % os.fsencode(table))), None)
    if stop.status != 3 or table is None:
        return stop
    sides = [side for side in ("old", "new") if refused_in(side, line)]
    if b" UnknownDevice " in line:
        text = ": neither network has it"
    elif len(sides) == 1 and len(tables) == 1:
        text = ": in the %s network; --newlinks FILE gives the new one a table of its own" % sides[0]
    else:
        text = ""
    return Stop(stop.status, stop.told.rstrip(b"\n") + text.encode() + b"\n")
