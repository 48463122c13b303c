"""A change window as a text to decide on: the verdict first, then what is most feared."""
from __future__ import annotations

import os
import shlex
from collections import Counter
from functools import reduce
from typing import Iterable, Sequence

from cubes import Headers, Values, union
from field_words import addresses, example, header_of, listed, packet, services
from findings import FOREIGN, ITS, OWN, boxes_by_ends
from kinds import KIND_WORDS, KINDS, side_of
from line_words import cause_lines, line_text
from model import Edge, Finding, Missing, Question, Result, Warnings
from verdict import verdict_of

# How many of each are told one by one.
MOST_FINDINGS, MOST_EXPECTED, MOST_BOXES, MOST_INGRESSES, MOST_EDGES, MOST_IDLE = 12, 6, 3, 3, 3, 12


def counted(number: int, one: str, several: str) -> str:
    """A number with its noun."""
    return "%s %s" % (format(number, ","), one if number == 1 else several)


def at_ingresses(places: Sequence[str]) -> str:
    """`at R1 E0`, `at 5 ingresses: R1 E0, R2 E0, R3 E0 and 2 more`."""
    if len(places) == 1:
        return "at " + places[0]
    return "at %d ingresses: %s" % (len(places), listed(places, MOST_INGRESSES))


def sources_words(word: str, places: Sequence[str], sources: dict[str, Values]) -> str:
    """Of which sources packets are that stand for all, or for none, of those that can be at their ingresses."""
    found = {sources[place] for place in places}
    if len(found) > 1:
        return "their sources" if word == ITS else "sources that can't be there"
    values = found.pop()
    return addresses(values if word == ITS else ~values)


def headers_lines(parts: Iterable[tuple[str, Headers]], places: Sequence[str], sources: dict[str, Values]) -> list[str]:
    """Which packets they are, those of one source and destination on a line: `from 10.1.0.0/24 to 10.2.0.0/24: tcp 443 (https)`."""
    found = []
    for word, headers in parts:
        for (source, destination), boxes in boxes_by_ends(headers).items():
            text = addresses(source) if word == OWN else sources_words(word, places, sources)
            found.append((-sum(box.size() for box in boxes), "from %s to %s: %s" % (text, addresses(destination), services(boxes))))
    found.sort()
    more = len(found) - MOST_BOXES
    return [text for _, text in found[:MOST_BOXES]] + (["and %s" % counted(more, "set more", "sets more")] if more > 0 else [])


def ends_words(finding: Finding) -> str:
    """How its packets end in both networks: `exit R1 E1 -> drop`, or where there are many ends their number."""
    ends = finding.ends()
    if len(ends) == 1:
        return "%s -> %s" % (" | ".join(ends[0][0]), " | ".join(ends[0][1]))
    sides = []
    for side, word in ((0, "was"), (1, "now")):
        texts = list(dict.fromkeys(" | ".join(pair[side]) for pair in ends))
        shortest = min(texts, key=lambda text: (len(text), text))
        sides.append("%s %s" % (word, shortest if len(texts) == 1 else "%d ends, as %s" % (len(texts), shortest)))
    return "; ".join(sides)


def example_of(finding: Finding, sources: dict[str, Values]) -> tuple[str, tuple[int, ...]]:
    """An ingress and a packet of a finding, of what isn't expected where there is some."""
    place = finding.ingresses[0]
    bounds = {OWN: Headers.all(), ITS: Headers.where(source=sources[place]), FOREIGN: Headers.where(source=~sources[place])}
    here = [(group.unexpected or group.headers) & bounds[group.sources] for group in finding.groups if place in group.ingresses]
    return place, example(union(here))


def expected_words(finding: Finding, result: Result) -> str:
    """What was expected of it, with the file's lines."""
    if finding.expected is None or result.expected is None:
        return ""
    name = os.path.basename(result.expected.path)
    places = ", ".join("%s:%d" % (name, line) for line in finding.expectations)
    return {"whole": " (as expected, %s)" % places, "part": " (expected in part, %s)" % places, "no": " (not expected)"}[finding.expected]


def kind_words(finding: Finding) -> str:
    """What becomes of its packets."""
    if finding.kind == "sometimes" and not any(side_of(group.new).loses_some for group in finding.groups):
        return "no longer loses any of its equal-cost paths"
    return KIND_WORDS[finding.kind]


def finding_lines(finding: Finding, result: Result, named: set[int]) -> list[str]:
    """A finding: what becomes of which packets, where, from what to what, and an example."""
    where = at_ingresses(finding.ingresses) + expected_words(finding, result)
    lines = ["%d %s: %s, %s" % (finding.number, finding.kind, kind_words(finding), where)]
    told = headers_lines([(word, finding.headers(word)) for word in (ITS, OWN, FOREIGN)], finding.ingresses, result.sources)
    lines += ["    " + text for text in told]
    if finding.expected == "part":
        rest = headers_lines([(word, finding.headers(word, True)) for word in (ITS, OWN)], finding.ingresses, result.sources)
        lines += ["    not expected of it: " + rest[0]] + ["        " + text for text in rest[1:]]
    lines.append("    " + ends_words(finding))
    lines.append("    as %s%s" % (packet(example_of(finding, result.sources)[1]), finding.note and ": " + finding.note))
    if finding.cause:
        lines += ["    " + text for text in cause_lines(finding.cause, result.lines, named)]
    return lines


def likewise_lines(finding: Finding, result: Result) -> list[str]:
    """A finding that is as the one above it but for its packets' sources and services, which a list at its ingress bounds."""
    told = headers_lines([(word, finding.headers(word)) for word in (ITS, OWN, FOREIGN)], finding.ingresses, result.sources)
    head = "    likewise %d, %s: %s" % (finding.number, at_ingresses(finding.ingresses), told[0])
    return [head] + ["        " + text for text in told[1:]]


def alike_of(findings: Sequence[Finding]) -> list[list[Finding]]:
    """Findings that differ in their ingresses, sources and services alone, together; in their order."""
    together: dict[object, list[Finding]] = {}
    for finding in findings:
        boxes = [box for word in (ITS, OWN, FOREIGN) for box in finding.headers(word).boxes()]
        destinations = reduce(lambda some, box: some | box.destination, boxes, Values.none(32))
        ends = (destinations, frozenset(finding.ends()))
        key = (finding.kind, finding.cause, finding.expected, finding.expectations, *ends)
        # (of one that is expected in part it is told which part isn't)
        together.setdefault(finding.number if finding.expected == "part" else key, []).append(finding)
    return list(together.values())


def expected_line(finding: Finding, result: Result) -> str:
    """A finding that is as expected, on one line."""
    told = headers_lines([(word, finding.headers(word)) for word in (ITS, OWN, FOREIGN)], finding.ingresses, result.sources)
    more = " and %s" % counted(len(told) - 1, "set more", "sets more") if len(told) > 1 else ""
    where = at_ingresses(finding.ingresses)
    return "%d %s %s %s%s%s" % (finding.number, finding.kind, where, told[0], more, expected_words(finding, result))


def missing_lines(number: int, missing: Missing, result: Result) -> list[str]:
    """What was expected and doesn't happen."""
    assert result.expected is not None
    text = next(text for line, text in result.expected.lines if line == missing.line)
    name = "%s:%d" % (os.path.basename(result.expected.path), missing.line)
    where = ", " + at_ingresses(missing.ingresses) if missing.ingresses else ""
    lines = ["%d missing: %s (%s): %s%s" % (number, text, name, missing.why, where)]
    if missing.ingresses:
        lines += ["    " + told for told in headers_lines([(missing.sources, missing.headers)], missing.ingresses, result.sources)]
        source = result.sources[missing.ingresses[0]]
        lines.append("    as %s" % packet(example(missing.headers & Headers.where(source=source))))
    return lines


def marks_line(result: Result) -> str:
    """How many there are of each: zeros are left out."""
    fail_now = sum(question.fails_now for question in result.questions or ())
    expected = sum(finding.expected == "whole" for finding in result.findings)
    words = ("unexpected", "unexpected") if result.expected else ("finding", "findings")
    some = [(len(result.missing), "missing", "missing"), (len(result.undecided), *words),
            (fail_now, "question fails now", "questions fail now"),
            (len(result.warnings.new), "new warning", "new warnings"),
            (sum(idle.counts for idle in result.idle), "line without effect", "lines without effect"),
            (sum(bool(edge.why) and edge.kinds != () for edge in result.edges), "edge that is no ingress", "edges that are no ingress"),
            (expected, "as expected", "as expected"), (len(result.warnings.both), "standing warning", "standing warnings")]
    return ", ".join(counted(*mark) for mark in some if mark[0])


def packets_line(result: Result) -> str:
    """At how many ingresses packets are treated differently, and how many edges are ingresses."""
    everywhere = counted(len(result.rows), "ingress", "ingresses")
    changed = sum(map(bool, result.rows.values()))
    if result.identical is not None:
        text = "packets: nothing changes: both folders have the same %s, byte for byte" % counted(result.identical, "file", "files")
    elif not changed:
        text = "packets: nothing changes at any of %s" % everywhere
    else:
        text = "packets: something changes at %d of %s, %s" % (changed, everywhere, counted(sum(result.rows.values()), "row", "rows"))
    ingresses = result.edges_known - len(result.edges)
    return text + ("; %d of %d edges are ingresses" % (ingresses, result.edges_known) if result.edges else "")


def foreign_lines(result: Result, each: bool) -> list[str]:
    """What becomes of packets whose source can't be where they come in: on one line, or one by one."""
    if not result.foreign:
        return []
    kinds = Counter(finding.kind for finding in result.foreign for _ in finding.groups)
    told = ", ".join("%s %d" % (kind, kinds[kind]) for kind in KINDS if kind in kinds)
    groups = counted(sum(kinds.values()), "group", "groups")
    lines = ["foreign: %s of packets whose source can't be where they come in: %s%s" % (groups, told, "" if each else " (--foreign)")]
    named: set[int] = set()
    return lines + [line for finding in result.foreign for line in finding_lines(finding, result, named)] if each else lines


def question_text(question: Question) -> str:
    """A question that fails, with its place and a packet that shows it."""
    return "%s:%d %s: %s" % (os.path.basename(question.path), question.line, question.text, packet(header_of(question.packet_after)))


def question_lines(questions: Sequence[Question] | None) -> list[str]:
    """Which questions fail, first those that held before."""
    if questions is None:
        return ["questions: none asked"]
    now = [question for question in questions if question.fails_now]
    both = [question for question in questions if question.after is False and question.before is False]
    mended = sum(question.before is False and question.after is True for question in questions)
    retired = sum(question.after is None for question in questions)
    words = [counted(len(some), "fails " + when, "fail " + when) for some, when in ((now, "only now"), (both, "in both networks")) if some]
    words += [counted(mended, "holds only now", "hold only now")] * bool(mended)
    line = "questions: %d, of which %s" % (len(questions), ", ".join(words)) if words else "questions: %d, all hold" % len(questions)
    if retired:
        line += "; %s of the old network alone, whose device the change retires" % counted(retired, "is", "are")
    return ["fails now: " + question_text(question) for question in now[:3]] + [line]


def warning_lines(warnings: Warnings, result: Result) -> list[str]:
    """The warnings that the change brings, one by one; the others counted."""
    lines = ["new warning: " + warning for warning in warnings.new]
    if warnings.both:
        command = " ".join(map(shlex.quote, ["./doctor", result.old, result.new, *result.tables]))
        told = command if result.as_given else "--json"
        lines.append("standing warnings: %d, as in the old network; all by %s" % (len(warnings.both), told))
    if warnings.accepted:
        lines.append("accepted warnings: %d" % len(warnings.accepted))
    if warnings.gone:
        lines.append("warnings that the change ends: %d" % len(warnings.gone))
    return lines


def edge_text(edge: Edge) -> str:
    """An edge that is no ingress, and what changes there."""
    here = "%s (%s) is no ingress, %s" % (edge.place, ", ".join(edge.addresses), edge.why)
    return here + ("; nobody looked" if edge.kinds is None else "; packets that come in there: %s" % ", ".join(edge.kinds))


def edge_lines(edges: Sequence[Edge]) -> list[str]:
    """The edges with which the change has to do: those where something changes one by one."""
    told = [edge for edge in edges if edge.why and edge.kinds != ()]
    quiet = [edge.place for edge in edges if edge.kinds == ()]
    lines = ["edge: " + edge_text(edge) for edge in told[:MOST_EDGES]]
    if len(told) > MOST_EDGES:
        lines.append("edges: %d more that are no ingress and that the change concerns (--all-edges)" % (len(told) - MOST_EDGES))
    if quiet:
        lines.append("edges where nothing changes, though they are no ingress: %s" % listed(quiet, MOST_EDGES))
    return lines


def idle_lines(result: Result) -> list[str]:
    """Changed lines without effect, and why; and what else is to be known of lines."""
    by_number = {line.number: line for line in result.lines}
    lines = []
    for idle in [idle for idle in result.idle if idle.counts][:MOST_IDLE]:
        lines += ["without effect: %s" % line_text(by_number[idle.line]), "    " + idle.reason]
    for idle in [idle for idle in result.idle if idle.backup][:MOST_IDLE]:
        lines += ["backup: %s" % line_text(by_number[idle.line]), "    " + idle.reason]
    caused = {number for finding in result.findings + result.foreign if finding.cause for number in finding.cause.lines}
    for idle in [idle for idle in result.beside if idle.line not in caused][:MOST_IDLE]:
        lines += ["takes no part: %s" % line_text(by_number[idle.line]), "    " + idle.reason]
    for number in result.holds_back[:MOST_IDLE]:
        lines.append("holds back what the other lines would change: %s" % line_text(by_number[number]))
    for number, note in list(result.notes.items())[:MOST_IDLE]:
        lines += ["to be known of %s" % line_text(by_number[number]), "    " + note]
    quiet = [line_text(by_number[idle.line]) for idle in result.idle if idle.quiet]
    lines += ["says nothing of packets: %s" % listed(quiet, 1)] if quiet else []
    return lines + (["lines: not listed, since %s" % result.lines_untold] if result.lines_untold else [])


def more_line(findings: Sequence[Finding]) -> list[str]:
    """The kinds of what isn't told one by one."""
    kinds = Counter(finding.kind for finding in findings)
    return ["and %s more: --json has all" % ", ".join("%s %d" % (kind, kinds[kind]) for kind in KINDS if kind in kinds)] if kinds else []


def lines_of(result: Result, foreign: bool = False) -> list[str]:
    """The text: the first lines say what to decide, the others what it rests on."""
    undecided = result.undecided
    expected = [finding for finding in result.findings if finding.expected == "whole"]
    lines = [result.title, *result.prepared, *verdict_of(result), *filter(None, [marks_line(result)]), packets_line(result)]
    for number, missing in enumerate(result.missing, 1):
        lines += missing_lines(number, missing, result)
    alike = alike_of(undecided)
    named: set[int] = set()  # lines of which the text is told once
    for first, *others in alike[:MOST_FINDINGS]:
        lines += finding_lines(first, result, named) + [line for finding in others for line in likewise_lines(finding, result)]
    lines += more_line([finding for some in alike[MOST_FINDINGS:] for finding in some])
    lines += question_lines(result.questions)[:-1] + warning_lines(result.warnings, result) + idle_lines(result) + edge_lines(result.edges)
    lines += [expected_line(finding, result) for finding in expected[:MOST_EXPECTED]] + more_line(expected[MOST_EXPECTED:])
    return lines + foreign_lines(result, foreign) + question_lines(result.questions)[-1:] + result.last
