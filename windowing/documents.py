"""A change window for machines: as a document (docs/window-schema.json), as SARIF 2.1.0 for code review systems, and as JUnit's test
cases."""
from __future__ import annotations

import json
import os
import re
from typing import Sequence
from xml.etree import ElementTree

from cubes import FIELDS, Headers, Values
from field_words import address_texts, example, header_text, packet
from findings import FOREIGN, ITS, OWN
from kinds import outcome_of
from line_words import line_text
from model import Cause, Edge, Expected, Finding, Group, Idle, Line, Missing, Question, Result
from telling import example_of, headers_lines, kind_words, question_text
from verdict import fewest_lines, sentence_of, word_of

SCHEMA, VERSION = "diqenyu-window", 1


def ascii_of(text: str) -> str:
    """A text of bytes: the character U+00XX is the byte XX."""
    return text.encode("utf-8", "surrogateescape").decode("latin-1")


def place_of(text: str, **more: object) -> dict[str, object]:
    """A place, `R1 Ethernet0`, and what is told of it."""
    device, _, interface = text.partition(" ")
    return {"device": device, "interface": interface, **more}


def outcome_document(text: str) -> dict[str, object]:
    """An outcome, as `view --json` writes it."""
    outcome = outcome_of(text)
    found: dict[str, object] = {"end": outcome.end}
    if outcome.place:
        found |= place_of(outcome.place)
    return found | {name: int(value) if name.endswith("port") else value for name, value in outcome.replaced}


def boxes_document(headers: Headers) -> list[dict[str, list[str]]]:
    """Headers as disjoint products: each field a list of disjoint texts as rows have them; a field that isn't there is open."""
    def texts(values: Values) -> list[str]:
        return address_texts(values) if values.width == 32 else values.texts()

    return [{name: texts(values) for name, values in zip(FIELDS, box.fields()) if not values.is_all()} for box in headers.boxes()]


def cause_document(cause: Cause | None) -> dict[str, object] | None:
    """The lines of which something comes."""
    return None if cause is None else {"how": cause.how, "lines": list(cause.lines)}


def group_document(group: Group) -> dict[str, object]:
    """A group with exactly its headers."""
    return {
        "ingresses": [place_of(place) for place in group.ingresses], "sources": group.sources, "headers": boxes_document(group.headers),
        "old": [outcome_document(text) for text in group.old], "new": [outcome_document(text) for text in group.new],
        "unexpected": boxes_document(group.unexpected) if group.expected == "part" else None}


def finding_document(finding: Finding, result: Result) -> dict[str, object]:
    """A finding with its groups."""
    place, header = example_of(finding, result.sources)
    words = headers_lines([(word, finding.headers(word)) for word in (ITS, OWN, FOREIGN)], finding.ingresses, result.sources)
    return {
        "number": finding.number, "kind": finding.kind, "becomes": kind_words(finding), "plausible": finding.plausible,
        "expected": finding.expected, "expectations": list(finding.expectations),
        "ingresses": [place_of(place) for place in finding.ingresses], "words": words,
        "unexpected words": unexpected_words(finding, result), "cause": cause_document(finding.cause),
        "groups": [group_document(group) for group in finding.groups],
        "example": example_document(place, header, finding.note)}


def example_document(place: str, header: tuple[int, ...], note: str = "") -> dict[str, object]:
    """A packet, where it comes in, and what is to be known of it."""
    return place_of(place, header=header_text(header), words=packet(header), note=note or None)


def unexpected_words(finding: Finding, result: Result) -> list[str]:
    """Which packets of a finding aren't expected, where that is a part of them."""
    if finding.expected != "part":
        return []
    return headers_lines([(word, finding.headers(word, True)) for word in (ITS, OWN)], finding.ingresses, result.sources)


def missing_document(number: int, missing: Missing, result: Result) -> dict[str, object]:
    """What was expected and doesn't happen."""
    words, shown = [], None
    if missing.ingresses:
        place = missing.ingresses[0]
        words = headers_lines([(missing.sources, missing.headers)], missing.ingresses, result.sources)
        shown = example_document(place, example(missing.headers & Headers.where(source=result.sources[place])))
    return {"number": number, "line": missing.line, "kind": missing.kind, "why": missing.why, "sources": missing.sources,
            "ingresses": [place_of(place) for place in missing.ingresses], "headers": boxes_document(missing.headers), "words": words,
            "example": shown}


def edge_document(edge: Edge) -> dict[str, object]:
    """An edge that is no ingress."""
    kinds = None if edge.kinds is None else list(edge.kinds)
    return place_of(edge.place, addresses=list(edge.addresses), why=edge.why or None, kinds=kinds)


def question_document(question: Question) -> dict[str, object]:
    """A question with its answers; null where a network wasn't asked."""
    return {"path": question.path, "line": question.line, "words": question.text, "before": question.before, "after": question.after,
            "packets": {"before": question.packet_before or None, "after": question.packet_after or None}}


def line_document(line: Line, result: Result) -> dict[str, object]:
    """A changed line, and why it has no effect, or takes no part, where that is so."""
    why = next((one for one in result.idle if one.line == line.number), None)
    beside = next((one.reason for one in result.beside if one.line == line.number), None)
    return {
        "number": line.number, "path": line.path or None, "place": line.place, "sign": line.sign, "text": line.text,
        "other": line.other or None,
        "kind": line.kind, "device": line.device, "also": list(line.also), "words": line_text(line),
        "idle": None if why is None else {"reason": why.reason, "backup": why.backup, "quiet": why.quiet}, "beside": beside,
        "holds back": line.number in result.holds_back, "note": result.notes.get(line.number)}


def sources_document(sources: dict[str, Values]) -> list[dict[str, object]]:
    """The sources that can be at each ingress."""
    return [place_of(place, sources=address_texts(values)) for place, values in sources.items()]


def expected_document(expected: Expected | None) -> dict[str, object] | None:
    """The file of what is expected."""
    if expected is None:
        return None
    lines = [{"line": line, "words": text} for line, text in expected.lines]
    return {"path": expected.path, "nothing else": expected.nothing_else, "lines": lines}


def document_of(result: Result, status: int) -> dict[str, object]:
    """All of it."""
    warnings, behind = result.warnings, fewest_lines(result.undecided)
    return {
        "schema": SCHEMA, "version": VERSION, "title": result.title, "status": status,
        "told": result.prepared, "prepared": result.last,
        "verdict": {"word": word_of(result), "words": sentence_of(result), "lines": list(behind), "rest": result.rest if behind else None},
        "old": result.old, "new": result.new, "links": list(result.tables), "identical": result.identical is not None,
        "ingresses": [place_of(place, rows=rows) for place, rows in result.rows.items()],
        "sources": sources_document(result.sources), "expected": expected_document(result.expected),
        "missing": [missing_document(number, missing, result) for number, missing in enumerate(result.missing, 1)],
        "findings": [finding_document(finding, result) for finding in [*result.findings, *result.foreign]],
        "warnings": {"new": warnings.new, "both": warnings.both, "old": warnings.gone, "accepted": warnings.accepted},
        "edges": [edge_document(edge) for edge in result.edges], "edges known": result.edges_known,
        "questions": None if result.questions is None else [question_document(question) for question in result.questions],
        "lines": [line_document(line, result) for line in result.lines], "lines untold": result.lines_untold or None}


def json_of(result: Result, status: int) -> bytes:
    """The document."""
    return ascii_of(json.dumps(document_of(result, status), indent=1, ensure_ascii=False)).encode("utf-8") + b"\n"


# ---- SARIF

_PLACE = re.compile(r"(?P<path>[^\s:]+):(?P<line>[0-9]+)(?:: |$)(?P<said>.*)")
RULES = {
    "warning": "The doctor warns of it.", "standing-warning": "The doctor warns of it in the old network, too.",
    "without-effect": "The changed line has no effect.", "backup": "The changed line has no effect while nothing fails.",
}


def sarif_result(rule: str, level: str, text: str, path: str | None, line: int) -> dict[str, object]:
    """A result at a line of a file (0: at the file), or without a place."""
    found: dict[str, object] = {"ruleId": rule, "level": level, "message": {"text": ascii_of(text)}}
    if path:
        place: dict[str, object] = {"artifactLocation": {"uri": ascii_of(path)}}
        if line:
            place["region"] = {"startLine": line}
        found["locations"] = [{"physicalLocation": place}]
    return found


def warning_result(warning: str, rule: str, level: str) -> dict[str, object]:
    """A warning of the doctor at its place."""
    found = _PLACE.match(warning)
    if found:
        return sarif_result(rule, level, found["said"] or warning, found["path"], int(found["line"]))
    path = warning.partition(": ")[0]
    return sarif_result(rule, level, warning, path if " " not in path and path != warning else None, 0)


def accepted_result(warning: str) -> dict[str, object]:
    """A warning that a baseline accepts, as suppressed."""
    return {**warning_result(warning, "warning", "note"), "suppressions": [{"kind": "external", "justification": "accepted"}]}


def idle_result(idle: Idle, line: Line) -> dict[str, object]:
    """A line without effect at its place."""
    found = _PLACE.match(line.place)
    path, number = (line.path or found["path"], int(found["line"])) if found else (line.path or None, 0)
    rule, level = ("backup", "note") if idle.backup else ("without-effect", "warning")
    return sarif_result(rule, level, "%s: %s" % (line_text(line), idle.reason), path, number)


def sarif_of(result: Result, _: int) -> bytes:
    """The document of SARIF: new warnings and lines without effect as warnings, standing warnings as notes, accepted ones as suppressed."""
    by_number = {line.number: line for line in result.lines}
    results = [warning_result(warning, "warning", "warning") for warning in result.warnings.new]
    results += [idle_result(idle, by_number[idle.line]) for idle in result.idle if not idle.quiet]
    results += [warning_result(warning, "standing-warning", "note") for warning in result.warnings.both]
    results += [accepted_result(warning) for warning in result.warnings.accepted]
    rules = [{"id": name, "shortDescription": {"text": text}} for name, text in RULES.items()]
    document = {
        "$schema": "https://json.schemastore.org/sarif-2.1.0.json", "version": "2.1.0",
        "runs": [{"tool": {"driver": {"name": "Diqenyu window", "rules": rules}}, "results": results}]}
    return json.dumps(document, indent=1).encode("ascii") + b"\n"


# ---- JUnit


def case(suite: ElementTree.Element, name: str, failure: str | None, skipped: str | None = None) -> None:
    """Adds a test case, which may fail."""
    one = ElementTree.SubElement(suite, "testcase", {"classname": suite.get("name", ""), "name": clean(name)})
    if skipped is not None:
        ElementTree.SubElement(one, "skipped", {"message": clean(skipped)})
    elif failure is not None:
        ElementTree.SubElement(one, "failure", {"message": clean(failure)})


def clean(text: str) -> str:
    """A text that XML can hold: other characters as question marks."""
    return re.sub("[^\x20-\x7e]", "?", text)


def question_cases(suite: ElementTree.Element, questions: Sequence[Question]) -> None:
    """A case for each question: it fails where the new network doesn't meet it."""
    for question in questions:
        name = "%s:%d %s" % (os.path.basename(question.path), question.line, question.text)
        case(suite, name, question_text(question) if question.after is False else None,
             "of the old network alone" if question.after is None else None)


def expectation_cases(suite: ElementTree.Element, result: Result) -> None:
    """A case for each line of what was expected, and one for `nothing else`, where that is there."""
    assert result.expected is not None
    name = os.path.basename(result.expected.path)
    for line, text in result.expected.lines:
        missing = [one for one in result.missing if one.line == line]
        told = "; ".join("%s: %s" % (", ".join(one.ingresses) or "no ingress", one.why) for one in missing)
        case(suite, "%s:%d %s" % (name, line, text), told if missing else None)
    if result.expected.nothing_else:
        told = "; ".join("%s at %s" % (finding.kind, ", ".join(finding.ingresses)) for finding in result.undecided)
        case(suite, "%s:%d nothing else" % (name, result.expected.nothing_else), told or None)


def junit_of(result: Result, _: int) -> bytes:
    """The document of JUnit: questions and expectations as cases of two suites."""
    top = ElementTree.Element("testsuites")
    if result.questions is not None:
        question_cases(ElementTree.SubElement(top, "testsuite", {"name": "questions"}), result.questions)
    if result.expected is not None:
        expectation_cases(ElementTree.SubElement(top, "testsuite", {"name": "expectations"}), result)
    for element in (top, *top):
        for name, tag in (("tests", "testcase"), ("failures", "failure"), ("skipped", "skipped")):
            if element is not top or tag != "skipped":
                element.set(name, str(len(element.findall(".//" + tag))))
    ElementTree.indent(top)
    return b'<?xml version="1.0" encoding="UTF-8"?>\n' + ElementTree.tostring(top) + b"\n"
