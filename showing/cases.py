"""Answers as test cases in JUnit's XML, for build servers."""
from __future__ import annotations

from typing import Any, Mapping
from xml.etree import ElementTree


def plain(text: str) -> str:
    """A text of bytes as XML can hold each: what is no printable character of ASCII by its number, as `\\xff`."""
    return "".join(one if " " <= one <= "~" else "\\x%02x" % ord(one) for one in text)


def case_of(one: Mapping[str, Any]) -> ElementTree.Element:
    """A question, by its number, line and words. It fails where it fails in the last network."""
    name = "%d (line %d): %s" % (one["number"], one["line"], one["question"])
    case = ElementTree.Element("testcase", classname="questions", name=plain(name))
    if not one["after"]["holds"]:
        words = plain(one["after"]["packet"]["words"])
        ElementTree.SubElement(case, "failure", type=one["group"], message=words).text = words
    return case


def cases_of(document: Mapping[str, Any]) -> bytes:
    """The questions of a document (docs/answers-schema.json) as one suite."""
    answers = document["answers"]
    failures = sum(not one["after"]["holds"] for one in answers)
    suites = ElementTree.Element("testsuites")
    suite = ElementTree.SubElement(suites, "testsuite", name="questions", tests=str(len(answers)), failures=str(failures), errors="0",
                                   skipped="0")
    suite.extend(map(case_of, answers))
    ElementTree.indent(suites, "")
    head = b'<?xml version="1.0" encoding="UTF-8"?>\n'
    return head + ElementTree.tostring(suites, encoding="us-ascii", xml_declaration=False) + b"\n"
