"""The page of an audit's findings, out of the document of `view --audit --json` (docs/audit-schema.json)."""
from __future__ import annotations

from typing import Any, Mapping, NamedTuple

from showing.answered import Beside, evidence_of
from showing.rendering import part, rendered
from showing.texts import all_shown, counted

__all__ = ["Beside", "page_of"]


class List(NamedTuple):
    """A list with findings that aren't closing denials: its number on the page, and the counts of the document."""

    number: int
    file: str
    name: str
    dead: int
    redundant: int
    closing: int
    findings: list[dict[str, Any]]


def lists_of(document: Mapping[str, Any]) -> list[List]:
    """The lists that have findings beside closing denials, in the order of the document."""
    some = [one for one in document["lists"] if one["dead"] or one["redundant"]]
    return [List(number, one["file"], one["list"], one["dead"], one["redundant"], one["closing"],
                 [finding for finding in one["findings"] if not finding["closing"]]) for number, one in enumerate(some, 1)]


def verdict_of(document: Mapping[str, Any], some: int) -> tuple[str, str, str]:
    """The colour, the sign and the sentence that say what the audit means."""
    dead, redundant, count = document["dead"], document["redundant"], len(document["lists"])
    if not dead and not redundant:
        return "green", "\u2713", "No entry of %s could go." % counted(count, "list", "lists")
    words = "%s of %s: %s dead, %s redundant." % (
        counted(dead + redundant, "entry could go, in 1", "entries could go, in %s" % format(some, ",")),
        counted(count, "list", "lists"), format(dead, ","), format(redundant, ","))
    return "amber", "?", words


def page_of(document: Mapping[str, Any], beside: Beside) -> bytes:
    """The page. NoJinja where Jinja2 isn't there."""
    document = all_shown(dict(document))
    lists = lists_of(document)
    colour, sign, words = verdict_of(document, len(lists))
    closing = [(one, finding) for one in document["lists"] for finding in one["findings"] if finding["closing"]]
    context = {"document": document, "lists": lists, "colour": colour, "sign": sign, "words": words, "closings": closing,
               **evidence_of(beside.command, beside.files, beside.programs)}
    return rendered("audit.html.j2", context, [part("style.css"), part("view.css")])
