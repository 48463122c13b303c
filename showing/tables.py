"""Documents of `view` as tables, in the form of RFC 4180: texts in quotes, numbers without. A table has the bytes of names as they are."""
from __future__ import annotations

import csv
import io
from typing import Any, Iterable, Mapping, Sequence

from showing.grouped import FIELDS
from showing.outcomes import report_texts

REPORT = ("device", "interface", "change", *FIELDS, "old", "new", "rows")
AUDIT = ("file", "list", "line", "entry", "kind", "closing", "by line", "by entry", "rows", "headers")
ANSWERS = ("number", "line", "question", "group", "before", "packet before", "after", "packet after")


def table_of(head: Sequence[str], rows: Iterable[Sequence[str | int]]) -> bytes:
    """The bytes of a table: its first line, and one for each row."""
    text = io.StringIO(newline="")
    text.write(",".join(head) + "\n")
    csv.writer(text, quoting=csv.QUOTE_NONNUMERIC, lineterminator="\n").writerows(rows)
    return text.getvalue().encode("latin-1")


def report_table(document: Mapping[str, Any]) -> bytes:
    """The groups of a report (docs/report-schema.json), one in each line, in their order."""
    return table_of(REPORT, (
        (ingress["device"], ingress["interface"], group["kind"], *(group["values"][name] for name in FIELDS),
         report_texts(group["old"]), report_texts(group["new"]), group["rows"])
        for ingress in document["ingresses"] for group in ingress["groups"]))


def audit_rows(document: Mapping[str, Any]) -> Iterable[Sequence[str | int]]:
    """A line for each earlier entry that takes packets of a finding, or for each row of these packets where the document has them; one for a
    finding whose packets none takes."""
    for one in document["lists"]:
        for finding in one["findings"]:
            front = (one["file"], one["list"], finding["line"], finding["text"], finding["kind"], "closing" if finding["closing"] else "")
            if not finding["by"]:
                yield *front, "", "", 0, ""
            for taker in finding["by"]:
                for header in taker.get("headers", [""]):
                    yield *front, taker["line"], taker["text"], taker["rows"], header


def audit_table(document: Mapping[str, Any]) -> bytes:
    """The findings of an audit (docs/audit-schema.json)."""
    return table_of(AUDIT, audit_rows(document))


def answer_cells(answer: Mapping[str, Any] | None) -> tuple[str, str]:
    """What became of a question in one network, and the packet that breaks it."""
    if answer is None:
        return "", ""
    return ("holds", "") if answer["holds"] else ("fails", answer["packet"]["words"])


def answers_table(document: Mapping[str, Any]) -> bytes:
    """The questions with their answers (docs/answers-schema.json), one in each line."""
    return table_of(ANSWERS, ((one["number"], one["line"], one["question"], one["group"], *answer_cells(one["before"]),
                               *answer_cells(one["after"])) for one in document["answers"]))
