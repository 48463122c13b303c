"""The page of answers to questions, out of the document of `view --answers --json` (docs/answers-schema.json)."""
from __future__ import annotations

from dataclasses import dataclass, field
from typing import Any, Mapping, NamedTuple, Sequence

from showing.page import File
from showing.rendering import part, rendered
from showing.texts import all_shown, counted, shown

# What each group is called above its questions, its colour, and its sign; those that hold are folded.
GROUPS = {
    "fail now": ("Fail now, and held before", "red", "\u2715"), "fail": ("Fail", "red", "\u2715"),
    "fail in both": ("Fail in both networks", "amber", "\u2715"), "hold only now": ("Hold only now", "plain", "\u2713"),
    "hold in both": ("Hold in both networks", "plain", "\u2713"), "hold": ("Hold", "plain", "\u2713")}


@dataclass
class Beside:
    """What a page tells that isn't in its document: the command, the files that were read, and the programs."""

    command: str = ""
    files: list[File] = field(default_factory=list)
    programs: list[File] = field(default_factory=list)


class Group(NamedTuple):
    """A group of questions: its name, and how many the document counts."""

    name: str
    title: str
    colour: str
    sign: str
    number: int
    questions: list[dict[str, Any]]


def verdict_of(counts: Mapping[str, int]) -> tuple[str, str, str]:
    """The colour, the sign and the sentence that say what the answers mean."""
    all_of, now, fails = sum(counts.values()), counts.get("fail now", 0), counts.get("fail", 0)
    both = counts.get("fail in both", 0)
    if now:
        words = "%s that held before." % counted(now, "question fails now", "questions fail now")
        return "red", "\u2715", words + (" %s in both networks." % counted(both, "fails", "fail") if both else "")
    if fails:
        return "red", "\u2715", "%s of %s." % (counted(fails, "question fails", "questions fail"), format(all_of, ","))
    if both:
        return "amber", "?", "%s in both networks, and none that held before." % counted(both, "question fails", "questions fail")
    return "green", "\u2713", "All questions hold." if all_of else "There is no question."


def groups_of(document: Mapping[str, Any]) -> list[Group]:
    """The groups in their order, each with its questions; those that have none are left out."""
    return [Group(name, *GROUPS[name], count, [one for one in document["answers"] if one["group"] == name])
            for name, count in document["groups"].items() if count]


def page_of(document: Mapping[str, Any], beside: Beside) -> bytes:
    """The page. NoJinja where Jinja2 isn't there."""
    document = all_shown_answers(document)
    colour, sign, words = verdict_of(document["groups"])
    groups = groups_of(document)
    failing = [group for group in groups if group.name.startswith("fail")]
    context = {
        "document": document, "colour": colour, "sign": sign, "words": words, "groups": groups, "failing": failing,
        "others": [group for group in groups if group not in failing], "compared": "fail now" in document["groups"],
        **evidence_of(beside.command, beside.files, beside.programs)}
    return rendered("answers.html.j2", context, [part("style.css"), part("view.css")])


def all_shown_answers(document: Mapping[str, Any]) -> dict[str, Any]:
    """The document with its texts as people read them; its member `groups` has no texts."""
    return {**document, "answers": all_shown(document["answers"])}


def evidence_of(command: str, files: Sequence[File], programs: Sequence[File]) -> dict[str, Any]:
    """What a page rests on, for its template."""
    return {"command": shown(command), "files": [File(*map(shown, one)) for one in files],
            "programs": [File(*map(shown, one)) for one in programs]}
