"""What the programs wrote, read back."""
from __future__ import annotations

import json
import re
from typing import Any, NamedTuple


class Place(NamedTuple):
    """A file, and a line of it from 1; 0 where the whole file is meant."""

    path: str
    line: int

    def shown(self) -> str:
        """`PATH:LINE`, without a control character."""
        path = re.sub(r"[\x00-\x1f\x7f]", lambda found: "\\x%02x" % ord(found[0]), self.path)
        return "%s:%d" % (path, self.line) if self.line else path


class Warned(NamedTuple):
    """A warning of the doctor: where, what it is about, and what it says."""

    place: Place
    kind: str
    says: str

    def shown(self) -> str:
        """The warning as one line."""
        return "%s: %s" % (self.place.shown(), self.says)


class Limit(NamedTuple):
    """A place where a network meets a limit of the model: the limit in a few words, its kind, and what becomes of such a network."""

    place: Place
    words: str
    kind: str
    says: str


class Examination(NamedTuple):
    """The doctor's document: its warnings, the limits that are met, and where all lines were asked for those that are ignored."""

    warnings: list[Warned]
    limits: list[Limit]
    ignored: list[Place]

    def limit_lines(self) -> list[str]:
        """The limits as lines, each with how often it is met and where first, the most frequent one first. Without a warning only lines on
        which no packet depends are counted."""
        told = [limit for limit in self.limits if self.warnings or limit.kind == "idle"]
        by_words: dict[str, list[Limit]] = {}
        for limit in told:
            by_words.setdefault(limit.words, []).append(limit)
        return ["limit: %s (%d), first %s: %s" % (words, len(limits), limits[0].place.shown(), limits[0].says)
                for words, limits in sorted(by_words.items(), key=lambda item: -len(item[1]))]


def lines_of(path: str) -> list[str]:
    """The lines of a file, without their ends."""
    with open(path, encoding="utf-8", errors="surrogateescape", newline="\n") as stream:
        return stream.read().split("\n")[:-1]


def examination_of(path: str) -> Examination:
    """The doctor's document in a file (docs/doctor-schema.json)."""
    with open(path, encoding="ascii") as stream:
        document = json.load(stream)

    def place(member: dict[str, Any]) -> Place:
        return Place(text_of(member["file"]), member.get("line", 0))

    return Examination([Warned(place(found), found["kind"], text_of(found["says"])) for found in document["warnings"]],
                       [Limit(place(found), text_of(found["words"]), found["kind"], found["says"]) for found in document["limits"]],
                       [place(found) for found in document["lines"]])


def text_of(string: str) -> str:
    """A string of a document: its characters are bytes."""
    return string.encode("latin-1").decode("utf-8", "surrogateescape")
