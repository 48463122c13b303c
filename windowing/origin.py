"""Where the lines of prepared texts come from, so that every place is told as the line of the engineer's own file."""
from __future__ import annotations

import os
import re
from dataclasses import dataclass, field
from typing import NamedTuple, Sequence


# How the doctor names an entry.
OF_LIST = re.compile(r"(?P<path>\S.*?\.cfg): entry (?P<number>[0-9]+) of the access list (?P<name>\S+)")


class Place(NamedTuple):
    """A line of the engineer's own file, counted from 1, and the number that the device has of an entry, where the prepared text
    has another one."""

    path: str
    line: int
    entry: int | None


class Source(NamedTuple):
    """Where one line of a prepared text comes from: a file and a line of it (0 where no line of the file is meant), and the device's
    number of an entry that has another one in the prepared text."""

    path: str
    number: int
    entry: int | None = None


@dataclass
class Text:
    """A prepared text: the file that it was made of, the table of routes that has a part in it, and a source for each line (None where
    the text is that of the file). `moved` has the paths of sources that are meant as others, where two files are the same."""

    own: str
    table: str | None
    sources: Sequence[Source] | None
    moved: dict[str, str] = field(default_factory=dict)


@dataclass
class Origins:
    """The prepared texts by their paths. A path that isn't among them is the engineer's own.

    `names` says how a path is called where the engineer has it under another name, as a file of a revision.
    """

    texts: dict[str, Text] = field(default_factory=dict)
    names: dict[str, str] = field(default_factory=dict)

    def add(self, path: str, own: str, table: str | None, sources: Sequence[Source] | None, moved: dict[str, str] | None = None) -> None:
        """Takes a prepared text: line N of `path` comes from `sources[N - 1]`, or is line N of the file that it was made of, `own`.
        `table` is the table of routes that has a part in it; `moved` has paths of sources that are meant as others."""
        self.texts[path] = Text(own, table, sources, moved or {})
        self._entries.pop(path, None)
        self._found = None

    def call(self, path: str, name: str) -> None:
        """Takes a file that the engineer has under another name."""
        self.names[path] = name
        self._found = None

    def called(self, path: str) -> str:
        """How the engineer calls a file."""
        return self.names.get(path, path)

    def source(self, path: str, line: int) -> Source | None:
        """The source of a line of a prepared text; None where the text isn't prepared, or has no such line."""
        text = self.texts.get(path)
        if text is None:
            return None
        if text.sources is None:
            return Source(text.own, line)
        if not 1 <= line <= len(text.sources):
            return None
        source = text.sources[line - 1]
        return Source(text.moved.get(source.path, source.path), source.number, source.entry)

    def place(self, path: str, line: int) -> Place | None:
        """The place of a line of a prepared text in the engineer's own file; None where it comes of a table of routes or of `prepare`
        itself. The place of a line that wasn't prepared is its own."""
        text = self.texts.get(path)
        if text is None:
            return Place(self.called(path), line, None)
        source = self.source(path, line)
        if source is None or source.number == 0 or source.path == text.table:
            return None
        return Place(self.called(source.path), source.number, source.entry)

    def written(self, path: str, line: int) -> str | None:
        """The line of the engineer's own file from which a line of a prepared text comes, as it stands there; None where the text isn't
        prepared, or the line comes of `prepare` itself."""
        source = self.source(path, line) if path in self.texts else None
        if source is None or source.number == 0:
            return None
        if source.path not in self._own:
            with open(source.path, encoding="utf-8", errors="surrogateescape", newline="\n") as stream:
                self._own[source.path] = stream.read().split("\n")
        return self._own[source.path][source.number - 1]

    def shown(self, path: str, line: int) -> str:
        """The place as a person reads it: `DIST1.cfg:80`, or `DIST1.cfg (from its route table)`."""
        place = self.place(path, line)
        if place is not None:
            return "%s:%d" % (os.path.basename(place.path), place.line)
        text, source = self.texts[path], self.source(path, line)
        of_table = source is not None and source.path == text.table and source.number > 0
        return "%s (%s)" % (os.path.basename(text.own), "from its route table" if of_table else "from prepare")

    def rewritten(self, told: str) -> str:
        """A text of a program in which prepared files are named, as `PATH:N` or `PATH line N`, with the engineer's own places, and with
        the device's numbers of the entries that such lines name."""
        if not self.texts and not self.names:
            return told
        return "\n".join(self._line(line) for line in told.split("\n"))

    def entry(self, path: str, name: str, number: int) -> Source | None:
        """The source of the entry that has this number in the extended list of this name in a prepared text; None where it is no other
        number than the device's."""
        if path not in self._entries:
            self._entries[path] = self.entries_of(path)
        return self._entries[path].get((name, str(number)))

    def entries_of(self, path: str) -> dict[tuple[str, str], Source]:
        """The sources of the entries of a prepared text that have another number on the device, by their lists and the numbers there."""
        text = self.texts.get(path)
        if text is None or text.sources is None or not any(source.entry is not None for source in text.sources):
            return {}
        found: dict[tuple[str, str], Source] = {}
        name = ""
        with open(path, encoding="utf-8", errors="surrogateescape", newline="\n") as stream:
            for line, source in zip(stream, text.sources):
                words = line.split()
                if words[:1] == ["ip"]:
                    name = words[3] if words[:3] == ["ip", "access-list", "extended"] and len(words) == 4 else ""
                elif name and source.entry is not None:
                    found.setdefault((name, words[0]), source)
        return found

    def _pattern(self) -> re.Pattern[str]:
        """What finds a prepared path, or one that has another name, with the line behind it."""
        paths = sorted({*self.texts, *self.names}, key=len, reverse=True)
        folders = sorted({os.path.dirname(path) for path in paths}, key=len, reverse=True)
        return re.compile(r"(?P<path>(?:%s)/[^/\n]*?\.cfg|%s)(?:(?P<colon>:)(?P<near>[0-9]+)| line (?P<far>[0-9]+))?" % (
            "|".join(map(re.escape, folders)), "|".join(re.escape(path) for path in paths if not path.endswith(".cfg")) or r"(?!)"))

    def _line(self, told: str) -> str:
        """One line of such a text."""
        entries: list[tuple[str, int]] = []

        def own(found: re.Match[str]) -> str:
            """The engineer's own place."""
            path, number = found["path"], int(found["near"] or found["far"] or 0)
            if path not in self.texts:
                return self.called(path) + found[0][len(path):]
            source = self.source(path, number)
            if source is None or source.number == 0:
                return self.called(self.texts[path].own) + (" line 0" if found["far"] else "")
            if source.entry is not None:
                entries.append((path, source.entry))
            return self.called(source.path) + (":%d" if found["near"] else " line %d") % source.number

        if self._found is None:
            self._found = self._pattern()
        listed = OF_LIST.search(told)
        if listed is not None and listed["path"] in self.texts:
            source = self.entry(listed["path"], listed["name"], int(listed["number"]))
            if source is not None:
                return told[:listed.start()] + "%s:%d: entry %s of the access list %s" % (
                    self.called(self.texts[listed["path"]].moved.get(source.path, source.path)), source.number, source.entry,
                    listed["name"]) + told[listed.end():]
        line = self._found.sub(own, told)
        if len(entries) == 1:
            line = re.sub(r"\bentry [0-9]+", "entry %d" % entries[0][1], line, count=1)
        return line

    _found: re.Pattern[str] | None = field(default=None, repr=False, compare=False)
    _own: dict[str, list[str]] = field(default_factory=dict, repr=False, compare=False)
    _entries: dict[str, dict[tuple[str, str], Source]] = field(default_factory=dict, repr=False, compare=False)
