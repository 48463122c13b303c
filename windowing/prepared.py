"""What a window keeps of a device that was prepared: the text that is read, where its lines come from, and what is told of it."""
from __future__ import annotations

from array import array
from dataclasses import dataclass
from typing import Any, Iterable, NamedTuple, Sequence

from origin import Source

from preparing import preparation
from preparing.list_editing import list_of
from preparing.texts import says_something, to_bytes


class Unseen(NamedTuple):
    """A line of a device's file that isn't in the prepared text, nor anything in its place."""

    path: str
    number: int
    text: str


class Sources(Sequence[Source]):
    """The sources of the lines of a prepared text, in little room: there may be millions."""

    def __init__(self, lines: Iterable[Any]) -> None:
        several = list(lines)
        self.paths = list(dict.fromkeys(line.path for line in several))
        place = {path: number for number, path in enumerate(self.paths)}
        self.path_of = array("H" if len(self.paths) < 65536 else "L", [place[line.path] for line in several])
        self.numbers = array("l", [line.number for line in several])
        self.entries = array("q", [-1 if line.entry is None else line.entry for line in several])

    def __len__(self) -> int:
        return len(self.numbers)

    def __getitem__(self, at: Any) -> Any:
        if isinstance(at, slice):
            return [self[number] for number in range(*at.indices(len(self)))]
        entry = self.entries[at]
        return Source(self.paths[self.path_of[at]], self.numbers[at], entry if entry >= 0 else None)


@dataclass
class Prepared:
    """A device: its file and name, the table that has its routes, its text with the sources of the lines, the table of what was done to it,
    what of its tickets isn't followed, the lines that nothing in the text says, how many lines aren't read as they stand, its static
    routes, and the line by which a protocol hands these on."""

    file: str
    name: str
    table: str | None
    content: bytes
    sources: Sources
    told: str
    not_followed: list[str]
    unseen: list[Unseen]
    changed: int
    statics: list[Unseen]
    handed: Unseen | None


def unseen_of(line: Any) -> Unseen:
    """A line, for comparisons."""
    return Unseen(line.path, line.number, " ".join(line.words()))


def hidden_lines(device: Any) -> set[tuple[str, int]]:
    """The lines whose meaning stands elsewhere in a prepared text, or that have none: those of groups and lists, and prompts."""
    found = set()
    for block in device.blocks:
        words = block.words()
        is_prompt = words and words[0].startswith((device.name + "#", device.name + ">"))
        if words[:1] in (["object-group"], ["no"]) or list_of(block) or is_prompt:
            found |= {(line.path, line.number) for line in block.lines()}
    return found


def not_followed(tickets: Iterable[tuple[str, Any]]) -> list[str]:
    """What tickets touch and the model can't follow."""
    return ["%s: not followed: %s: %s" % ("%s:%d" % (path, first) if first else path, text, reason)
            for path, table in tickets for first, _, what, text, reason in table.rows if what == "not followed"]


def handed_on(device: Any) -> Unseen | None:
    """The line by which a protocol hands static routes on."""
    return next((unseen_of(line) for block in device.raw if block.command() == "router" for line in block.inner()
                 if line.words()[:2] == ["redistribute", "static"]), None)


def statics_of(device: Any) -> list[Unseen]:
    """The static routes of a device's own text."""
    return [unseen_of(line) for line in device.lines if line.words()[:2] == ["ip", "route"]]


def prepared_of(device: Any, with_table: bool, with_statics: bool) -> Prepared:
    """What is kept of a device. Its table and its static routes are there where somebody wants them."""
    lines = preparation.lines_of(device.blocks)
    stay = {(line.path, line.number): line.text for line in lines}
    said = [line for line in device.lines if says_something(line)]
    lost = [line for line in said if (line.path, line.number) not in stay]
    told = [line for table in (*(table for _, table in device.tickets), device.told) for line in table.lines()] if with_table else []
    return Prepared(
        device.file, device.name, device.table, to_bytes(lines), Sources(lines), "\n".join(told), not_followed(device.tickets),
        [unseen_of(line) for line in lost if (line.path, line.number) not in device.hidden],
        sum(stay.get((line.path, line.number)) != line.text for line in said),
        statics_of(device) if with_statics else [], handed_on(device))
