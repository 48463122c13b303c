"""The doctor's warnings, sorted by what the change has to do with them."""
from __future__ import annotations

import os
import re
from typing import Callable, Iterable, Sequence

import answers
from model import Warnings
from programs import Stop

ONLY_HERE = "passed over, only in this folder"
_SIDE = re.compile(r" in the (old|new) network$")


class Sorting:
    """Two folders, and how a warning is told apart from where it stands: the same warning of another folder, or another line, is equal
    to it."""

    def __init__(self, old: str, new: str, rewritten: Callable[[str], str] = str) -> None:
        """The folders that were read, and what tells a warning by the engineer's own files."""
        self.folders = {"old": old, "new": new}
        self.rewritten = rewritten

    def side(self, warning: str) -> str:
        """Of which network it is: "old", "new", or "" where it is of both, or of none alone."""
        found = _SIDE.search(warning)
        if found:
            return found[1]
        inside = [side for side, folder in self.folders.items() if warning.startswith((folder.rstrip("/") + "/", folder + ":"))]
        return inside[0] if len(inside) == 1 else ""

    def key(self, warning: str) -> str:
        """What it says, without its folder and its line."""
        for folder in self.folders.values():
            if warning.startswith(folder.rstrip("/") + "/"):
                warning = warning[len(folder.rstrip("/")) + 1:]
                break
        else:
            head, colon, rest = warning.partition(":")
            warning = os.path.basename(head) + colon + rest
        return _SIDE.sub("", re.sub(r"^([^: ]*):\d+:", r"\1:", warning))

    def accepted_key(self, warning: str) -> str:
        """What it says as a baseline has it, with the names of the engineer's own files."""
        text = self.rewritten(warning)
        found = re.match(r".*?\.cfg(?=[: ])|[^: ]*", text)
        head = found[0] if found else ""
        return _SIDE.sub("", re.sub(r"^([^: ]*):\d+:", r"\1:", os.path.basename(head) + text[len(head):]))


def sorted_warnings(warnings: Sequence[str], sorting: Sorting, accepted: frozenset[str]) -> Warnings:
    """The warnings of the change, those of both networks, those of the old one alone, and those that a baseline accepts, each in the
    doctor's order.

    A line that is passed over in one folder alone is a part of the change, whichever it is. With equal folders no warning is of the change.
    """
    keys = {side: {sorting.key(warning) for warning in warnings if sorting.side(warning) == side} for side in ("old", "new", "")}
    found = Warnings([], [], [], [])
    for warning in warnings:
        key, side = sorting.key(warning), sorting.side(warning)
        if sorting.accepted_key(warning) in accepted:
            if side != "old" or key not in keys["new"]:
                found.accepted.append(warning)
        elif ONLY_HERE in warning:
            found.new.append(warning)
        elif side == "new" and key not in keys["old"]:
            found.new.append(warning)
        elif side == "old" and key not in keys["new"]:
            found.gone.append(warning)
        elif side != "old":
            # (of two that are equal the new network's stands for both)
            found.both.append(warning)
    return found


def read_accepted(path: str, sorting: Sorting) -> frozenset[str]:
    """The warnings of a baseline: lines as the doctor or the window tells them. What the doctor tells besides is left out."""
    try:
        lines: Iterable[str] = answers.lines_of(path)
    except FileNotFoundError:
        raise Stop(8, b"not found %s\n" % os.fsencode(path)) from None
    lines = (line.strip() for line in lines)
    return frozenset(sorting.accepted_key(line) for line in lines if line and not re.match(r"!|limit: |warnings \d+$", line))
