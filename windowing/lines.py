"""Which line does what, for two folders and what the comparison says of them: from the files to the answers."""
from __future__ import annotations

import os
import re
from typing import Protocol, Sequence

from answers import examination_of
from causes import Causes, Search, causes_of
from comparing import Comparisons, Found, Pair
from hunks import Own, entry_words
from jobs import Job, run_all
from reasons import Notes, add_reasons
from rendering import Folders, Network, Owner, folders_of, networks_of
from warned import ONLY_HERE

from launching.progress import Progress


class Place(Protocol):
    """A line of the engineer's own file; `entry` is the number that an entry has on the device, where the file that is read has another."""

    @property
    def path(self) -> str: ...

    @property
    def line(self) -> int: ...

    @property
    def entry(self) -> int | None: ...


class Places(Protocol):
    """Where the lines of the files that are read come from (`origin.Origins`)."""

    def place(self, path: str, line: int) -> Place | None: ...

    def written(self, path: str, line: int) -> str | None: ...

    def shown(self, path: str, line: int) -> str: ...


class OwnPlaces:
    """Where nothing was prepared, the lines are the engineer's own."""

    def place(self, path: str, line: int) -> Place | None:
        return None

    def written(self, path: str, line: int) -> str | None:
        return None

    def shown(self, path: str, line: int) -> str:
        return "%s:%d" % (os.path.basename(path), line)


def examined(folders: Folders, work: str, progress: Progress) -> tuple[dict[str, set[int]], Notes]:
    """The lines that the programs pass over in the files that a change touches, and what the doctor says of lines and routes of these."""
    original: dict[str, str] = {}
    places = []
    for side, paths in (("old", folders.old), ("new", folders.new)):
        place = os.path.join(work, "touched-" + side)
        os.mkdir(place)
        places.append(place)
        for path in paths:
            original[os.path.join(place, os.path.basename(path))] = path
            os.symlink(os.path.abspath(path), os.path.join(place, os.path.basename(path)))
    # (which links there are says nothing of this)
    links, told = os.path.join(work, "touched-links"), os.path.join(work, "touched-told")
    with open(links, "w", encoding="utf-8") as stream:
        stream.write("ingress none none\n")
    run_all([Job("doctor", ["--all", "--json", *places, links], told)], progress)
    return read_doctor(told, original)


def read_doctor(told: str, original: dict[str, str]) -> tuple[dict[str, set[int]], Notes]:
    """The same, of the doctor's document on copies of the files."""
    examination = examination_of(told)
    passed: dict[str, set[int]] = {}
    for place in examination.ignored:
        if place.path in original:
            passed.setdefault(original[place.path], set()).add(place.line)
    notes = Notes({}, {}, set())
    for warning in examination.warnings:
        path = original.get(warning.place.path)
        if path is None:
            continue
        if warning.kind == "passed over":
            reason = warning.says.split(": ", 1)[0]
            if reason == ONLY_HERE:
                notes.warned.add((path, warning.place.line))
            else:
                notes.lines[path, warning.place.line] = reason
        route = re.match(r"route (\S+) by (\S+): (.*)", warning.says) if warning.kind == "configuration" else None
        if route:
            notes.routes[path, route[1], route[2]] = route[3]
    return passed, notes


def owner_of(places: Places) -> Owner:
    """What the engineer's own file has of an entry, where the file that is read has it with another number."""
    def owner(path: str, line: int) -> Own | None:
        place = places.place(path, line)
        if place is None or place.entry is None:
            return None
        return Own(place.entry, (place.path, place.line), entry_words(" ".join((places.written(path, line) or "").split())))

    return owner


def find_causes(old: str, new: str, tables: Sequence[str], report: Found, work: str, places: Places = OwnPlaces(),
                finer: bool = False) -> Causes:
    """What each line of a change does, under one link table or one for each network, of which the comparison found `report`. Files stand
    below the folder `work`. Stop where a program ends otherwise than with an answer, Unfaithful where the files aren't read rightly
    here."""
    progress = Progress("window: looking at each changed line")
    try:
        folders = folders_of(old, new)
        passed, notes = examined(folders, work, progress)
        networks = networks_of(folders, list(tables), passed, work, finer, owner_of(places))
        given = Pair(Network(old, tables[0]), Network(new, tables[-1]))
        search = Search(networks, Comparisons(work, progress), given, finer)
        search.run(report)
        causes = causes_of(search, report, places.shown)
        add_reasons(causes, places.shown, notes)
        return causes
    finally:
        progress.end()
