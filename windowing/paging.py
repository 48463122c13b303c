"""The page of a window: the document, and what stands beside it on the page: traces, the wiring, and what it all rests on."""
from __future__ import annotations

import json
import os
import shlex
import sys
import time
from concurrent.futures import ThreadPoolExecutor
from typing import Any, Iterator, Mapping, Sequence

import answers
import documents
from bringing import Brought
from deciding import Deciding
from model import Result
from networks import Network
from programs import TOP, Stop, run
from words import Words

sys.path.insert(0, TOP)

from showing import evidence, page, rendering  # noqa: E402
from showing.picture import Wiring  # noqa: E402

# Of so many, what is missing first and then the most feared findings, both ways are traced; so many traces run at a time.
MOST_TRACES, AT_A_TIME = 12, 4
# The files that the words can name besides the link table.
FILES = ("newlinks", "questions", "questions_new", "expect", "sources", "accept", "active", "waivers")


def check() -> None:
    """Ends the run where the page can't be rendered."""
    try:
        rendering.with_jinja()
    except rendering.NoJinja:
        raise Stop(70, b"window: Debian's package python3-jinja2 is missing\n") from None


# ---- what it rests on


def places_called(given: str, words: Words, names: Mapping[str, str]) -> list[tuple[str, str]]:
    """The files that are named so, each with how it is called: of both revisions where they are laid out. One that isn't there is left to
    the program that tells it."""
    found = {called: path for path, called in reversed(list(names.items())) if called.endswith(":" + given) and os.path.isfile(path)}
    if found:
        return sorted(found.items(), key=lambda one: list(names).index(one[1]))
    inside = os.path.join(words.git, given) if words.git else given
    return [(given, path) for path in (inside, given) if os.path.isfile(path)][:1]


def files_of(words: Words, brought: Brought) -> list[page.File]:
    """The folders and files of a run, as the engineer has them."""
    names, (old, new) = brought.origins.names, brought.sides
    found = [evidence.folder_of("today", names.get(old.configs, words.old), old.configs, ".cfg")]
    if new.tickets:
        found.append(evidence.folder_of("tickets", names.get(new.tickets, words.tickets or ""), new.tickets, ".txt"))
    else:
        found.append(evidence.folder_of("planned", names.get(new.configs, words.new), new.configs, ".cfg"))
    for routes in dict.fromkeys(side.routes for side in (old, new) if side.routes):
        found.append(evidence.folder_of("routes", names.get(routes, words.routes or ""), routes, ".txt"))
    if words.links:
        found += [evidence.file_of("links", called, path) for called, path in places_called(words.links, words, names)]
    for name in FILES:
        given = getattr(words, name)
        if given:
            found += [evidence.file_of(name.replace("_", " "), called, path) for called, path in places_called(given, words, names)]
    return found


# ---- ways


def told_states(lines: Sequence[str], network: Network, brought: Brought) -> Iterator[str]:
    """The lines of a trace with the device's own numbers of entries."""
    device = ""
    for line in lines:
        words = line.split(" ")
        if words[0] == "state":
            device = words[3]
        elif words[0] in ("input", "output") and len(words) == 4 and words[3] != "end" and device in network.devices:
            source = brought.origins.entry(network.devices[device].path, words[1], int(words[3]))
            if source is not None and source.entry is not None:
                words[3] = str(source.entry)
        yield " ".join(words)


def trace(deciding: Deciding, brought: Brought, side: str, example: Mapping[str, Any], path: str) -> list[str]:
    """The trace of an example in one network; none where the verifier doesn't trace it."""
    network = deciding.networks()[0 if side == "old" else 1]
    try:
        run("review", ["trace", deciding.completed(network, side), network.table, *bytes_of(example), example["header"]], path)
    except Stop:
        return []
    return [documents.ascii_of(line) for line in told_states(answers.lines_of(path), network, brought)]


def bytes_of(example: Mapping[str, Any]) -> list[str]:
    """The device and the interface of an example, as the command line takes them."""
    return [example[name].encode("latin-1").decode("utf-8", "surrogateescape") for name in ("device", "interface")]


def traces_of(document: Mapping[str, Any], deciding: Deciding, brought: Brought) -> dict[int, tuple[list[str], list[str]]]:
    """The traces of the examples of what is missing, and of the most feared findings, in both networks."""
    findings = [finding for finding in document["findings"] if finding["plausible"]]
    asked = [one for one in [*document["missing"], *findings] if one["example"]][:MOST_TRACES]
    for network, side in zip(deciding.networks(), ("old", "new")):
        deciding.completed(network, side)

    def both(one: Mapping[str, Any]) -> tuple[list[str], list[str]]:
        paths = {side: deciding.path("trace-%s-%d" % (side, one["number"])) for side in ("old", "new")}
        old, new = (trace(deciding, brought, side, one["example"], path) for side, path in paths.items())
        return old, new

    with ThreadPoolExecutor(AT_A_TIME) as pool:
        found = zip(asked, pool.map(both, asked))
        return {one["number"]: sides for one, sides in found if all(sides)}


def wiring_of(network: Network) -> Wiring:
    """The segments and devices of a network, as texts of bytes."""
    segments = [(ends, is_lan) for some, is_lan in ((network.links.pairs, False), (network.links.lans, True)) for ends in some]
    return Wiring([(tuple(map(documents.ascii_of, ends)), is_lan) for ends, is_lan in segments],
                  [documents.ascii_of(name) for name in dict.fromkeys([*network.devices, *network.links.devices()])])


# ---- all of it


class Paging:
    """The page of one run. What it rests on is taken at the beginning, before anything else reads it."""

    def __init__(self, words: Words, brought: Brought, given: Sequence[str]) -> None:
        self.began = time.time()
        self.clock = time.monotonic()
        self.command = shlex.join(["./window", *given])
        self.files = files_of(words, brought)
        self.brought = brought

    def made(self) -> str:
        """When the run began, and how long it has taken."""
        return "%s UTC, in %.1f s" % (time.strftime("%Y-%m-%d %H:%M:%S", time.gmtime(self.began)), time.monotonic() - self.clock)

    def page(self, result: Result, status: int, deciding: Deciding, limits: Sequence[str]) -> bytes:
        """The page. Only while the files of the run are there."""
        document = json.loads(documents.json_of(result, status))
        ascii_of = documents.ascii_of
        tables = [page.File(*map(ascii_of, one)) for one in self.files]
        for name, text in self.brought.tables.items():
            content = text.encode("utf-8", "surrogateescape")
            size = "%d bytes," % len(content)
            tables.append(page.File("links of " + name, "found in the configurations", size, evidence.sum_of(content)))
        traces = traces_of(document, deciding, self.brought)
        beside = page.Beside(
            self.made(), ascii_of(self.command), tables, evidence.programs_of(("review", "doctor", "view")),
            [ascii_of(self.brought.origins.rewritten(limit)) for limit in limits], wiring_of(deciding.networks()[1]), traces)
        return page.page_of(document, beside)
