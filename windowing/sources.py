"""Which sources can be at an ingress: those that the old or the new network sends back out of it, or that its subnets hold in either."""
from __future__ import annotations

import os
import re
from typing import Callable, Iterable, Mapping

import cubes
from cubes import Headers, Values
from kinds import outcome_of
from networks import Network
from programs import Stop

# Compares two folders under a link table: the report.
Compare = Callable[[str, str, str], str]

# What lies between a packet and the routes that it follows; what is left of a configuration are its interfaces and its routes.
_NOT_ROUTES = re.compile(r"\s*ip (access-group|nat)\s")


def write(path: str, text: str) -> str:
    """Writes a file, as bytes that were read; gives its path."""
    with open(path, "w", encoding="utf-8", errors="surrogateescape", newline="\n") as stream:
        stream.write(text)
    return path


def ingress_table(path: str, ingresses: Iterable[str]) -> str:
    """A link table of ingresses alone, so that each device stands by itself."""
    return write(path, "".join("ingress %s\n" % place for place in ingresses))


def empty_folder(path: str, names: Iterable[str]) -> str:
    """A network that drops everything: its devices have names alone."""
    os.mkdir(path)
    for number, name in enumerate(names):
        write(os.path.join(path, "%d.cfg" % number), "hostname %s\n" % name)
    return path


def routes_folder(path: str, network: Network, names: Iterable[str]) -> str:
    """Some devices of a network, without lists at interfaces and without translation, and with backup routes in use beside the others: what
    such a route sends back comes in there on the day when it is used, and from elsewhere even today."""
    os.mkdir(path)
    for number, device in enumerate(network.devices[name] for name in names if name in network.devices):
        lines = [in_use(line) for line in device.text.split("\n") if not _NOT_ROUTES.match(line)]
        write(os.path.join(path, "%d.cfg" % number), "\n".join(lines))
    return path


def in_use(line: str) -> str:
    """A line with a route of a greater distance in use, but for 255, which is never in use; any other line as it is."""
    words = line.split()
    if words[:2] != ["ip", "route"]:
        return line
    at = 4
    while at < len(words) and not words[at].isdigit():
        at += 2 if words[at] in ("name", "tag") else 1
    return " ".join(words[:at] + (words[at + 1:] if words[at:at + 1] != ["255"] else words[at:]))


def sent_back(report: str) -> dict[str, Values]:
    """Of a comparison of a network that drops everything with another one: at each ingress the destinations of which some packet leaves
    there."""
    found = {}
    for ingress, rows in cubes.sections(report):
        leaves = {row[7]: any((one.end, one.place) == ("exit", ingress) for one in map(outcome_of, row[7].split(" | "))) for row in rows}
        found[ingress] = Values.of_texts({row[0] for row in rows if leaves[row[7]]}, 32)
    return found


def asked_sources(networks: Iterable[Network], ingresses: list[str], folder: str, compare: Compare) -> dict[str, Values]:
    """The sources at each ingress, asked of `review`: packets to these addresses that enter there, at the device alone, without lists
    and translation."""
    found = {ingress: Values.none(32) for ingress in ingresses}
    for number, network in enumerate(networks):
        here = os.path.join(folder, "sources-%d" % number)
        os.mkdir(here)
        names = list(dict.fromkeys(place.split(" ")[0] for place in ingresses))
        table = ingress_table(os.path.join(here, "links"), ingresses)
        empty = empty_folder(os.path.join(here, "empty"), names)
        routes = routes_folder(os.path.join(here, "routes"), network, names)
        for ingress, values in sent_back(compare(empty, routes, table)).items():
            found[ingress] |= values | network.subnets(ingress)
    return found


def read_sources(path: str, ingresses: list[str]) -> dict[str, Values]:
    """The sources that a file says, `R1 Vlan10 10.1.0.0/24 10.2.0.5` on a line, or `any`. Stop with file and line where one is none."""
    try:
        with open(path, encoding="utf-8", errors="surrogateescape", newline="\n") as stream:
            lines = stream.read().split("\n")
    except FileNotFoundError:
        raise Stop(8, b"not found %s\n" % os.fsencode(path)) from None
    found: dict[str, Values] = {}
    for number, line in enumerate(lines, 1):
        words = line.split()
        if not words or words[0].startswith("!"):
            continue
        place = " ".join(words[:2])

        def refuse(kind: str, word: str = "", number: int = number) -> Stop:
            return Stop(3, os.fsencode("refused %s line %d %s%s\n" % (path, number, kind, word and " " + word)))

        if len(words) < 3:
            raise refuse("MissingWord")
        if place not in ingresses:
            raise refuse("UnknownPlace", place)
        if place in found:
            raise refuse("EndTaken", words[1])
        values = Values.none(32)
        for word in words[2:]:
            try:
                values |= address_values(word)
            except ValueError:
                raise refuse("BadWord", word) from None
        found[place] = values
    return found


_ADDRESS = re.compile(r"(\d{1,3})\.(\d{1,3})\.(\d{1,3})\.(\d{1,3})(?:/(\d{1,2}))?")


def address_values(word: str) -> Values:
    """`any`, an address, a prefix without a bit behind it, or 32 digits 0, 1 and `*`. ValueError for other words."""
    if word in ("any", "*"):
        return Values.all(32)
    if len(word) == 32 and not word.strip("01*"):
        return Values.of_text(word, 32)
    found = _ADDRESS.fullmatch(word)
    if not found or any(int(part) > 255 for part in found.groups()[:4]) or int(found[5] or 32) > 32:
        raise ValueError(word)
    address, length = cubes.address_of(word.partition("/")[0]), int(found[5] or 32)
    if address & 0xFFFFFFFF >> length and length < 32:
        raise ValueError(word)
    return Values.of_text(word, 32)


def cut(headers: Headers, sources: Mapping[str, Values], ingress: str) -> tuple[Headers, Headers]:
    """Of headers at an ingress those of sources that can be there, and all others."""
    here = headers & Headers.where(source=sources[ingress])
    return here, headers - here
