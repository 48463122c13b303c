"""What is expected of a change: a file of lines that say which packets may, and have to, be treated differently.

    ! a comment
    opens tcp dport 443 from 10.11.1.0/24 to 10.30.20.0/24
    closes any to 10.9.0.0/16 at BR1 FastEthernet0/0, BR2 Vlan10
    may closes icmp
    nothing else

A line is a kind of change, then in any order what bounds its packets: protocols, `dport` and `sport` with ports, `icmp` with messages,
`established` or `not established`, `flags` with patterns, `from` and `to` with addresses, and `at` with ingresses. A list stands with
commas; `not` in front of one takes all others. A line allows what the report has of its kind; and it wants that the new network does so
with all of its packets. Behind `may` it only allows.
"""
from __future__ import annotations

import os
import re
from typing import Callable, Mapping, NamedTuple, Sequence

import field_words
from cubes import Box, Headers, Values
from field_words import ESTABLISHED, ICMP_CODES, ICMP_TYPES, PROTOCOLS, TCP_PORTS, UDP_PORTS
from findings import ITS, OWN, Judged, divided
from kinds import KINDS, outcome_of
from model import Finding, Missing, Part
from programs import Stop
from sources import address_values

PROTOCOL_NUMBERS = {name: number for number, name in PROTOCOLS.items()} | {"tcp": 6, "udp": 17}
PORT_NUMBERS = {name: number for names in (UDP_PORTS, TCP_PORTS) for number, name in names.items()}
MESSAGES = {name: Values.of_range(kind << 8, kind << 8 | 255, 16) for kind, name in ICMP_TYPES.items()}
MESSAGES |= {name: Values.of_range(code, code, 16) for code, name in ICMP_CODES.items()}
# Each word that begins a part of a line, the field of a Box that it bounds, and the field's width.
LISTS = {"proto": ("protocol", 8), "dport": ("destination_port", 16), "sport": ("source_port", 16), "flags": ("flags", 8),
         "from": ("source", 32), "to": ("destination", 32)}


class Expectation(NamedTuple):
    """A line: its number, its text, its kind, its headers, its ingresses (None for all), and whether it has to happen."""

    line: int
    text: str
    kind: str
    headers: Headers
    ingresses: tuple[str, ...] | None
    wanted: bool


class Expectations(NamedTuple):
    """A file: its path, its lines, and the number of the line `nothing else`, if that is there."""

    path: str
    lines: tuple[Expectation, ...]
    nothing_else: int | None


class Refused(Exception):
    """A line is none: a kind of refusal, and the word that decides."""


def _value(word: str, name: str, width: int) -> Values:
    """One item of a list."""
    try:
        if width == 32:
            return address_values(word)
        if name == "protocol" and word in PROTOCOL_NUMBERS:
            return Values.of_text(str(PROTOCOL_NUMBERS[word]), 8)
        if name.endswith("port") and word in PORT_NUMBERS:
            return Values.of_text(str(PORT_NUMBERS[word]), 16)
        found = re.fullmatch(r"(\d+)-(\d+)", word)
        if found and int(found[1]) <= int(found[2]) < 1 << width:
            return Values.of_range(int(found[1]), int(found[2]), width)
        return Values.of_text(word, width)
    except ValueError:
        raise Refused("BadWord", word) from None


def _message(word: str) -> Values:
    """One ICMP message: its name, its type, or type/code."""
    if word in MESSAGES:
        return MESSAGES[word]
    found = re.fullmatch(r"(\d+)(?:/(\d+))?", word)
    if not found or int(found[1]) > 255 or int(found[2] or 0) > 255:
        raise Refused("BadWord", word)
    low = int(found[1]) << 8 | int(found[2] or 0)
    return Values.of_range(low, low if found[2] else low | 255, 16)


class _Words:
    """The words of a line, taken one by one. A comma ends a word and stands for that the list goes on."""

    def __init__(self, text: str) -> None:
        self.words = text.replace(",", " , ").split()

    def peek(self) -> str:
        return self.words[0] if self.words else ""

    def take(self) -> str:
        if not self.words:
            raise Refused("MissingWord", "")
        return self.words.pop(0)

    def items(self, one: Callable[[str], Values], width: int) -> Values:
        """A list with commas, perhaps behind `not`."""
        negated = self.peek() == "not"
        if negated:
            self.take()
        found = one(self.take())
        while self.peek() == ",":
            self.take()
            found |= one(self.take())
        return ~found if negated else found


def _kind_of(words: _Words) -> str:
    """The kind at the beginning of a line."""
    for kind in sorted(KINDS, key=len, reverse=True):
        own = kind.split()
        if words.words[:len(own)] == own:
            del words.words[:len(own)]
            return kind
    raise Refused("BadWord" if words.words else "MissingWord", words.peek())


def _places(words: _Words) -> tuple[str, ...]:
    """Ingresses with commas."""
    found = [words.take() + " " + words.take()]
    while words.peek() == ",":
        words.take()
        found.append(words.take() + " " + words.take())
    return tuple(found)


def _is_protocols(word: str) -> bool:
    return word in PROTOCOL_NUMBERS or word == "ip"


def expectation_of(text: str, line: int, ingresses: Sequence[str]) -> Expectation:
    """Reads a line. Refused where it is none."""
    words = _Words(text)
    wanted = words.peek() != "may"
    if not wanted:
        words.take()
    kind = _kind_of(words)
    bounds: dict[str, Values] = {}
    places: tuple[str, ...] | None = None

    def bound(name: str, values: Values, word: str) -> None:
        if name in bounds:
            raise Refused("BadWord", word)
        bounds[name] = values

    while words.words:
        word = words.peek()
        if word in LISTS:
            name, width = LISTS[words.take()]
            bound(name, words.items(lambda item: _value(item, name, width), width), word)
        elif word == "any":
            words.take()
        elif word == "at" and places is None:
            words.take()
            places = _places(words)
            unknown = [place for place in places if place not in ingresses]
            if unknown:
                raise Refused("UnknownPlace", unknown[0])
        elif word == "established" or words.words[:2] == ["not", "established"]:
            del words.words[:1 if word == "established" else 2]
            bound("flags", ESTABLISHED if word == "established" else ~ESTABLISHED, word)
        elif word == "icmp" and "protocol" not in bounds:
            words.take()
            bound("protocol", field_words.ICMP, word)
            if words.peek() not in ("", "any", "at", ",", *LISTS):
                bound("source_port", words.items(_message, 16), word)
        elif _is_protocols(word) or word == "not" and len(words.words) > 1 and _is_protocols(words.words[1]):
            bound("protocol", words.items(lambda item: _value(item, "protocol", 8), 8), word)
        else:
            raise Refused("BadWord", word)
    return Expectation(line, text, kind, Headers.where(**bounds), places, wanted)


def read_expectations(path: str, ingresses: Sequence[str]) -> Expectations:
    """Reads a file. Stop with its path and line where one is refused."""
    try:
        with open(path, encoding="utf-8", errors="surrogateescape", newline="\n") as stream:
            texts = stream.read().split("\n")
    except FileNotFoundError:
        raise Stop(8, b"not found %s\n" % os.fsencode(path)) from None
    lines, nothing_else = [], None
    for number, text in enumerate(texts, 1):
        text = " ".join(text.split())
        if not text or text.startswith("!"):
            continue
        try:
            if text == "nothing else" and nothing_else is None:
                nothing_else = number
            else:
                lines.append(expectation_of(text, number, ingresses))
        except Refused as refused:
            kind, word = refused.args
            raise Stop(3, os.fsencode("refused %s line %d %s%s\n" % (path, number, kind, word and " " + word))) from None
    return Expectations(path, tuple(lines), nothing_else)


# ---- what is expected of a part


def judge_of(expectations: Expectations) -> Callable[[Part, Headers], Judged]:
    """What the lines say of headers of a part."""
    by_kind: dict[str, list[Expectation]] = {}
    for one in expectations.lines:
        by_kind.setdefault(one.kind, []).append(one)

    def judge(part: Part, headers: Headers) -> Judged:
        rest, lines = headers, []
        for one in by_kind.get(part.kind, []):
            if (one.ingresses is None or part.ingress in one.ingresses) and headers & one.headers:
                lines.append(one.line)
                rest = rest - one.headers
        word = "no" if not lines else "part" if rest else "whole"
        return Judged(word, rest, tuple(lines))

    return judge


# ---- what is expected and doesn't happen


def has_end(new: str, ends: Sequence[str]) -> bool:
    """Whether some outcome of a row ends in one of these ways."""
    return any(outcome_of(text).end in ends for text in new.split(" | "))


# Of headers that a line names and that aren't treated as its kind says: those with such an end in the new network (True), or without
# one (False), don't do what was expected. All others do so already: they did before, and nothing changes.
THROUGH = ("local", "exit")
UNDONE = {"opens": (THROUGH, False), "closes": (THROUGH, True), "loops": (("expired",), False), "loop gone": (("expired",), True)}
OTHERWISE = (THROUGH, True)
WHY = {"opens": "does not get through in the new network", "closes": "still gets through", "loops": "does not go round",
       "loop gone": "still goes round"}

# At an ingress, what the new network does with headers: each list of outcomes with its headers, but for `drop` alone.
Behaviour = Callable[[str], Mapping[str, Headers]]


def undone(kind: str, headers: Headers, behaviour: Mapping[str, Headers], never: Values) -> Headers:
    """The headers that don't do in the new network what a line of this kind says."""
    ends, with_end = UNDONE.get(kind, OTHERWISE)
    found = Headers.none()
    for new, some in behaviour.items():
        if has_end(new, ends):
            found = found | some
    if with_end:
        return headers & found
    # (no router forwards these, whatever is permitted)
    return headers - found - Headers.where(destination=never)


class Missed:
    """What lines want and doesn't happen: `there` has what the report has of each kind at each ingress."""

    def __init__(self, parts: Sequence[Part], sources: Mapping[str, Values], behaviour: Behaviour, never: Values) -> None:
        self.sources = {place: Headers.where(source=values) for place, values in sources.items()}
        self.behaviour, self.never = behaviour, never
        self.there: dict[tuple[str, str], Headers] = {}
        for part in parts:
            if part.plausible:
                key = (part.kind, part.ingress)
                self.there[key] = self.there.get(key, Headers.none()) | part.headers

    def at(self, one: Expectation, place: str) -> Headers:
        """What of a line doesn't happen at an ingress."""
        rest = (one.headers & self.sources[place]) - self.there.get((one.kind, place), Headers.none())
        return undone(one.kind, rest, self.behaviour(place), self.never) if rest else rest

    def of(self, one: Expectation) -> list[Missing]:
        """What of a line doesn't happen, equal headers at several ingresses as one. A line of which nothing happens anywhere is told
        too where it was so before."""
        here = [place for place in one.ingresses or self.sources if one.headers & self.sources[place]]
        alike: dict[tuple[Headers, str], list[str]] = {}
        for place in here:
            for headers, whole in divided(self.at(one, place), self.sources[place]):
                alike.setdefault((headers, ITS if whole else OWN), []).append(place)
        if not alike and not any(one.headers & self.there.get((one.kind, place), Headers.none()) for place in here):
            why = "is so in the old network already" if here else "has no source that can be at an ingress"
            return [Missing(one.line, one.kind, tuple(here), one.headers, OWN, why)]
        why = WHY.get(one.kind, "is treated otherwise, or as before")
        return [Missing(one.line, one.kind, tuple(places), headers, word, why) for (headers, word), places in alike.items()]


# ---- what is there, as expectations


def _list_text(values: Values) -> str:
    """A field as a list that is read back."""
    if values.width == 32:
        found, rest = field_words.address_texts(values), field_words.address_texts(~values)
    else:
        found, rest = (_range_texts(some) for some in (values, ~values))
    return "not " + ",".join(rest) if rest and len(rest) < len(found) else ",".join(found)


def _range_texts(values: Values) -> list[str]:
    ranges = values.ranges(64)
    if ranges is None:
        return values.texts()
    return [str(low) if low == high else "%d-%d" % (low, high) for low, high in ranges]


def _service_text(box: Box) -> str:
    """The bounds of a box but for its addresses."""
    words = []
    names = [name for name in ("tcp", "udp", "icmp") if box.protocol == Values.of_text(str(PROTOCOL_NUMBERS[name]), 8)]
    if not box.protocol.is_all():
        words.append(names[0] if names else "proto " + _list_text(box.protocol))
    for name in ("dport", "sport"):
        values = getattr(box, LISTS[name][0])
        if not values.is_all():
            words.append("%s %s" % (name, _list_text(values)))
    if box.flags == ESTABLISHED or box.flags == ~ESTABLISHED:
        words.append("established" if box.flags == ESTABLISHED else "not established")
    elif not box.flags.is_all():
        words.append("flags " + ",".join(box.flags.texts()))
    return " ".join(words) or "any"


def line_of(kind: str, box: Box, ingresses: Sequence[str]) -> str:
    """A line that says exactly this box."""
    words = [kind, _service_text(box)]
    for word, values in (("from", box.source), ("to", box.destination)):
        if not values.is_all():
            words.append("%s %s" % (word, _list_text(values)))
    return " ".join(words + ["at " + ", ".join(ingresses)])


def written(findings: Sequence[Finding]) -> str:
    """The file of what is there: read back with the same change, it says that all is as expected."""
    lines = ["! What the change does, as `window --write-expect` found it. Approve it, and keep it beside the ticket."]
    for finding in findings:
        for word in (ITS, OWN):
            lines += [line_of(finding.kind, box, finding.ingresses) for box in finding.headers(word).boxes()]
    return "".join(line + "\n" for line in lines + ["nothing else"])
