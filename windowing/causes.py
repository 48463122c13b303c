"""Which line of a change does what, and which lines a part of the report comes of.

A line is a hunk, or what an engineer calls one line on several devices. Of each line two comparisons tell what it does: the new network
without it and the new one, and the old network and the old one with it alone. From these a header of the report has one of three answers:

- `by`: the new network without the line treats it otherwise; all such lines are needed, the rest of the change given.
- `any`: where no line is needed, each of these alone would already do it: the old network with the line alone treats it as the new one
  does.
- `all`: where neither is so, these do it only together: the new network without all of them treats it otherwise, and of these none can be
  left out. There may be other such sets.

Parts are cut so that all headers of one have the same answer.
"""
from __future__ import annotations

from dataclasses import dataclass, field
from typing import Callable, Iterable, Sequence

from cubes import Box, Headers, Values, address_of, dotted, union
from comparing import NOTHING, Comparisons, Found, Pair
from hunks import Hunk, bundles_of
from jobs import REFUSED, Refused, answer_of
from model import Cause, Idle, Line, Part
from programs import Stop
from rendering import Network, Networks

Shown = Callable[[str, int], str]  # how a line of a file is told: `DIST1.cfg:80`
Unit = frozenset[int]  # the hunks of a line


def where_of(hunk: Hunk) -> str:
    """The section of a hunk, where its lines alone don't say it."""
    if hunk.section.startswith("interface "):
        return hunk.section.split(" ", 1)[1]
    return hunk.section if hunk.section.startswith("list ") or hunk.aspect == "passed over" else ""


def line_of(number: int, hunks: Sequence[Hunk], shown: Shown) -> Line:
    """The line that these hunks are told as: the first one, and those that are alike on other devices; others are joined with it."""
    def told(some: Sequence[Hunk]) -> list[tuple[str, str, str]]:
        signed = [(sign, line) for hunk in some for sign, lines in (("-", hunk.old), ("+", hunk.new)) for line in lines]
        # (a line with object groups is read as several)
        return list(dict.fromkeys((shown(line.path, line.number), sign, line.words) for sign, line in signed))

    first, *others = bundles_of(hunks)
    chief = (first[0].new or first[0].old)[0]
    other = first[0].old[0].words if first[0].new and first[0].old else ""
    place = shown(chief.path, chief.number)
    parts = told([hunk for bundle in (first, *others) for hunk in bundle])
    joined = tuple(line_of(number, bundle, shown).said(1) for bundle in others)
    return Line(number, place, "~" if other else "+" if first[0].new else "-", chief.words, other, first[0].aspect, first[0].device,
                tuple(dict.fromkeys(part[0] for part in parts if part[0] != place)), where_of(first[0]), tuple(parts),
                len(told(first[:1])), tuple(dict.fromkeys(hunk.device for hunk in first)), joined, chief.path,
                chief.number)


# ---- what each line does


@dataclass
class Effect:
    """What a line does: the new network without it and the new one, and the old network and the old one with it alone, where that was
    asked and is accepted."""

    unit: Unit
    by: Found
    alone: Found | None

    def is_idle(self) -> bool:
        """Whether both sides are empty."""
        return not self.by.rows and not (self.alone and self.alone.rows)


class Unfaithful(Exception):
    """The networks as they were read here aren't those of the folders."""


@dataclass
class Search:
    """The lines of a change and what they do, asked of comparisons."""

    networks: Networks
    comparisons: Comparisons
    given: Pair  # the old and the new network as the engineer wrote them
    finer: bool = False
    effects: list[Effect] = field(default_factory=list)

    def run(self, report: Found) -> None:
        """Finds what each line does. A line whose taking back is refused is joined with what the refusal names, and looked at again. What
        a line does alone in the old network is asked where that matters: of all of them where some change comes of no single line, and
        else of those without which nothing changes."""
        units = [frozenset(hunk.number for hunk in bundle) for bundle in bundles_of(self.networks.change.hunks, self.finer)]
        if not units:
            if report.rows:
                raise Unfaithful(next(iter(report.places)))
            return
        needed = self.check(units)
        while any(isinstance(needed[unit], Refused) for unit in units):
            units = self.joined(units, needed)
            more = [unit for unit in units if unit not in needed]
            needed.update(zip(more, self.comparisons.of([self.taken_back(unit) for unit in more])))
        by = {unit: found for unit in sorted(units, key=min) for found in [needed[unit]] if isinstance(found, Found)}
        rest = any(headers - union(found.at(ingress) for found in by.values())
                   for ingress, places in report.places.items() for headers in places.values())
        asked = [unit for unit, found in by.items() if rest or not found.rows]
        pairs = [Pair(self.networks.old(), self.networks.alone(unit)) for unit in asked]
        alone = {unit: found for unit, found in zip(asked, self.comparisons.of(pairs)) if isinstance(found, Found)}
        self.effects = [Effect(unit, found, alone.get(unit)) for unit, found in by.items()]

    def taken_back(self, unit: Unit) -> Pair:
        return Pair(self.networks.without(unit), self.networks.new())

    def check(self, units: Sequence[Unit]) -> dict[Unit, Found | Refused]:
        """The new network without each unit and the new one; and beside these comparisons, whether the networks are those of the
        folders."""
        canonical = [Pair(self.given.old, self.networks.old()), Pair(self.given.new, self.networks.new())]
        found = self.comparisons.of(canonical + [self.taken_back(unit) for unit in units])
        for one in found[:2]:
            if isinstance(one, Refused):
                raise Unfaithful(one.line)
            if one.rows:
                raise Unfaithful(next(iter(one.places)))
        return dict(zip(units, found[2:]))

    def joined(self, units: list[Unit], known: dict[Unit, Found | Refused]) -> list[Unit]:
        """The units, where each one that is refused is joined with what the refusal names."""
        for unit, refusal in [(unit, found) for unit in units for found in [known[unit]] if isinstance(found, Refused)]:
            wanted = unit | self.networks.needed(unit, refusal.line)
            if wanted == unit:
                raise Stop(REFUSED, refusal.line.encode("utf-8", "surrogateescape") + b"\n")
            touched = [other for other in units if other & wanted]
            units = [other for other in units if other not in touched] + [frozenset[int]().union(*touched)]
        return units


# ---- single packets


def header_of(box: Box) -> str:
    """A header of a box as `trace` takes it, one that looks like a host's where there is one."""
    def address(values: Values) -> str:
        if address_of("8.8.8.8") in values:
            return "8.8.8.8"
        largest = min(values.patterns(), key=lambda pattern: (pattern.mask.bit_count(), pattern.bits))
        return dotted(largest.bits | 7 & ~largest.mask)

    def number(values: Values, wishes: Sequence[int]) -> int:
        return next((wish for wish in wishes if wish in values), values.patterns()[0].bits)

    protocol = number(box.protocol, (6, 17, 1))
    ports = number(box.destination_port, (443, 80, 53)), number(box.source_port, (2048,) if protocol == 1 else (50000,))
    return ",".join([address(box.destination), address(box.source), str(protocol), *map(str, ports), str(number(box.flags, (2, 16)))])


@dataclass
class Causes:
    """The lines of a change with what they do, and what parts of the report come of."""

    search: Search
    lines: list[Line]
    idle: list[Idle] = field(default_factory=list)
    beside: list[Idle] = field(default_factory=list)
    holds_back: list[int] = field(default_factory=list)
    notes: dict[int, str] = field(default_factory=dict)
    together: dict[Unit, Found] = field(default_factory=dict)

    def of(self, parts: Sequence[Part]) -> list[tuple[Part, Cause]]:
        """The parts, cut so that all headers of each have one answer, in order."""
        found: list[tuple[Part, Cause]] = []
        needed: dict[str, list[tuple[Headers, tuple[int, ...]]]] = {}
        enough: dict[tuple[str, tuple[str, ...]], list[tuple[Headers, tuple[int, ...]]]] = {}
        for part in parts:
            if part.ingress not in needed:
                needed[part.ingress] = alike((effect.by.at(part.ingress), number) for number, effect in enumerate(self.search.effects))
            for headers, lines in cut(part.headers, needed[part.ingress]):
                if lines:
                    found.append((part._replace(headers=headers), Cause("by", lines)))
                    continue
                key = (part.ingress, part.new)
                if key not in enough:
                    enough[key] = alike((alone_at(effect.alone, *key), number) for number, effect in enumerate(self.search.effects))
                for piece, some in cut(headers, enough[key]):
                    if some:
                        found.append((part._replace(headers=piece), Cause("any", some)))
                    else:
                        found += self.several(part._replace(headers=piece))
        return found

    def several(self, part: Part) -> list[tuple[Part, Cause]]:
        """A part that no line alone makes nor undoes: cut by sets of lines of which none can be left out."""
        found: list[tuple[Part, Cause]] = []
        rest = part.headers
        tried: list[Unit] = list(self.together)
        while rest:
            known = bool(tried)
            chosen = tried.pop(0) if tried else self.least(part.ingress, header_of(rest.boxes()[0]))
            inside = rest & self.changed_by(chosen, part.ingress)
            if not inside and not known:
                # Without a network between, only all of the change is sure to do it.
                chosen, inside = frozenset(range(len(self.search.effects))), rest
            if inside:
                found.append((part._replace(headers=inside), Cause("all", tuple(sorted(chosen)))))
                rest = rest - inside
        return found

    def changed_by(self, chosen: Unit, ingress: str) -> Headers:
        """The headers at an ingress that the new network without all of these lines treats otherwise, and none without all but one."""
        fewer = [chosen - {line} for line in sorted(chosen)] if len(chosen) > 2 else []
        asked = [one for one in [chosen, *fewer] if one not in self.together]
        networks = self.search.networks
        pairs = [Pair(networks.without(self.hunks_of(one)), networks.new()) for one in asked]
        for one, found in zip(asked, self.search.comparisons.of(pairs)):
            # (what is refused isn't a network, so nothing can be said of it)
            self.together[one] = found if isinstance(found, Found) else NOTHING
        headers = self.together[chosen].at(ingress)
        for one in fewer:
            headers = headers - self.together[one].at(ingress)
        return headers

    def without(self, lines: Iterable[int]) -> Found | Refused:
        """What the change does without all of these lines: the old network and the new one without them."""
        networks = self.search.networks
        return self.search.comparisons.of([Pair(networks.old(), networks.without(self.hunks_of(lines)))])[0]

    def hunks_of(self, lines: Iterable[int]) -> Unit:
        return frozenset(hunk for line in lines for hunk in self.search.effects[line].unit)

    def least(self, ingress: str, header: str) -> Unit:
        """Lines that change together what becomes of a header, and of which none can be left out, by bisection over their order."""
        every = list(range(len(self.search.effects)))
        want = self.outcome(frozenset(), ingress, header)

        def changes(lines: Iterable[int]) -> bool:
            return self.outcome(frozenset(lines), ingress, header) != want

        found: set[int] = set()
        while not changes(found):
            low, high = 0, len(every)
            while high - low > 1:
                middle = (low + high) // 2
                low, high = (low, middle) if changes(found | set(every[:middle])) else (middle, high)
            found.add(every[high - 1])
            every = every[:high - 1]
        spare = next((line for line in sorted(found) if changes(found - {line})), None)
        while spare is not None:
            found.discard(spare)
            spare = next((line for line in sorted(found) if changes(found - {line})), None)
        return frozenset(found)

    def outcome(self, lines: Unit, ingress: str, header: str) -> str:
        """What becomes of a header in the new network without these lines; where that is refused, what becomes of it in the new one."""
        network = self.search.networks.without(self.hunks_of(lines))
        told = traced(network, ingress, header)
        return told[-1] if told else traced(self.search.networks.new(), ingress, header)[-1]


def traced(network: Network, ingress: str, header: str) -> list[str]:
    """The lines of a trace, and none where the network is refused."""
    return (answer_of("review", ["trace", network.folder, network.links, *ingress.split(" "), header]) or "").splitlines()


def alike(sets: Iterable[tuple[Headers, int]]) -> list[tuple[Headers, tuple[int, ...]]]:
    """The sets that aren't empty, each once with its numbers."""
    found: dict[Headers, tuple[int, ...]] = {}
    for headers, number in sets:
        if headers:
            found[headers] = (*found.get(headers, ()), number)
    return list(found.items())


def alone_at(found: Found | None, ingress: str, new: tuple[str, ...]) -> Headers:
    """The headers of a report at an ingress that come to these new outcomes."""
    places = found.places.get(ingress, {}) if found else {}
    some = [headers for (_, after), headers in places.items() if tuple(after.split(" | ")) == new]
    return union(some)


def cut(headers: Headers, sets: Sequence[tuple[Headers, tuple[int, ...]]]) -> list[tuple[Headers, tuple[int, ...]]]:
    """The headers in pieces, each with the numbers of exactly those sets that all of it is in."""
    pieces: list[tuple[Headers, tuple[int, ...]]] = [(headers, ())]
    for one, numbers in sets:
        after = []
        for piece, known in pieces:
            inside = piece & one
            if inside:
                after.append((inside, tuple(sorted((*known, *numbers)))))
            if inside is not piece:
                after.append((piece - one, known))
        pieces = after
    return [piece for piece in pieces if piece[0]]


def causes_of(search: Search, report: Found, shown: Shown) -> Causes:
    """The lines of a change, and which of them hold back what the others would do. The search has run; `report` is that of the change."""
    hunks = search.networks.change.hunks
    lines = [line_of(number, [hunks[hunk] for hunk in sorted(effect.unit)], shown) for number, effect in enumerate(search.effects)]
    causes = Causes(search, lines)
    for number, effect in enumerate(search.effects):
        if effect.by.rows and not any(effect.by.at(ingress) & report.at(ingress) for ingress in effect.by.places):
            causes.holds_back.append(number)
    return causes


def parts_of(report: Found, kind: Callable[[str, str], str]) -> list[Part]:
    """The parts of a report: at each ingress what has the same old and new outcomes."""
    return [Part(ingress, headers, tuple(old.split(" | ")), tuple(new.split(" | ")), True, kind(old, new))
            for ingress, places in report.places.items() for (old, new), headers in places.items()]
