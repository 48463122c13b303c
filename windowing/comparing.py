"""Comparisons of the networks of a change, and what their reports say.

Comparisons that share a network are asked of `rollout variants`, which reads that network once, where it stands built and knows the
command; each other one is a run of `review compare`. Both answer the same. Equal reports are read once, and long ones by several processes.
"""
from __future__ import annotations

import hashlib
import os
import re
from concurrent.futures import ProcessPoolExecutor
from typing import Iterable, NamedTuple, Sequence

from cubes import Headers, by_outcome, sections, union
from jobs import REFUSED, Job, Refused, gathered, is_built, processors, run_all
from rendering import Network

from launching.progress import Progress

# Reports of more bytes than this, in all, are read by several processes.
LONG = 2_000_000
# The statuses of `rollout variants` where its files are more or longer than it takes, and of a `rollout` that doesn't know the command.
TOO_MUCH, UNKNOWN = 5, 2


class Found(NamedTuple):
    """What a report says: its number of rows, and at each ingress the headers for each pair of old and new outcomes."""

    rows: int
    places: dict[str, dict[tuple[str, str], Headers]]

    def at(self, ingress: str) -> Headers:
        """All headers of its rows at an ingress."""
        return union(self.places.get(ingress, {}).values())

    def turned(self) -> Found:
        """The report of the same comparison the other way round."""
        return Found(self.rows, {ingress: {(new, old): headers for (old, new), headers in places.items()}
                                 for ingress, places in self.places.items()})


NOTHING = Found(0, {})

# ---- reports


class Piece(NamedTuple):
    """A report within a file, from a byte to another one."""

    path: str
    start: int
    end: int

    def bytes(self) -> bytes:
        with open(self.path, "rb") as stream:
            stream.seek(self.start)
            return stream.read(self.end - self.start)


def whole(path: str) -> Piece:
    """A file as one report."""
    return Piece(path, 0, os.path.getsize(path))


def found_in(path: str) -> Found:
    """What the report in a file says."""
    return found_of(whole(path))


def found_of(piece: Piece) -> Found:
    read = sections(piece.bytes().decode("utf-8", "surrogateescape"))
    places = {section.ingress: by_outcome(section.rows) for section in read if section.rows}
    return Found(sum(len(section.rows) for section in read), places)


def read_all(pieces: Sequence[Piece], progress: Progress) -> list[Found]:
    """What the reports say, each text read once."""
    marks = [hashlib.sha256(piece.bytes()).digest() for piece in pieces]
    texts = dict(zip(marks, pieces))
    if len(texts) < 2 or sum(piece.end - piece.start for piece in texts.values()) < LONG:
        found = list(map(found_of, texts.values()))
    else:
        progress.more(len(texts))
        with ProcessPoolExecutor(min(processors(), len(texts))) as pool:
            found = gathered(pool, found_of, list(texts.values()), progress, lambda: None)
    by_mark = dict(zip(texts, found))
    return [by_mark[mark] for mark in marks]


# ---- variants of one network


class Pair(NamedTuple):
    """Two networks to be compared."""

    old: Network
    new: Network


class Variants(NamedTuple):
    """Pairs that share a network: their numbers, and the network beside which each stands as the old or the new one."""

    base: Network
    numbers: tuple[int, ...]

    def other(self, pair: Pair) -> Network:
        return pair.new if pair.old == self.base else pair.old


def changes_between(base: Network, other: Network) -> list[str]:
    """The files of the devices that the other network has otherwise."""
    return [mine for mine, theirs in zip(other.devices, base.devices) if mine != theirs]


def shared(pairs: Sequence[Pair]) -> list[Variants]:
    """The pairs of networks with one link table, by the network that most of them share, where there are several."""
    fit = {number: pair for number, pair in enumerate(pairs) if pair.old.devices and pair.new.devices and pair.old.links == pair.new.links}
    found: list[Variants] = []
    while fit:
        count: dict[Network, int] = {}
        for pair in fit.values():
            for network in set(pair):
                count[network] = count.get(network, 0) + 1
        base = max(count, key=lambda network: count[network])
        if count[base] < 2:
            break
        numbers = tuple(number for number, pair in fit.items() if base in pair)
        found.append(Variants(base, numbers))
        fit = {number: pair for number, pair in fit.items() if number not in numbers}
    return found


def pieces_of(path: str) -> dict[str, Piece | None]:
    """The reports in what `rollout variants` wrote, by the names of the variants; None for one without a row."""
    with open(path, "rb") as stream:
        text = stream.read()
    heads = list(re.finditer(rb"^variant (\S+) affected ([0-9]+)\n", text, re.MULTILINE))
    ends = [head.start() for head in heads[1:]] + [text.rfind(b"variants ")]
    return {head.group(1).decode(): Piece(path, head.end(), end) if int(head.group(2)) else None for head, end in zip(heads, ends)}


# ---- comparisons


class Comparisons:
    """Comparisons of one change; the reports stand below the folder `work` for as long as they are read."""

    def __init__(self, work: str, progress: Progress) -> None:
        self.work, self.progress, self.count = work, progress, 0

    def path(self, name: str) -> str:
        self.count += 1
        return os.path.join(self.work, "%s-%d" % (name, self.count))

    def of(self, pairs: Sequence[Pair]) -> list[Found | Refused]:
        """What each comparison says, or that one of its networks is refused. Equal ones are made once."""
        each = list(dict.fromkeys(pairs))
        # (a path in the text of variants has no blank)
        groups = shared(each) if len(each) > 1 and len(self.work.split()) == 1 and is_built("rollout") else []
        known: dict[int, Found | Refused] = {}
        singles = [number for number in range(len(each)) if not any(number in group.numbers for group in groups)]
        while groups or singles:
            groups, singles = self.run(each, groups, singles, known)
        number_of = {pair: number for number, pair in enumerate(each)}
        return [known[number_of[pair]] for pair in pairs]

    def run(self, pairs: Sequence[Pair], groups: Sequence[Variants], singles: Sequence[int],
            known: dict[int, Found | Refused]) -> tuple[list[Variants], list[int]]:
        """The pairs of each group by one run, and each other one by its own. What is left: a pair of a group that is refused gets a run of
        its own, which says why, and the others of its group are asked again."""
        workers = str(max(1, processors() // max(1, len(groups) + len(singles))))
        jobs = [self.job_of(pairs, group) for group in groups] + [self.job_of_pair(pairs[number], workers) for number in singles]
        ends = run_all(jobs, self.progress)
        left: tuple[list[Variants], list[int]] = ([], [])
        pieces: list[tuple[int, Piece]] = []
        for group, job, end in zip(groups, jobs, ends):
            if end is None:
                pieces += self.taken(group, job.path, known)
            else:
                bad = refused_in(pairs, group, job.words[3], end.line) or set(group.numbers)
                rest = tuple(number for number in group.numbers if number not in bad)
                left[1].extend(sorted(bad))
                left[0].extend([group._replace(numbers=rest)] if rest else [])
        for number, job, end in zip(singles, jobs[len(groups):], ends[len(groups):]):
            if end is None:
                pieces.append((number, whole(job.path)))
            else:
                known[number] = end
        turned = {number for group in groups for number in group.numbers if pairs[number].old != group.base}
        for (number, _), found in zip(pieces, read_all([piece for _, piece in pieces], self.progress)):
            known[number] = found.turned() if number in turned else found
        remove([job.path for job in jobs] + [job.words[3] for job in jobs[:len(groups)]])
        return left

    def job_of_pair(self, pair: Pair, workers: str) -> Job:
        tables = [pair.old.links] + ([pair.new.links] if pair.new.links != pair.old.links else [])
        return Job("review", ["compare", pair.old.folder, pair.new.folder, *tables, "--workers", workers], self.path("report"))

    def job_of(self, pairs: Sequence[Pair], group: Variants) -> Job:
        text = self.path("variants")
        with open(text, "w", encoding="utf-8", errors="surrogateescape") as stream:
            for line, _ in variant_lines(pairs, group):
                stream.write(line + "\n")
        return Job("rollout", ["variants", group.base.folder, group.base.links, text], self.path("report"), (REFUSED, TOO_MUCH, UNKNOWN))

    def taken(self, group: Variants, path: str, known: dict[int, Found | Refused]) -> list[tuple[int, Piece]]:
        """The reports of a group in what its run wrote; variants without a row have none."""
        pieces = pieces_of(path)
        known.update((number, NOTHING) for number in group.numbers if pieces[str(number)] is None)
        return [(number, piece) for number in group.numbers for piece in [pieces[str(number)]] if piece is not None]


def variant_lines(pairs: Sequence[Pair], group: Variants) -> list[tuple[str, int]]:
    """The lines that say the variants of a group, each with the number of its pair."""
    found = []
    for number in group.numbers:
        found.append(("variant %d" % number, number))
        found += [("change " + path, number) for path in changes_between(group.base, group.other(pairs[number]))]
    return found


def refused_in(pairs: Sequence[Pair], group: Variants, text: str, refusal: str) -> set[int]:
    """The pairs that a refusal is about: those with the line of the variants that it names, or with the file."""
    lines = variant_lines(pairs, group)
    match = re.match(r"refused (.*) line ([0-9]+) ", refusal)
    if match and match[1] == text:
        return {lines[int(match[2]) - 1][1]}
    return {number for line, number in lines if match and line == "change " + match[1]}


def remove(paths: Iterable[str]) -> None:
    for path in paths:
        if os.path.exists(path):
            os.unlink(path)
