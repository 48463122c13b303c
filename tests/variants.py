#!/usr/bin/env python3
"""Compares variants of random networks in one run with `review compare` of each, and tries what is refused.

    variants.py [COUNT]

COUNT variants at least are compared, 100 where it isn't given. Each report of `rollout variants` has to be the one that `review compare`
writes for the network and a copy of it with the changed files. Every fourth network is small enough for the second opinion of
`tests/rules.py`. DIQENYU_REVIEW and DIQENYU_ROLLOUT name other programs than those that `./review` and `./rollout` build.
"""
from __future__ import annotations

import os
import shutil
import subprocess
import sys
import tempfile
from dataclasses import dataclass
from pathlib import Path

sys.dont_write_bytecode = True

import random_networks  # noqa: E402

TOP = Path(__file__).resolve().parent.parent
EXAMPLE = TOP / "examples/rollout"
REVIEW = os.environ.get("DIQENYU_REVIEW", str(TOP / "review"))
ROLLOUT = os.environ.get("DIQENYU_ROLLOUT", str(TOP / "rollout"))
# How many variants are compared where no number is given.
COMPARED = 100


@dataclass(frozen=True)
class Run:
    """What a run left behind."""

    status: int
    out: bytes
    err: bytes


@dataclass(frozen=True)
class Variant:
    """A variant, with the files that it names in their order."""

    name: str
    paths: tuple[Path, ...]

    def lines(self) -> list[str]:
        return [f"variant {self.name}"] + [f"change {path}" for path in self.paths]


class Wrong(Exception):
    """A run that differs from what is expected."""


def run(program: str, *words: object) -> Run:
    done = subprocess.run([program, *map(str, words)], capture_output=True, check=False)
    return Run(done.returncode, done.stdout, done.stderr)


def wants(what: str, found: Run, wanted: Run) -> None:
    if found != wanted:
        raise Wrong(f"FAILED {what}:\nwanted {wanted}\nfound  {found}")


def write(path: Path, lines: list[str]) -> Path:
    path.write_text("".join(line + "\n" for line in lines), encoding="latin-1")
    return path


# ---- random networks


def host_of(path: Path) -> str:
    """The hostname of a configuration that was written here: it stands in its first line."""
    return path.read_text(encoding="latin-1").split("\n", 1)[0].split()[1]


def with_changes(network: Path, copy: Path, paths: tuple[Path, ...]) -> Path:
    """A copy of the network with these files in the places of those of their hostnames."""
    shutil.rmtree(copy, ignore_errors=True)
    shutil.copytree(network, copy)
    for path in paths:
        shutil.copy(path, copy / (host_of(path) + ".cfg"))
    return copy


def changed_files(maker: random_networks.Maker, folder: Path, devices: dict) -> list[Path]:
    """Some changed configurations, and some that are as in the network."""
    files = []
    for number in range(maker.pick(2, 4, 6)):
        name = maker.random.choice(list(devices))
        sections = [section[:] for section in devices[name]]
        for _ in range(maker.pick(0, 1, 1, 2, 3)):
            maker.change(sections)
        lines = ["hostname " + name] + [line for section in sections for line in section]
        files.append(write(folder / f"{number}.cfg", lines))
    return files


def variants_of(maker: random_networks.Maker, files: list[Path]) -> list[Variant]:
    """Some variants of one, two or three files or of none; a file may stand in several, and in one twice."""
    return [
        Variant(f"v{number}", tuple(maker.random.choice(files) for _ in range(maker.pick(0, 1, 1, 1, 2, 3))))
        for number in range(maker.pick(1, 3, 5, 8))
    ]


def is_accepted(network: Path, links: Path, scratch: Path, variant: Variant) -> bool:
    """Whether the network after each of its changes is one that can be compared."""
    for count in range(1, len(variant.paths) + 1):
        copy = with_changes(network, scratch / "copy", variant.paths[:count])
        if run(REVIEW, "compare", network, copy, links).status not in (0, 1):
            return False
    return True


def report_on(network: Path, links: Path, scratch: Path, variant: Variant, opinion: bool) -> bytes:
    """What is to be written of a variant, by the comparison of two folders."""
    copy = with_changes(network, scratch / "copy", variant.paths)
    report = run(REVIEW, "compare", network, copy, links)
    if report.status not in (0, 1):
        raise Wrong(f"FAILED compare of {variant}: {report}")
    if opinion:
        rules = run(sys.executable, TOP / "tests/rules.py", network, copy, links)
        wants(f"second opinion on {variant}", Run(report.status, rules.out, b""), report)
    affected = report.out.splitlines()[-1].decode()
    line = f"variant {variant.name} {affected}\n".encode()
    return line + (report.out if report.status == 1 else b"")


def try_network(scratch: Path, seed: int) -> int:
    """Compares some variants of a random network, and answers how many; none where the network isn't accepted."""
    maker = random_networks.Maker(seed)
    devices = maker.network()
    random_networks.write(str(scratch), "net", devices)
    network, links = scratch / "net", write(scratch / "links", maker.links)
    if run(REVIEW, "compare", network, network, links).status != 0:
        return 0
    files = changed_files(maker, scratch, devices)
    variants = [one for one in variants_of(maker, files) if is_accepted(network, links, scratch, one)]
    text = write(scratch / "variants", [line for one in variants for line in one.lines()])
    parts = [report_on(network, links, scratch, one, seed % 4 == 0) for one in variants]
    wanted = b"".join(parts) + f"variants {len(variants)}\n".encode()
    status = int(any(b"\n" in part[:-1] for part in parts))
    wants(f"seed {seed}", run(ROLLOUT, "variants", network, links, text), Run(status, wanted, b""))
    return len(variants)


def try_networks(count: int) -> int:
    compared, seed = 0, 0
    while compared < count:
        seed += 1
        with tempfile.TemporaryDirectory() as scratch:
            compared += try_network(Path(scratch), seed)
    return compared


# ---- cases by hand


def answer(scratch: Path, lines: list[str]) -> Run:
    return run(ROLLOUT, "variants", EXAMPLE / "net", EXAMPLE / "links", write(scratch / "variants", lines))


def refused(scratch: Path, rest: str) -> Run:
    return Run(3, b"", f"refused {scratch / 'variants'} line {rest}\n".encode())


def try_refusals(scratch: Path) -> None:
    """Each kind of refusal, at its line, with its word."""
    good = f"change {EXAMPLE / 'changes/R5.cfg'}"
    stranger = write(scratch / "stranger.cfg", ["hostname R9", "interface Ethernet0"])
    own = (EXAMPLE / "net/R4.cfg").read_text()
    twice = write(scratch / "twice.cfg", own.replace(" 10.0.24.1 ", " 10.0.24.0 ").splitlines())
    cases = [
        ("a change above all variants", ["! first", good], "2 BadWord change"),
        ("a word that isn't one of both", ["variant a", "chnage x"], "2 BadWord chnage"),
        ("a name that is missing", ["variant a", good, "variant"], "3 MissingWord"),
        ("a word behind a name", ["variant a b"], "1 BadWord b"),
        ("a path that is missing", ["variant a", "change"], "2 MissingWord"),
        ("a word behind a path", ["variant a", good + " more"], "2 BadWord more"),
        ("a device that isn't there", ["variant a", good, "variant b", f"change {stranger}"], "4 UnknownDevice R9"),
        ("an address twice", ["variant a", good, "variant b", f"change {twice}"], "4 AddressTwice 10.0.24.0"),
        ("the text is read before the files", ["variant a", f"change {stranger}", "variant"], "3 MissingWord"),
    ]
    for what, lines, rest in cases:
        wants(what, answer(scratch, lines), refused(scratch, rest))
    wants("a file that isn't there", answer(scratch, ["variant a", f"change {scratch}/none"]), Run(8, b"", f"not found {scratch}/none\n".encode()))
    many = ["variant a"] * 65537
    wants("a variant too many", answer(scratch, many), Run(5, b"", f"too many files {scratch / 'variants'}\n".encode()))
    wants("no variants", answer(scratch, ["! none"]), Run(0, b"variants 0\n", b""))
    wants("as many as there may be", answer(scratch, []), Run(0, b"variants 0\n", b""))


def main() -> int:
    count = int(sys.argv[1]) if len(sys.argv) > 1 else COMPARED
    try:
        with tempfile.TemporaryDirectory() as scratch:
            try_refusals(Path(scratch))
        print(f"{try_networks(count)} variants compared")
    except Wrong as wrong:
        print(wrong)
        return 1
    return 0


if __name__ == "__main__":
    sys.exit(main())
