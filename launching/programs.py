"""How Python programs find and call `review`, `rollout`, `view` and `doctor`.

What is run is what the launchers run: the program that the environment names (DIQENYU_REVIEW and the like), that of a release, the one
that ./prove built of today's sources, or else one that is built of them without proofs. The last is built here where it isn't; a proof is
never begun.
"""
from __future__ import annotations

import os
import subprocess
from functools import lru_cache
from typing import Iterable, NamedTuple

TOP = os.path.dirname(os.path.dirname(os.path.abspath(__file__)))
LAUNCH = os.path.join(TOP, "launch")
PROVED, UNPROVED, NAMED = "proved", "unproved", "named"
# The status of a program that can't be built, or isn't proved where it has to be.
NOT_BUILT = 70


class Program(NamedTuple):
    """A program that stands built: `state` is PROVED, UNPROVED, or NAMED, by the environment, of which nothing is known; `kit` proved or
    compiled it, and is empty where nobody knows."""

    name: str
    state: str
    path: str
    kit: str

    def told(self) -> str:
        """What is known of its proof, in words."""
        if self.state == PROVED:
            return "proved by %s" % self.kit
        return "not proved on this machine" if self.state == UNPROVED else "named by the environment, nothing is known of its proof"


class NotBuilt(Exception):
    """There is no such program to run; `told` is the line that says why, or nothing where it is told already."""

    def __init__(self, told: str) -> None:
        super().__init__(told)
        self.told = told


def named(name: str) -> str:
    """The program that the environment names in place of this one, or nothing."""
    return os.environ.get("DIQENYU_" + name.upper(), "")


def wants_proof() -> bool:
    """Whether only proved programs may be run."""
    return os.environ.get("DIQENYU_PROVED", "0") not in ("", "0")


def launch(word: str, name: str, errors: int | None) -> Program | None:
    """The program that `launch` answers with, in three lines, or None where it has none."""
    done = subprocess.run([LAUNCH, word, name], stdin=subprocess.DEVNULL, stdout=subprocess.PIPE, stderr=errors, check=False)
    if done.returncode != 0:
        return None
    state, path, kit = done.stdout.decode("utf-8", "surrogateescape").split("\n")[:3]
    return Program(name, state, path, kit)


@lru_cache(maxsize=None)
def stood(name: str, given: str, only_proved: bool) -> Program | None:
    """The program that may be run as things stand; `given` is what the environment names."""
    if given and not only_proved:
        path = os.path.abspath(given)
        return Program(name, NAMED, path, "") if os.path.isfile(path) and os.access(path, os.X_OK) else None
    program = launch("--state", name, subprocess.DEVNULL)
    return program if program is None or program.state == PROVED or not only_proved else None


def standing(name: str) -> Program | None:
    """The program that may be run as things stand, or None. Builds nothing."""
    return stood(name, named(name), wants_proof())


def find(name: str) -> Program:
    """The program, which is built without its proof where nothing stands built: that takes minutes, and lines on the error output tell of
    it. NotBuilt where there is none, or where DIQENYU_PROVED wants a proved one and there is none."""
    program = standing(name)
    if program is None and named(name) and not wants_proof():
        raise NotBuilt("%s: no program %s\n" % (name, os.path.abspath(named(name))))
    if program is None:
        # (the lines of a build, or why there is none, are told as they come)
        program = launch("--find", name, None)
        stood.cache_clear()
    if program is None:
        raise NotBuilt("")
    return program


def command(name: str) -> list[str]:
    """How the program is called, before its words: within the memory of the machine. NotBuilt as `find`."""
    return [LAUNCH, "--run", find(name).path]


def unproved_line(caller: str, names: Iterable[str]) -> str:
    """The line that a run tells first whose programs are not all proved here; nothing where they are, or where the environment names
    them."""
    found = [name for name in names if find(name).state == UNPROVED]
    if not found:
        return ""
    said = found[0] if len(found) == 1 else "%s and %s" % (", ".join(found[:-1]), found[-1])
    return "%s: the proof of this build of %s has not been checked on this machine: ./prove %s checks it\n" % (
        caller, said, " ".join(found))


def version() -> str:
    """The version of the product, as the file VERSION has it."""
    with open(os.path.join(TOP, "VERSION"), encoding="ascii") as stream:
        return stream.readline().strip()
