#!/usr/bin/env python3
"""Finds what docs/PROVED.md and docs/CRATES.md name and no contract has, and what they call unused though a command uses it.

A name is `crate::item` or `crate::type::item` between backticks; an item is a function, a type, a trait, a law or a clause of that crate.
PROVED's section "Proved too, and used by no command", and items of CRATES with the words "no command calls", name what is unused. It is
used if a crate below a program, and not of tests or benchmarks, names it outside its own crate's comments.

The last line is 'N passed, M failed'.
"""
from __future__ import annotations

import os
import re
import sys
from typing import Iterator

TOP = os.path.dirname(os.path.dirname(os.path.abspath(__file__)))
PROGRAMS = ("review_cli", "rollout_cli", "view_cli", "doctor_cli")
UNUSED = "## Proved too, and used by no command"


def read_text(*path: str) -> str:
    """The text of a file below the top."""
    with open(os.path.join(TOP, *path), encoding="utf-8") as stream:
        return stream.read()


def dependencies() -> dict[str, list[str]]:
    """The libraries of each crate, by crates.txt."""
    lines = (line.split(":", 1) for line in read_text("crates.txt").splitlines() if ":" in line and not line.startswith("#"))
    return {head.split()[0]: rest.split() for head, rest in lines}


def below(crates: dict[str, list[str]], names: tuple[str, ...]) -> set[str]:
    """These crates and all below them."""
    found: set[str] = set()
    left = [name for name in names if name in crates]
    while left:
        name = left.pop()
        if name not in found:
            found.add(name)
            left += [other for other in crates[name] if other in crates]
    return found


def code_of(crate: str) -> str:
    """The code of a crate without its comments and its contracts' imports."""
    folder = os.path.join("crates", crate, "src")
    texts = (read_text(folder, name) for name in sorted(os.listdir(os.path.join(TOP, folder))) if name.endswith(".rt"))
    lines = "\n".join(texts).splitlines()
    return "\n".join(line.split("//")[0] for line in lines if not line.lstrip().startswith("ghost use"))


def items_of(crate: str) -> set[str]:
    """The functions, types, traits, modules and clauses of a crate, and its definitions."""
    code = code_of(crate)
    found = set(re.findall(r"\b(?:fn|struct|enum|trait|mod|const|type)\s+(\w+)", code))
    found |= set(re.findall(r"\bensures\s+(\w+)\s*\{", code))
    folder = os.path.join(TOP, "crates", crate, "specs")
    for name in os.listdir(folder) if os.path.isdir(folder) else []:
        if name.endswith(".antt"):
            found |= set(re.findall(r"^(?:abbrev |unfoldable |record )*pub (?:record )?(\w+)", read_text("crates", crate, "specs", name), re.M))
    return found


def named_in(text: str, crates: dict[str, list[str]]) -> Iterator[tuple[str, str]]:
    """The crates and items that a page names: the crate, and the last word of the item's path."""
    for path in re.findall(r"`(\w+(?:::\w+)+)`", text):
        parts = path.split("::")
        if parts[0] in crates:
            yield parts[0], parts[-1]


def called_unused(crates: dict[str, list[str]]) -> Iterator[tuple[str, str]]:
    """What the pages call unused: its crate and its name. In PROVED a row's first cell names the crate once, and then items of it."""
    section = read_text("docs", "PROVED.md").split(UNUSED)[1].split("\n## ")[0]
    for row in re.findall(r"^\| (`.*?) \|", section, re.M):
        crate = ""
        for path in re.findall(r"`([\w:]+)`", row):
            parts = path.split("::")
            crate = parts[0] if parts[0] in crates else crate
            yield crate, parts[-1]
    for item in re.findall(r"^- (`\w+`.*(?:\n  .*)*)", read_text("docs", "CRATES.md"), re.M):
        owner = item.split("`")[1]
        for name in re.findall(r"`(\w+)`[^`;]*no command calls", item.replace("\n", " ")):
            yield owner, name


def users_of(crate: str, name: str, codes: dict[str, str]) -> list[str]:
    """The crates below a program that name the item of another crate of theirs."""
    return [user for user, code in codes.items() if user != crate and re.search(r"\b%s\b" % re.escape(name), code)]


def failures() -> Iterator[str | None]:
    """What is wrong with each name; None where nothing is."""
    crates = dependencies()
    items = {crate: items_of(crate) for crate in crates}
    for page in ("PROVED.md", "CRATES.md"):
        for crate, name in named_in(read_text("docs", page), crates):
            yield None if name in items[crate] or name in crates else "%s names %s::%s, which isn't there" % (page, crate, name)
    used = below(crates, PROGRAMS)
    for name, count in re.findall(r"`(review|rollout|view)` (?:needs )?(\d+)\b", read_text("docs", "CRATES.md").replace("\n", " ")):
        there = len(below(crates, (name + "_cli",)))
        yield None if int(count) == there else "CRATES says that %s needs %s crates, and it needs %d" % (name, count, there)
    codes = {crate: code_of(crate) for crate in sorted(used)}
    for crate, name in called_unused(crates):
        users = [user for user in users_of(crate, name, codes) if crate in crates[user]] if crate in used else []
        yield "%s::%s is called unused, and %s use it" % (crate, name, ", ".join(users)) if users else None


def main() -> int:
    """Tries all names; the status is 0 where all are right."""
    results = list(failures())
    for failure in results:
        if failure:
            print("FAILED", failure)
    failed = sum(1 for failure in results if failure)
    print("%d passed, %d failed" % (len(results) - failed, failed))
    return 1 if failed or not results else 0


if __name__ == "__main__":
    sys.exit(main())
