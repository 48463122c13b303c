"""The words of `view` that ask for a page, a table or test cases."""
from __future__ import annotations

from typing import NamedTuple, Sequence

USAGE = """usage:
  view [--title TEXT] REPORT
  view --html [--title TEXT] REPORT [LINKS]
  view --json REPORT
  view --csv REPORT
  view --audit [--html|--json|--csv] [--rows] FINDINGS NET
  view --answers [--html|--json|--csv|--junit] QUESTIONS [BEFORE] AFTER
  view --traces [--html|--json] OLD NEW LINKS DEVICE INTERFACE HEADER
  view --why [--html|--json] OLD NEW LINKS REPORT
  view --why-all [--html|--json] OLD NEW LINKS REPORT
  view --help
  view --version
"""
# What each command can be rendered as.
FORMS = {"report": ("--html", "--csv"), "--audit": ("--html", "--csv"), "--answers": ("--html", "--csv", "--junit"),
         "--traces": ("--html",), "--why": ("--html",), "--why-all": ("--html",)}
# How many operands each command takes.
COUNTS = {"--audit": (2,), "--answers": (2, 3), "--traces": (6,), "--why": (4,), "--why-all": (4,)}


class Usage(Exception):
    """The words are outside the usage."""


class Asked(NamedTuple):
    """A command, `report` where no word names one, with the form that is asked for and the command's operands."""

    command: str
    form: str
    operands: tuple[str, ...]
    title: str = ""
    with_rows: bool = False


def asked_of(words: Sequence[str]) -> Asked:
    """What the words ask. Usage where they ask for no page, no table and no test cases, or are outside the usage."""
    rest = list(words)
    command = rest.pop(0) if rest and rest[0] in COUNTS else "report"
    form = rest.pop(0) if rest else ""
    if form not in FORMS[command]:
        raise Usage
    title, with_rows = "", False
    if command == "report" and form == "--html" and rest[:1] == ["--title"] and len(rest) > 1:
        title, rest = rest[1], rest[2:]
    elif command == "--audit" and rest[:1] == ["--rows"]:
        with_rows, rest = True, rest[1:]
    counts = COUNTS.get(command, (1, 2) if form == "--html" else (1,))
    if len(rest) not in counts or not all(map(is_operand, rest[:3] if command == "--traces" else rest)):
        raise Usage
    return Asked(command, form, tuple(rest), title, with_rows)


def is_operand(word: str) -> bool:
    """Whether a word can be a path."""
    return word != "" and not word.startswith("-")
