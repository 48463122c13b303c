"""What decides the status of a window."""
from __future__ import annotations

from typing import Callable

from kinds import KINDS
from model import Result
from words import Usage

# A status of its own: a question fails that held before.
QUESTION_FAILS = 9


def named(kind: str) -> Callable[[Result], bool]:
    """Whether there is something of a kind that isn't expected."""
    return lambda result: any(finding.kind == kind for finding in result.undecided)


# What `--fail-on` can name, and when it is there. Without the option each of DEFAULT counts.
CAUSES: dict[str, Callable[[Result], bool]] = {
    "missing": lambda result: bool(result.missing),
    "unexpected": lambda result: bool(result.undecided),
    **{kind.replace(" ", "-"): named(kind) for kind in KINDS},
    "foreign": lambda result: bool(result.foreign),
    "warnings": lambda result: bool(result.warnings.new or result.warnings.both),
    "new-warnings": lambda result: bool(result.warnings.new),
    "idle": lambda result: any(idle.counts for idle in result.idle),
    "edges": lambda result: any(edge.why and edge.kinds != () for edge in result.edges),
    "standing-questions": lambda result: any(question.after is False for question in result.questions or ()),
    "questions": lambda result: any(question.fails_now for question in result.questions or ()),
}
DEFAULT = ("missing", "unexpected", "warnings", "idle", "edges", "standing-questions", "questions")


def status_of(result: Result, fail_on: tuple[str, ...] | None = None) -> int:
    """0 where all is as expected or there is nothing to say, 1 where there is something to decide, 9 where a question fails that held
    before."""
    counted = [cause for cause in (DEFAULT if fail_on is None else fail_on) if CAUSES[cause](result)]
    return QUESTION_FAILS if "questions" in counted else 1 if counted else 0


def causes_in(text: str | None) -> tuple[str, ...] | None:
    """What `--fail-on` names, with commas; None without the option. Usage for a word that is no cause."""
    if text is None:
        return None
    causes = [word for word in text.split(",") if word != "none"]
    if "" in causes or not set(causes) <= set(CAUSES):
        raise Usage
    return tuple(causes)
