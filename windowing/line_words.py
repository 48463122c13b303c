"""Changed lines in words."""
from __future__ import annotations

from typing import Sequence

from model import Cause, Line


# Of so many lines each is told.
MOST_LINES = 3
HEADS = {"by": "by", "any": "each alone does it:", "all": "only together:"}


def cause_lines(cause: Cause, lines: Sequence[Line], named: set[int]) -> list[str]:
    """The changed lines of which something comes, each on a line: `by` all of them. Those that were `named` before stand by their places
    alone, in the last line."""
    by_number = {line.number: line for line in lines}
    fresh = [number for number in cause.lines if number not in named]
    again = [by_number[number].place for number in cause.lines if number in named]
    texts = [line_text(by_number[number]) for number in fresh[:MOST_LINES]]
    texts += ["%d more" % (len(fresh) - MOST_LINES)] if len(fresh) > MOST_LINES else []
    texts += [", ".join(again)] if again else []
    named.update(fresh[:MOST_LINES])
    head = HEADS[cause.how if len(cause.lines) > 1 else "by"] + " "
    return [(" " * len(head) if at else head) + text for at, text in enumerate(texts)]


def line_text(line: Line) -> str:
    """`DIST1.cfg:80 + 45 permit tcp any any`."""
    if line.parts:
        # (a line that stands for several parts tells the first ones)
        return line.said(1)
    return "%s %s %s" % (line.place, line.sign, line.text) + (" (and alike on %d more)" % len(line.also) if line.also else "")
