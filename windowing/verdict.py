"""The verdict on a change window, in a sentence, with the fewest lines behind what isn't expected."""
from __future__ import annotations

from collections import Counter
from itertools import combinations
from typing import Sequence

from kinds import KINDS
from line_words import line_text
from model import Cause, Finding, Result
from statuses import CAUSES

FOREIGN = "packets whose source can't be where they come in"
# A verdict names so many lines at most.
MOST_LINES = 3


def is_as_expected(result: Result) -> bool:
    """Whether everything happens that was expected, and nothing else."""
    return not result.missing and not result.undecided


def word_of(result: Result) -> str:
    """The verdict in a word: `unexpected` where something was expected otherwise, `decide` where there is something to look at, else
    `expected`, or `nothing` where nothing was said to be expected and nothing changes."""
    some = [CAUSES[cause](result) for cause in ("warnings", "idle", "edges", "standing-questions")]
    if result.missing or CAUSES["questions"](result):
        return "unexpected"
    if result.expected and any(finding.expected == "part" or result.expected.nothing_else for finding in result.undecided):
        return "unexpected"
    if result.undecided or any(some):
        return "decide"
    return "expected" if result.expected else "nothing"


def kinds_words(findings: Sequence[Finding]) -> str:
    """Findings by their kinds: `closes 2, opens 1`."""
    kinds = Counter(finding.kind for finding in findings)
    return ", ".join("%s %d" % (kind, kinds[kind]) for kind in KINDS if kind in kinds)


def reasons(result: Result) -> list[str]:
    """What there is to decide, the weightiest first."""
    found = ["packets change as expected"] if result.expected and is_as_expected(result) else []
    if result.missing:
        found.append("%d of what was expected %s happen" % (len(result.missing), "doesn't" if len(result.missing) == 1 else "don't"))
    fail_now = sum(question.fails_now for question in result.questions or ())
    if fail_now:
        found.append("%d %s" % (fail_now, "question fails now" if fail_now == 1 else "questions fail now"))
    if result.undecided:
        found.append("%s (%s)" % ("unexpected changes" if result.expected else "packets change", kinds_words(result.undecided)))
    some = [(len(result.warnings.new), "new warning", "new warnings"),
            (sum(idle.counts for idle in result.idle), "line without effect", "lines without effect")]
    found += ["%d %s" % (number, one if number == 1 else several) for number, one, several in some if number]
    changed = [edge for edge in result.edges if edge.why and edge.kinds]
    unseen = [edge for edge in result.edges if edge.why and edge.kinds is None]
    if changed:
        kinds = [kind for kind in KINDS if any(kind in (edge.kinds or ()) for edge in changed)]
        more = " and %d more" % (len(changed) - 1) if changed[1:] else ""
        found.append("packets change at edges that are no ingress: %s at %s%s" % (", ".join(kinds), changed[0].place, more))
    if unseen:
        found.append("%d edges that are no ingress" % len(unseen))
    if not found[1:] and result.warnings.both:
        found.append("%d standing warnings" % len(result.warnings.both) if result.warnings.both[1:] else "a standing warning")
    if not fail_now and CAUSES["standing-questions"](result):
        found.append("questions fail in both networks")
    return found


def sentence_of(result: Result) -> str:
    """The verdict in a sentence."""
    word = word_of(result)
    if word == "nothing":
        return "Nothing changes %s." % ("but for " + FOREIGN if result.foreign else "for any packet")
    if word == "expected":
        return "As expected: all that was expected happens, and nothing else%s." % (" but for " + FOREIGN if result.foreign else "")
    return "%s: %s." % ("Not as expected" if word == "unexpected" else "To be decided", "; ".join(reasons(result)))


def stays(cause: Cause | None, without: frozenset[int]) -> bool:
    """Whether something still comes of the change where these lines are taken out of it: of lines that are needed none may be missing,
    of lines that each do it one is enough, and of a set that does it together some of it may be missing."""
    if cause is None:
        return True
    lines = frozenset(cause.lines)
    return not lines & without if cause.how == "by" else not lines <= without


def fewest_lines(findings: Sequence[Finding]) -> tuple[int, ...]:
    """The fewest lines, at most three, without which none of the findings is there; none where there are no such lines."""
    if not findings or any(finding.cause is None for finding in findings):
        return ()
    tally = Counter(line for finding in findings if finding.cause for line in finding.cause.lines)
    # (lines that only one finding names can be exchanged for one another: the first of each finding is enough)
    candidates = sorted(tally, key=lambda line: (-tally[line], line))[:25]
    for count in range(1, MOST_LINES + 1):
        for some in combinations(candidates, count):
            if not any(stays(finding.cause, frozenset(some)) for finding in findings):
                return tuple(sorted(some))
    return ()


def lines_behind(result: Result) -> list[str]:
    """Which lines are behind all that isn't expected, and what the change without them still does."""
    some = fewest_lines(result.undecided)
    if not some:
        return []
    by_number = {line.number: line for line in result.lines}
    told = " and ".join(line_text(by_number[number]) for number in some)
    without = " Without %s %s." % ("it" if len(some) == 1 else "them", result.rest) if result.rest else ""
    return ["All of it comes of %s.%s" % (told, without)]


def verdict_of(result: Result) -> list[str]:
    """The verdict's sentence, and a second one where few lines are behind it."""
    return [sentence_of(result), *lines_behind(result)]
