"""Outcomes of a document, as a report writes them and in short words."""
from __future__ import annotations

from typing import Any, Mapping, Sequence

from showing.texts import short

REPLACED = ("src", "dst", "sport", "dport")
SHORT = {"drop": "dropped", "expired": "goes round"}


def report_text(outcome: Mapping[str, Any]) -> str:
    """An outcome as a report writes it: `exit R1 Ethernet0 dst 10.0.0.1`."""
    end = outcome["end"]
    if len(outcome) == 1:
        return str(end)
    words = [end, outcome["device"], outcome["interface"]]
    for name in REPLACED if len(outcome) > 3 else ():
        if name in outcome:
            words += [name, str(outcome[name])]
    return " ".join(words)


def report_texts(outcomes: Sequence[Mapping[str, Any]]) -> str:
    """The outcomes of one side as a report writes them."""
    return report_text(outcomes[0]) if len(outcomes) == 1 else " | ".join(map(report_text, outcomes))


def short_words(outcome: Mapping[str, Any]) -> str:
    """An outcome in short: `out of R1 Et0`."""
    end = outcome["end"]
    if end in SHORT:
        return SHORT[end]
    place = "%s %s" % (outcome["device"], short(outcome["interface"]))
    words = "%s itself" % place if end == "local" else "out of %s" % place
    replaced = ["%s %s" % (name, outcome[name]) for name in REPLACED if name in outcome]
    return words + (" with %s" % " ".join(replaced) if replaced else "")


def side_words(outcomes: Sequence[Mapping[str, Any]]) -> str:
    """The outcomes of one side in short."""
    return " or ".join(map(short_words, outcomes))


def other_end(kind: str, old: str, new: str) -> str:
    """The end that the kind doesn't say: of `closes` where packets went."""
    if kind in ("closes", "loops", "loop gone"):
        return "was " + old
    return "now " + new if kind == "opens" else "was %s, now %s" % (old, new)
