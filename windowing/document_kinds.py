"""The kinds of what a change does, as the proved document of a report has them: they depend on the outcomes alone."""
from __future__ import annotations

import json
import os
from typing import Iterable, Mapping, Sequence

from programs import run
from sources import write

Ends = tuple[str, str]  # the old and the new outcomes, as a report writes them


def report_of(pairs: Sequence[Ends]) -> str:
    """A report with a row for each pair, each at an ingress of its own."""
    any_header = "dst * src * proto * dport * sport * flags *"
    rows = ["ingress P%d E rows 1\n%s\nold %s\nnew %s\n" % (number, any_header, *pair) for number, pair in enumerate(pairs)]
    return "".join(rows) + "affected %d\n" % len(pairs)


class DocumentKinds:
    """The kinds of pairs of outcomes, each asked of `view` once. Its files stand in a folder."""

    def __init__(self, folder: str) -> None:
        self.folder = folder
        self.known: dict[Ends, str] = {}

    def of(self, pairs: Iterable[Ends]) -> Mapping[Ends, str]:
        """The kinds of these pairs, and of all that were asked before."""
        asked = [pair for pair in dict.fromkeys(pairs) if pair not in self.known]
        if asked:
            self.known.update(zip(asked, self.asked(asked)))
        return self.known

    def asked(self, pairs: Sequence[Ends]) -> list[str]:
        """The kinds of these pairs, in their order."""
        report, told = write(os.path.join(self.folder, "kinds-report"), report_of(pairs)), os.path.join(self.folder, "kinds")
        run("view", ["--json", report], told)
        with open(told, encoding="utf-8") as stream:
            document = json.load(stream)
        return [place["groups"][0]["kind"] for place in document["ingresses"]]
