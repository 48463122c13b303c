"""Tells a person who waits at a terminal how far some work is."""
from __future__ import annotations

import sys
import time

# After so many seconds a terminal is told.
PATIENCE = 2.0


class Progress:
    """How far some work is, in jobs or in other `units`, on a terminal and after some patience only."""

    def __init__(self, what: str, units: str = "jobs") -> None:
        self.what, self.units, self.began, self.done, self.total, self.shown = what, units, time.monotonic(), 0, 0, False

    def more(self, count: int) -> None:
        self.total += count

    def step(self, count: int) -> None:
        """So many jobs more are done; also none, as time goes on."""
        self.done += count
        seconds = time.monotonic() - self.began
        if seconds > PATIENCE and sys.stderr.isatty():
            self.shown = True
            sys.stderr.write("\r%s: %d of %d %s, %d seconds " % (self.what, self.done, self.total, self.units, seconds))
            sys.stderr.flush()

    def end(self) -> None:
        if self.shown:
            sys.stderr.write("\r\033[K")
            sys.stderr.flush()
            self.shown = False
