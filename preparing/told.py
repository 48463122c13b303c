"""The table of what was done, for each device, on the error output."""
import sys
from dataclasses import dataclass, field
from typing import Optional


# What stands behind one of these words is nothing for the logs of a pipeline.
SECRET_FOLLOWS = ("authentication", "community", "key", "key-string", "password", "secret")


def without_secrets(text):
    """A line with single blanks, and without what stands behind a word that a secret follows."""
    words = text.split()
    for number, word in enumerate(words[:-1], 1):
        if word.lower() in SECRET_FOLLOWS:
            return " ".join(words[:number] + [".."])
    return " ".join(words)


@dataclass
class Told:
    """What was done to one file: rows of a place, what was done there, the line, and the reason. `path` is the file whose lines have
    numbers in the table."""

    title: str
    rows: list = field(default_factory=list)
    path: Optional[str] = None

    def row(self, first, last, what, text, reason):
        """A row for the lines from one number to another; 0 is the whole file."""
        place = "all" if first == 0 else str(first) if first == last else "%d-%d" % (first, last)
        self.rows.append((first, place, what, without_secrets(text), reason))

    def line(self, line, what, reason):
        """A row for one line."""
        self.row(line.number, line.number, what, line.text, reason)

    def block(self, block, what, reason):
        """A row for a line with what stands below it."""
        self.row(block.head.number, block.last().number, what, block.head.text, reason)

    def lines(self):
        """The table as lines: its title, and the rows in the order of the file."""
        rows = sorted(self.rows, key=lambda row: row[0])
        widths = [max((len(row[k]) for row in rows), default=0) for k in (1, 2)]
        texts = ["  %s  %s  %s: %s" % (place.rjust(widths[0]), what.ljust(widths[1]), text, reason) for _, place, what, text, reason in rows]
        return [self.title] + (texts or ["  nothing was changed"])


def print_lines(lines):
    """Writes lines to the error output, in the bytes of the texts that they name."""
    text = "".join(line + "\n" for line in lines).encode("utf-8", "surrogateescape")
    if sys.stderr is None:
        return
    try:
        sys.stderr.buffer.write(text)
        sys.stderr.buffer.flush()
    except OSError:
        # A reader that has gone, or an output that was closed, doesn't change the status.
        pass
