"""A configuration as blocks: a line at the left margin with the lines that stand below it.

The division is the verifier's: an indented line belongs to the last line at the margin, and the text of a banner to its banner.
"""
from dataclasses import dataclass, field
from typing import Any

from .texts import is_indented, says_something, words_of


@dataclass
class Block:
    """A line at the margin with what stands below it. The first block of a file may have no line of its own, and a banner's body
    is its text, which is never read as commands."""

    head: Any = None
    body: list = field(default_factory=list)
    is_banner: bool = False
    # (each step of a preparation asks for the words)
    known: tuple = (None, [], "")

    def words(self):
        """The words of the line at the margin, which is a list of the block's own: nobody changes it."""
        if self.known[0] is not self.head:
            self.know(self.head.words())
        return self.known[1]

    def command(self):
        """The first word of the line at the margin; "" where it has none. Steps leave out by it what they have nothing to do with."""
        if self.known[0] is not self.head:
            self.know(self.head.words())
        return self.known[2]

    def know(self, words):
        """Keeps the words of the line at the margin; a banner's are no command."""
        self.known = (self.head, [], "") if self.is_banner else (self.head, words, words[0] if words else "")

    def inner(self):
        """The commands below, without blank lines and comments."""
        return [] if self.is_banner else [line for line in self.body if says_something(line)]

    def comments(self):
        """The blank lines and comments below."""
        return [] if self.is_banner else [line for line in self.body if not says_something(line)]

    def trailing(self):
        """How many comments and blank lines end the block."""
        count = 0
        while count < len(self.body) and not says_something(self.body[-1 - count]):
            count += 1
        return count

    def lines(self):
        """All lines of the block."""
        return ([self.head] if self.head is not None else []) + self.body

    def last(self):
        """The last line of the block that says something."""
        inner = self.inner()
        return inner[-1] if inner else self.head


def banner_delimiter(line):
    """The delimiter of a banner's line that leaves its text open, or None where it closes it itself."""
    words = line.words()
    if len(words) < 3:
        raise line.refused("MissingWord")
    rest = line.text
    for word in words[:2]:
        rest = rest[rest.index(word) + len(word):]
    rest = rest.lstrip(" \t\r")
    delimiter = "^C" if rest.startswith("^C") else rest[0]
    return None if delimiter in rest[len(delimiter):] else delimiter


def blocks_of(lines):
    """The blocks of a file, whose lines are together exactly the file's."""
    blocks, delimiter, opened = [Block()], None, None
    for line in lines:
        if delimiter is not None:
            blocks[-1].body.append(line)
            delimiter = None if delimiter in line.text else delimiter
        elif not says_something(line) or is_indented(line.text):
            if blocks[-1].is_banner:
                blocks.append(Block())
            blocks[-1].body.append(line)
        else:
            words = words_of(line.text)
            banner = words[0] == "banner"
            blocks.append(Block(line, [], banner))
            blocks[-1].know(words)
            if banner:
                delimiter, opened = banner_delimiter(line), line
    if delimiter is not None:
        raise opened.refused("BannerOpen")
    return [block for block in blocks if block.lines()]


def lines_of(blocks):
    """The lines of all blocks."""
    return [line for block in blocks for line in block.lines()]
