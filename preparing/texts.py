"""Files as lines and words, as the verifier takes them: lines end at LF, words stand between blanks, tabs and CRs.

Bytes above 127 stay what they are: each is one character here, is never a blank or a digit, and is written as it was read.
"""
import functools
import os
import re
from typing import NamedTuple, Optional

from .faults import CannotRead, NotFound, Refused

WORD = re.compile(r"[^ \t\r]+")
PAGER = re.compile(r"-+ ?more ?-+", re.IGNORECASE)
# A backspace or an escape is what a pager or an editor of lines leaves behind; a zero byte is no text of a device.
STRANGE = re.compile("[\x00\x08\x1b]")
# What wipes a pager's mark: backspaces over it, or a return to the margin, perhaps with blanks between, or an escape.
WIPED = re.compile("[>]?[ \x08\r]*[\x08\r](?:\x1b\\[[0-9]*K)?")
LINE_ENDS = "the verifier's lines end at a line feed"
# No number of a device is so long, and Python reads none of more than 4,300 digits.
LONG_NUMBER = re.compile("[0-9]{1000}")
BYTE_ORDER_MARK = b"\xef\xbb\xbf"


class Line(NamedTuple):
    """A line with the place that it comes from: a line that was written anew has the place of its cause. `entry` is the number that
    the device has of an entry where the line has another."""

    text: str
    path: str
    number: int
    entry: Optional[int] = None

    def words(self):
        """The words of the line."""
        return words_of(self.text)

    def refused(self, kind, word="", candidates=()):
        """The refusal of this line."""
        return Refused(self.path, self.number, kind, word, candidates)

    def again(self, text, entry=None):
        """Another text for the same place."""
        return Line(text, self.path, self.number, entry)


@functools.lru_cache(maxsize=1 << 16)
def known_words(text):
    """The words of a text, which is asked for again and again."""
    return tuple(WORD.findall(text))


def words_of(text):
    """The words of a text."""
    return list(known_words(text))


def is_indented(text):
    """Whether a line belongs to the section of an earlier one."""
    return text[:1] in (" ", "\t")


def says_something(line):
    """Whether a line is neither blank nor a comment."""
    return line.text.lstrip(" \t\r")[:1] not in ("", "!")


def read_bytes(path):
    """The bytes of a file."""
    try:
        with open(path, "rb") as file:
            return file.read()
    except FileNotFoundError:
        raise NotFound(path) from None
    except OSError:
        raise CannotRead(path) from None


def read_lines(path, notes=None):
    """The lines of a file without their ends. `notes` takes what was taken off, each as a line's number (0 for the whole file), a text
    and a reason; without it a pager's mark is refused."""
    content = read_bytes(path)
    if content.startswith(BYTE_ORDER_MARK):
        content = content[len(BYTE_ORDER_MARK):]
        if notes is not None:
            notes.append((0, "a byte order mark before the first line", LINE_ENDS))
    whole = content.decode("ascii", "surrogateescape")
    texts = whole.split("\n")
    if texts[-1] == "":
        texts.pop()
    if "\r" in whole:
        ended = sum(text.endswith("\r") for text in texts)
        texts = [text.rstrip("\r") for text in texts]
        if ended and notes is not None:
            notes.append((0, "the carriage returns at the ends of %d lines" % ended, LINE_ENDS))
    lines = [Line(text, str(path), number) for number, text in enumerate(texts, 1)]
    if "more" in whole.lower() and PAGER.search(whole):
        lines = without_pagers(lines, notes)
    if STRANGE.search(whole) or LONG_NUMBER.search(whole):
        check_characters(lines)
    return lines


def check_characters(lines):
    """Refuses what no device shows."""
    for line in lines:
        if STRANGE.search(line.text):
            raise line.refused("ControlCharacter", "0x%02x" % ord(STRANGE.search(line.text).group()))
        if LONG_NUMBER.search(line.text):
            raise line.refused("BadWord", LONG_NUMBER.search(line.text).group()[:64])


def without_pagers(lines, notes):
    """The lines without the pager's marks and what wipes them. What stands behind a mark that nothing wipes is refused: whether its
    blanks belong to it can't be seen."""
    kept, behind = [], False
    for line in lines:
        found, wiped = PAGER.search(line.text), WIPED.match(line.text)
        if found is None:
            kept.append(line.again(line.text[wiped.end():]) if behind and wiped else line)
            behind = False
            continue
        rest = line.text[found.end():]
        wiped = WIPED.match(rest)
        if notes is None or line.text[:found.start()].strip(" \t<\x08\r") or not wiped and rest.strip(" \t>"):
            raise line.refused("Paged", found.group())
        notes.append((line.number, found.group(), "a pager's mark"))
        if wiped and rest[wiped.end():]:
            kept.append(line.again(rest[wiped.end():]))
        behind = not wiped
    return kept


def to_bytes(lines):
    """The bytes of a file of these lines."""
    return "".join(line.text + "\n" for line in lines).encode("ascii", "surrogateescape")


def files_of(folder, ending):
    """The names in a folder that have an ending, in the order of their bytes, and all other names."""
    try:
        names = sorted(os.listdir(folder), key=os.fsencode)
    except FileNotFoundError:
        raise NotFound(folder) from None
    except OSError:
        raise CannotRead(folder) from None
    wanted = [name for name in names if name.endswith(ending) and name != ending]
    if not wanted:
        raise NotFound(os.path.join(folder, "*" + ending))
    return wanted, [name for name in names if name not in wanted]
