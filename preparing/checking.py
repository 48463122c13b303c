"""Asks the verifier itself what it still refuses in what was prepared, in all files at once.

Each file is read alone, and a line that is refused is taken out for the next reading, until nothing more is refused. The places are
those of the texts that the lines come from.
"""
import os
import re
import subprocess
import tempfile

from launching.programs import NotBuilt, command, unproved_line

from .blocks import blocks_of
from .faults import CannotRead, Faults, NoProgram, Refused
from .texts import Line, is_indented, to_bytes
from .told import print_lines

REFUSAL = re.compile(r"refused (?P<path>.*) line (?P<line>\d+) (?P<kind>\w+) ?(?P<word>.*)")
# More refusals than this of one file tell nothing more.
MOST = 100


def program():
    """How the program that reads is called, before its words."""
    try:
        return command("review")
    except NotBuilt as none:
        raise NoProgram(none.told.strip()) from None


def tell_unproved():
    """Tells where the answers aren't those of a proved program."""
    program()
    line = unproved_line("prepare", ["review"]).rstrip("\n")
    if line:
        print_lines([line])


def first_refusal(lines):
    """The first refusal of a text, as its line, kind and word; None where it is accepted."""
    with tempfile.TemporaryDirectory() as folder:
        with open(os.path.join(folder, "device.cfg"), "wb") as file:
            file.write(to_bytes(lines))
        try:
            done = subprocess.run([*program(), "read", folder], capture_output=True, check=False)
        except OSError as error:
            raise CannotRead("review", error.strerror) from None
    if done.returncode == 0:
        return None
    told = done.stderr.decode("utf-8", "surrogateescape").strip().split("\n")[-1]
    found = REFUSAL.fullmatch(told)
    if done.returncode != 3 or found is None:
        raise CannotRead("review", told or "status %d" % done.returncode)
    return int(found["line"]), found["kind"], found["word"]


def placeholder(line):
    """What stands in place of a refused line: below a line at the margin a comment, and at the margin a command that opens no
    section and is passed over, so that what stands below it is passed over too."""
    return line.again("!" if is_indented(line.text) else "taken-out")


def refused_lines(path, lines):
    """All lines of a text that the verifier refuses, each with the kind and the word; one of number 0 is the whole file, which ends them."""
    lines, count = list(lines), 0
    while count < MOST:
        refusal = first_refusal(lines)
        if refusal is None:
            return
        number, kind, word = refusal
        place = lines[number - 1] if number else Line("", path, 0)
        yield place, kind, word
        if number == 0:
            return
        lines[number - 1] = placeholder(place)
        count += 1


def refusals(path, lines):
    """All refusals of a text, as faults."""
    blocks_of(lines)
    return [Refused(place.path, place.number, kind, word) for place, kind, word in refused_lines(path, lines)]


def check(texts):
    """Raises what the verifier refuses in these texts, pairs of a path and its lines."""
    tell_unproved()
    found = [fault for path, lines in texts for fault in refusals(path, lines)]
    if found:
        raise Faults(found)
