"""Waivers: lines that the verifier refuses and that a person lets be left out, each with its reason.

A file has a line for each: `DEVICE WORDS : REASON`. The words are those of the line; `..` as the last one stands for any further ones.
"""
from dataclasses import dataclass, field

from .blocks import Block, lines_of
from .checking import refused_lines
from .marks import waived_mark
from .texts import Line, is_indented, read_lines, says_something

ANY_MORE = ".."


@dataclass
class Waiver:
    """A line of the file: the device, the words, the reason, and whether a line was left out by it."""

    device: str
    words: list
    reason: str
    line: Line
    used: bool = field(default=False)

    def fits(self, words):
        """Whether it is about a line of these words."""
        if self.words[-1] == ANY_MORE:
            return words[:len(self.words) - 1] == self.words[:-1]
        return words == self.words


def read_waivers(path):
    """The waivers of a file, by the names of their devices."""
    waivers = {}
    for line in read_lines(path):
        if not says_something(line):
            continue
        what, sign, reason = line.text.partition(" : ")
        words = Line(what, path, line.number).words()
        if not sign or not reason.strip() or len(words) < 2:
            raise line.refused("MissingWord")
        if words[1:] == [ANY_MORE]:
            raise line.refused("BadWord", ANY_MORE)
        waivers.setdefault(words[0], []).append(Waiver(words[0], words[1:], reason.strip(), line))
    return waivers


def waive(device, waivers):
    """Leaves out the lines that the verifier refuses and a waiver is about, each with what stands below it; gives the waivers that were
    needed. A line that is accepted stays, whatever a waiver says."""
    used = []
    for line, _, _ in list(refused_lines(device.path, lines_of(device.blocks))):
        waiver = next((one for one in waivers if line.number and one.fits(line.words())), None)
        if waiver is None:
            continue
        take_out(device, line, "waived: %s" % waiver.reason)
        waiver.used = True
        if not any(waiver is one for one in used):
            used.append(waiver)
    for waiver in used:
        waived_mark(device, " ".join(waiver.words), waiver.reason)
    return used


def take_out(device, line, reason):
    """Takes a line out, with what stands below it where it is at the margin."""
    for k, block in enumerate(device.blocks):
        if block.head is line and not is_indented(line.text):
            device.told.block(block, "left out", reason)
            device.blocks[k:k + 1] = [Block(None, block.comments())] if block.comments() else []
            return
        for j, other in enumerate(block.body):
            if other is line:
                device.told.line(line, "left out", reason)
                del block.body[j]
                return


def check_used(waivers):
    """Refuses the first waiver that no line needs: the line is accepted, or isn't there."""
    for waiver in sorted((one for several in waivers.values() for one in several), key=lambda one: one.line.number):
        if not waiver.used:
            raise waiver.line.refused("NotThere", " ".join([waiver.device] + waiver.words))
